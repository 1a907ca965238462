use ghishmadul::{
    assemble, back, fresh, journal_bytes, position, predicate_file_bytes, read_entry, step,
    vector_file_bytes, Facts, JournalVersion, Refusal, Vector,
};

fn main() -> Result<(), Refusal> {
    // A core with SVE and registers of 32 bytes: Z1 holds ones, P0 governs every byte but the first.
    let (k, facts) = (2, Facts::SVE);
    let mut z = vec![0; vector_file_bytes(k)];
    let mut p = vec![0; predicate_file_bytes(k)];
    z[32..64].fill(1);
    p[..4].copy_from_slice(&[0xFE, 0xFF, 0xFF, 0xFF]);

    // A program of two words.
    let mut program = Vec::new();
    for line in ["uaddv d1, p0, z1.b", "uaddv d0, p0, z1.b"] {
        program.extend(assemble(line, facts)?.to_le_bytes());
    }

    // A journal with room for two entries. A school's older viewer would read one of the former version alone.
    let mut journal = vec![0; journal_bytes(k, 2)];
    fresh(k, JournalVersion::Current, &mut journal)?;

    // Forward: Z1 is overwritten by the sum of its own active lanes.
    step(k, facts, &mut z, &mut p, &program, &mut journal)?;
    println!("after a step Z1 begins {:?}", &z[32..36]);
    assert_eq!(z[32], 31);
    step(k, facts, &mut z, &mut p, &program, &mut journal)?;
    assert_eq!(step(k, facts, &mut z, &mut p, &program, &mut journal), Err(Refusal::End));
    assert_eq!(position(k, &journal), Ok(2));

    // What the first step found in its destination: the ones that a step back restores.
    let entry = read_entry(k, &journal, 0)?;
    println!("before its step {} began {:?}", entry.target, &entry.old[..4]);
    assert_eq!((entry.target, entry.old), (Vector::Z1.into(), &[1; 32][..]));
    assert_eq!(read_entry(k, &journal, 2), Err(Refusal::Range));

    // Back: Z1 is what it was.
    back(k, &mut z, &mut p, &mut journal)?;
    back(k, &mut z, &mut p, &mut journal)?;
    println!("after two steps back Z1 begins {:?}", &z[32..36]);
    assert!(z[32..64].iter().all(|&byte| byte == 1));
    assert_eq!(back(k, &mut z, &mut p, &mut journal), Err(Refusal::Empty));
    assert_eq!(position(k, &journal), Ok(0));
    Ok(())
}
