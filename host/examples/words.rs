use ghishmadul::{
    assemble, decode, text, text_of, Facts, NotAssembled, Pattern, Predicate, Refusal, Row, Size,
    Vector,
};

fn main() -> Result<(), Refusal> {
    // A word, its fields and its text, on a core with SVE.
    let (word, facts) = (0x0400_2020, Facts::SVE);
    let fields = decode(word, facts)?;
    println!("{:08x}: {:?}", word, fields);
    assert_eq!((fields.row, fields.size), (Row::Saddv, Size::B));
    assert_eq!((fields.d, fields.n), (Vector::Z0.into(), Some(Vector::Z1)));
    assert_eq!((fields.g, fields.m, fields.q), (Some(Predicate::P0), None, None));

    println!("{:08x}: {}", word, text_of(word, facts)?);
    assert_eq!(text_of(word, facts)?, "saddv d0, p0, z1.b");
    let mut out = [0; 32];
    let length = text(word, facts, &mut out)?;
    assert_eq!(&out[..length], b"saddv d0, p0, z1.b");

    // And back: a text is read exactly as it is written.
    assert_eq!(assemble("saddv d0, p0, z1.b", facts), Ok(word));
    assert_eq!(assemble("saddv d0,p0,z1.b", facts), Err(NotAssembled::NoWord));

    // What is not allowed is told by its name.
    println!("saddv d0, p0, z1.d: {:?}", assemble("saddv d0, p0, z1.d", facts));
    assert_eq!(assemble("saddv d0, p0, z1.d", facts), Err(NotAssembled::NoWord));
    assert_eq!(decode(0x0400_0000, Facts::ALL), Err(Refusal::Unknown));
    assert_eq!(decode(0x4500_0000, Facts::ALL), Err(Refusal::Undefined));
    assert_eq!(text(word, facts, &mut [0; 31]), Err(Refusal::Out));

    // A long sum: accepted on a core with SVE2, undefined on this one.
    let sum = 0x4541_0023;
    println!("{:08x}: {:?}, {:?}", sum, text_of(sum, Facts::SVE2), text_of(sum, facts));
    assert_eq!(text_of(sum, Facts::SVE2)?, "saddlb z3.h, z1.b, z1.b");
    assert_eq!(text_of(sum, facts), Err(Refusal::Undefined));
    read_a_pattern(facts)
}

/// A word that makes a predicate: its pattern is always written, by the name if it has one.
fn read_a_pattern(facts: Facts) -> Result<(), Refusal> {
    let word = assemble("ptrue p3.h, vl16", facts)?;
    let fields = decode(word, facts)?;
    println!("{:08x}: {:?}", word, fields);
    assert_eq!((fields.d, fields.pattern), (Predicate::P3.into(), Some(Pattern::Vl16)));
    assert_eq!((fields.n, fields.g), (None, None));
    assert_eq!(assemble("ptrue p3.h, #9", facts), Err(NotAssembled::NoWord));
    assert_eq!(assemble("ptrue p3.h", facts), Err(NotAssembled::NoWord));
    Ok(())
}
