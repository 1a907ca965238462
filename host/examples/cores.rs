use ghishmadul::{assemble, decode, Facts, Machine, NotAssembled, Refusal, Row};

fn main() -> Result<(), Refusal> {
    // A long sum needs SVE2 or SME: a core with SVE alone does not have it.
    let word = 0x4541_0023;
    assert_eq!(decode(word, Facts::SVE2)?.row, Row::Saddlb);
    assert_eq!(decode(word, Facts::SVE), Err(Refusal::Undefined));
    assert_eq!(assemble("saddlb z3.h, z1.b, z1.b", Facts::SVE2), Ok(word));

    // A text says then that it has a word, and of which facts one is enough.
    let refused = assemble("saddlb z3.h, z1.b, z1.b", Facts::SVE).unwrap_err();
    println!("{}", refused);
    let need = Facts { sve2: true, ..Facts::SME_ONLY };
    assert_eq!(refused, NotAssembled::Lacking { word, need });
    assert_eq!(assemble("saddlb z3.b, z1.b, z1.b", Facts::SVE), Err(NotAssembled::NoWord));

    walk_on_some_cores()?;

    // Facts as a text, which can be read back.
    assert_eq!(Facts::SVE2.to_string(), "sve sve2");
    assert_eq!("sve sve2".parse(), Ok(Facts::SVE2));
    assert!("sve sve3".parse::<Facts>().is_err());

    // A byte of facts, as in a session of version 2.
    assert_eq!(Facts::SVE2.byte(), 0b00011);
    assert_eq!(Facts::from_byte(0b01000), Facts::SME_ONLY);
    Ok(())
}

/// The same program on some cores: how far it comes, and why it stops there.
fn walk_on_some_cores() -> Result<(), Refusal> {
    let words = [0x2E30_3822, 0x0400_2020, 0x4541_0023, 0x0405_2024];
    let cores = [
        (Facts::NONE, 1),
        (Facts::SVE, 2),
        (Facts::SVE2, 3),
        (Facts::SVE2P1, 4),
        (Facts::SME_ONLY, 3),
        (Facts::SME2P1, 4),
        (Facts { sve2: true, ..Facts::NONE }, 1),
    ];
    for (facts, steps) in cores {
        let mut machine = Machine::new(1, facts, &words)?;
        print!("a core with {}:\n{}", facts, machine.walk());
        assert_eq!((machine.facts(), machine.position()), (facts, steps));
        let last = if steps < words.len() { Refusal::Undefined } else { Refusal::End };
        assert_eq!(machine.step(), Err(last));
        assert_eq!(machine.lacks(steps).is_some(), last == Refusal::Undefined);
    }
    Ok(())
}
