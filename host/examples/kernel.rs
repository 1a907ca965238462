use ghishmadul::{
    assemble, lane_count, Facts, Lanes, Machine, Pattern, Predicate, Refusal, Register, Size,
    Vector,
};

/// A kernel as a compiler writes it: it makes its predicates itself, all lanes in P0 and three in P1, then sums with
/// each; at the end it clears the first.
const KERNEL: [&str; 5] = [
    "ptrue p0.h, all",
    "ptrue p1.h, vl3",
    "saddv d0, p0, z1.h",
    "saddv d2, p1, z1.h",
    "pfalse p0.b",
];

fn main() -> Result<(), Refusal> {
    // Registers of 32 bytes: sixteen channels in Z1 from 1 on, and predicates of zeros.
    let facts = Facts::SVE;
    let mut words = Vec::new();
    for text in KERNEL {
        words.push(assemble(text, facts)?);
    }
    let mut machine = Machine::new(2, facts, &words)?;
    for channel in 0..16 {
        machine.put_lane(Vector::Z1, Size::H, channel, 1 + channel as u64)?;
    }

    // The first two steps write predicates: a line has their 8 digits, the highest byte first.
    print!("{}", machine.walk());
    assert_eq!(machine.position(), KERNEL.len());
    assert_eq!(machine.register(Predicate::P0), [0; 4]);
    assert_eq!(machine.register(Predicate::P1), [0b01_0101, 0, 0, 0]);

    // All sixteen channels were summed, then the three lowest.
    let sum = |of: Vector| Lanes { source: of, predicate: Predicate::P0, size: Size::D };
    assert_eq!(machine.lane(sum(Vector::Z0), true, 0)?.signed(), 136);
    assert_eq!(machine.lane(sum(Vector::Z2), true, 0)?.signed(), 1 + 2 + 3);

    // A step back restores the predicate, which the journal holds.
    let last = machine.last_entry().expect("a step was made");
    assert_eq!((last.target, last.old.len()), (Register::Predicate(Predicate::P0), 4));
    machine.back()?;
    let lanes = Lanes { source: Vector::Z1, predicate: Predicate::P0, size: Size::H };
    let active = machine.lanes(lanes, true).filter(|lane| lane.active).count();
    println!("{} of {} lanes are active again", active, lane_count(2, Size::H));
    assert_eq!(active, Pattern::All.lanes(lane_count(2, Size::H)));
    machine.reset();
    assert!(machine.predicates().iter().all(|&byte| byte == 0));
    Ok(())
}
