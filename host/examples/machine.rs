use ghishmadul::{assemble, Facts, Lanes, Machine, Predicate, Refusal, Row, Size, Vector};

/// Sixteen channels of 16 bits.
const CHANNELS: Lanes = Lanes { source: Vector::Z1, predicate: Predicate::P0, size: Size::H };

fn main() -> Result<(), Refusal> {
    // A core with SVE2, registers of 32 bytes, and a program of two words.
    let facts = Facts::SVE2;
    let texts = ["saddv d0, p0, z1.h", "sadalp z2.s, p0/m, z1.h"];
    let words = [assemble(texts[0], facts)?, assemble(texts[1], facts)?];
    let mut machine = Machine::new(2, facts, &words)?;

    // The channels in Z1 are 100, 99 and so on. P0 leaves channel 3 off.
    for channel in 0..16 {
        machine.put_lane(Vector::Z1, Size::H, channel, 100 - channel as u64)?;
        machine.put_active(Predicate::P0, Size::H, channel, channel != 3)?;
    }
    let session = machine.session();

    // What the next step is.
    let next = machine.fields(machine.position())?;
    assert_eq!((next.row, next.g, next.n), (Row::Saddv, Some(Predicate::P0), Some(Vector::Z1)));

    // Forward to the end: a line for each step.
    print!("{}", machine.walk());
    assert_eq!(machine.position(), 2);
    assert_eq!(machine.step(), Err(Refusal::End));

    draw(&machine)?;
    draw_pairs(&machine)?;

    // What the last step's destination held before it.
    let last = machine.last_entry().expect("a step was made");
    println!("{} held {:02x?}", last.target, last.old);
    assert_eq!((last.target, last.old), (Vector::Z2.into(), &[0; 32][..]));

    // Back, one step and then all: the machine is what it was, and its session is the first.
    machine.back()?;
    println!("back at {}, before {}", machine.position(), machine.text(machine.position())?);
    machine.reset();
    assert_eq!(machine.position(), 0);
    assert_eq!(machine.session(), session);
    assert_eq!(Machine::from_session(&session)?, machine);

    // A refusal has a name, a number and a sentence.
    let refusal = machine.lane(CHANNELS, true, 16).unwrap_err();
    println!("lane 16: {}: {}", refusal.name(), refusal);
    Ok(())
}

/// What the pane draws beside it: the lanes, the sum beneath them, and the panel.
fn draw(machine: &Machine) -> Result<(), Refusal> {
    for (number, lane) in machine.lanes(CHANNELS, true).enumerate() {
        println!("channel {}: {}, active: {}", number, lane.signed(), lane.active);
        assert_eq!(lane.active, number != 3);
    }
    let sum = machine.subtotal(CHANNELS, true, 0..16)?;
    println!("the sum beneath the lanes is {}", sum);
    assert_eq!(sum, 1480 - 97);
    for (row, bytes) in machine.panel(CHANNELS)?[..2].iter().enumerate() {
        println!("segment {}: {:02x?}", row, bytes);
    }
    Ok(())
}

/// sadalp's predicate governs the lanes of its destination, which are twice as wide: channels 2 and 3 go into
/// lane 1 together where the bit of channel 2 is set, and that of channel 3 does not matter.
fn draw_pairs(machine: &Machine) -> Result<(), Refusal> {
    let pairs = Lanes { source: Vector::Z2, size: Size::S, ..CHANNELS };
    let lane = machine.lane(pairs, true, 1)?;
    println!("lane 1 of the pairs: {}, active: {}", lane.signed(), lane.active);
    assert_eq!((lane.signed(), lane.active), (98 + 97, true));
    Ok(())
}
