use ghishmadul::{assemble, Facts, Lanes, Machine, Predicate, Refusal, Size, Vector};

fn main() -> Result<(), Refusal> {
    // A core with SVE, registers of 16 bytes and a program of one word.
    let word = assemble("saddv d0, p0, z1.h", Facts::SVE)?;
    let mut machine = Machine::new(1, Facts::SVE, &[word])?;

    // 1000 in lane 7 of Z1, and no other lane active.
    machine.put_lane(Vector::Z1, Size::H, 7, 1000)?;
    machine.put_active(Predicate::P0, Size::H, 7, true)?;

    // A step, and the sum that it left; then back.
    machine.step()?;
    let sum = Lanes { source: Vector::Z0, predicate: Predicate::P0, size: Size::D };
    println!("d0 is {}", machine.lane(sum, true, 0)?.signed());
    assert_eq!(machine.lane(sum, true, 0)?.value, 1000);
    machine.back()
}
