use ghishmadul::{
    panel_rows, predicate_file_bytes, register, subtotal, vector_file_bytes, Lanes, Predicate,
    Refusal, Size, Vector,
};

fn main() -> Result<(), Refusal> {
    // Z3 holds sixteen lanes of 16 bits; P2 governs lanes 0 and 9: bits 0 and 18.
    let k = 2;
    let mut z = vec![0; vector_file_bytes(k)];
    let mut p = vec![0; predicate_file_bytes(k)];
    for lane in 0..16 {
        z[3 * 32 + 2 * lane] = 100 + lane as u8;
    }
    p[2 * 4] = 0b1;
    p[2 * 4 + 2] = 0b100;

    // The parts of the files that hold them, to be drawn.
    let z3 = register(k, &z, &p, Vector::Z3)?;
    let p2 = register(k, &z, &p, Predicate::P2)?;
    println!("Z3 is {:?}", z3);
    println!("P2 is {:?}", p2);
    assert_eq!(z3[..4], [100, 0, 101, 0]);
    assert_eq!(p2, [1, 0, 4, 0]);
    assert_eq!(register(k, &z[1..], &p, Vector::Z3), Err(Refusal::File));

    // The panel: a row for each segment of sixteen bytes, inactive lanes zeroed.
    let lanes = Lanes { source: Vector::Z3, predicate: Predicate::P2, size: Size::H };
    let panel = panel_rows(k, &z, &p, lanes)?;
    println!("its segments with inactive lanes zeroed: {:?}", &panel[..2]);
    assert_eq!(panel[0][..4], [100, 0, 0, 0]);
    assert_eq!(panel[1][..4], [0, 0, 109, 0]);
    assert_eq!(panel[2], [0; 16]);

    // Subtotals of active lanes.
    let all = subtotal(k, &z, &p, lanes, false, 0..16)?;
    println!("the sum of its active lanes is {}", all);
    assert_eq!(all, 209);
    assert_eq!(subtotal(k, &z, &p, lanes, false, 1..9), Ok(0));
    assert_eq!(subtotal(k, &z, &p, lanes, false, 1..17), Err(Refusal::Range));
    Ok(())
}
