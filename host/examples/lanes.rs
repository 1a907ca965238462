use ghishmadul::{
    lanes, predicate_file_bytes, put_active, put_lane, read_lane, subtotal, vector_file_bytes,
    Lanes, Predicate, Refusal, Size, Vector,
};

fn main() -> Result<(), Refusal> {
    // Eight channels of 16 bits in Z1, from -3 to 4. P0 makes them active but for channel 7.
    let k = 1;
    let mut z = vec![0; vector_file_bytes(k)];
    let mut p = vec![0; predicate_file_bytes(k)];
    for channel in 0..8 {
        put_lane(k, &mut z, Vector::Z1, Size::H, channel, (channel as i64 - 3) as u64)?;
        put_active(k, &mut p, Predicate::P0, Size::H, channel, channel != 7)?;
    }

    // Each lane with its number, from 0: its value, and whether it is active.
    let channels = Lanes { source: Vector::Z1, predicate: Predicate::P0, size: Size::H };
    for (number, lane) in lanes(k, &z, &p, channels, true)?.enumerate() {
        let off = if lane.active { "" } else { ", off" };
        println!("lane {}: {}{}", number, lane.signed(), off);
        assert_eq!((lane.signed(), lane.active), (number as i64 - 3, number != 7));
        assert_eq!((lane.start, lane.bit), (16 + 2 * number, 2 * number));
    }

    // The sum beneath them is that of the active ones.
    let active = lanes(k, &z, &p, channels, true)?.filter(|lane| lane.active);
    let sum: i64 = active.map(|lane| lane.signed()).sum();
    assert_eq!(subtotal(k, &z, &p, channels, true, 0..8)?, sum as u64);

    // The same lane as an unsigned number, and one that is not there.
    assert_eq!(read_lane(k, &z, &p, channels, false, 0)?.value, 0xFFFD);
    assert_eq!(read_lane(k, &z, &p, channels, false, 8), Err(Refusal::Range));
    Ok(())
}
