//! Lanes of a register, and the predicate bits that govern them. A width is in bytes.

/// Lane `e` as an unsigned number.
pub fn lane(bytes: &[u8], width: usize, e: usize) -> u64 {
    let bytes = &bytes[e * width..][..width];
    match *bytes {
        [a] => a.into(),
        [a, b] => u16::from_le_bytes([a, b]).into(),
        [a, b, c, d] => u32::from_le_bytes([a, b, c, d]).into(),
        [a, b, c, d, e, f, g, h] => u64::from_le_bytes([a, b, c, d, e, f, g, h]),
        _ => unreachable!("a lane has 1, 2, 4 or 8 bytes"),
    }
}

/// Lane `e`, sign- or zero-extended to 64 bits.
pub fn extended(bytes: &[u8], width: usize, e: usize, signed: bool) -> u64 {
    let value = lane(bytes, width, e);
    if signed {
        let shift = 64 - 8 * width as u32;
        ((value << shift) as i64 >> shift) as u64
    } else {
        value
    }
}

/// Writes the low bytes of `value` to lane `e`.
pub fn set_lane(bytes: &mut [u8], width: usize, e: usize, value: u64) {
    bytes[e * width..][..width].copy_from_slice(&value.to_le_bytes()[..width]);
}

/// Whether lane `e` is active: its lowest byte's bit is set.
pub fn active(predicate: &[u8], width: usize, e: usize) -> bool {
    let bit = e * width;
    predicate[bit / 8] >> (bit % 8) & 1 == 1
}

/// The sum, modulo 2^64, of the active lanes of a range.
pub fn sum_of_active(
    source: &[u8],
    predicate: &[u8],
    width: usize,
    signed: bool,
    lanes: std::ops::Range<usize>,
) -> u64 {
    lanes
        .filter(|&e| active(predicate, width, e))
        .map(|e| extended(source, width, e, signed))
        .fold(0, u64::wrapping_add)
}
