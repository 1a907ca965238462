//! The subtotal by the split that the paper asks for, in plain Rust: the range is split at its middle
//! and each half summed the same way, down to single lanes.

use ghishmadul::Refusal;
use reference::Asked;
use std::ops::Range;

/// A sum of active lanes, refused and answered as the engine's.
pub fn subtotal(
    k: usize,
    z: &[u8],
    p: &[u8],
    asked: Asked,
    signed: bool,
    range: Range<usize>,
) -> Result<u64, Refusal> {
    let Asked { source, predicate: governing, size } = asked;
    if !k.is_power_of_two() || k > 16 {
        return Err(Refusal::Length);
    }
    if z.len() != 512 * k || p.len() != 32 * k {
        return Err(Refusal::File);
    }
    if source > 31 || governing > 7 || size > 3 {
        return Err(Refusal::Range);
    }
    if range.start > range.end || range.end > (16 * k) >> size {
        return Err(Refusal::Range);
    }
    let source = &z[source * 16 * k..][..16 * k];
    let predicate = &p[governing * 2 * k..][..2 * k];
    Ok(sum_between(source, predicate, 1 << size, signed, range.start, range.end))
}

fn sum_between(
    source: &[u8],
    predicate: &[u8],
    width: usize,
    signed: bool,
    a: usize,
    b: usize,
) -> u64 {
    match b - a {
        0 => 0,
        1 => active_lane(source, predicate, width, signed, a),
        many => {
            let middle = a + many / 2;
            let low = sum_between(source, predicate, width, signed, a, middle);
            low.wrapping_add(sum_between(source, predicate, width, signed, middle, b))
        }
    }
}

/// The lane, sign- or zero-extended, if it is active, else 0.
fn active_lane(source: &[u8], predicate: &[u8], width: usize, signed: bool, e: usize) -> u64 {
    let at = e * width;
    if predicate[at / 8] >> (at % 8) & 1 == 0 {
        return 0;
    }
    let lane = match source[at..at + width] {
        [a] => u64::from(a),
        [a, b] => u64::from(u16::from_le_bytes([a, b])),
        [a, b, c, d] => u64::from(u32::from_le_bytes([a, b, c, d])),
        [a, b, c, d, e, f, g, h] => u64::from_le_bytes([a, b, c, d, e, f, g, h]),
        _ => unreachable!("a lane has 1, 2, 4 or 8 bytes"),
    };
    let above = 64 - 8 * width as u32;
    if signed {
        ((lane << above) as i64 >> above) as u64
    } else {
        lane
    }
}
