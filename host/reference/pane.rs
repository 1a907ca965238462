//! What the pane asks besides: register places, lanes, the panel, subtotals, and words of a program; and lanes
//! put into the files.

use crate::checks;
use crate::lanes::{active, extended, set_lane, sum_of_active};
use ghishmadul::{Kind, Lane, Place, Refusal, Word};
use std::ops::Range;

/// The lanes that are asked for, by any numbers.
#[derive(Clone, Copy, Debug, PartialEq, Eq)]
pub struct Asked {
    pub source: usize,
    pub predicate: usize,
    pub size: usize,
}

fn range(inside: bool) -> Result<(), Refusal> {
    if inside {
        Ok(())
    } else {
        Err(Refusal::Range)
    }
}

pub fn register_place(
    k: usize,
    z: &[u8],
    p: &[u8],
    kind: Kind,
    number: usize,
) -> Result<Place, Refusal> {
    checks::files(k, z, p)?;
    let (registers, bytes) = match kind {
        Kind::Vector => (32, 16 * k),
        Kind::Predicate => (16, 2 * k),
    };
    range(number < registers)?;
    Ok(Place { kind, start: number * bytes, bytes })
}

/// The bytes of the source and of the predicate, which is at most this one.
fn parts<'a>(
    k: usize,
    z: &'a [u8],
    p: &'a [u8],
    asked: Asked,
    most: usize,
) -> Result<(&'a [u8], &'a [u8]), Refusal> {
    range(asked.source <= 31 && asked.predicate <= most && asked.size <= 3)?;
    Ok((&z[asked.source * 16 * k..][..16 * k], &p[asked.predicate * 2 * k..][..2 * k]))
}

pub fn read_lane(
    k: usize,
    z: &[u8],
    p: &[u8],
    asked: Asked,
    signed: bool,
    lane: usize,
) -> Result<Lane, Refusal> {
    checks::files(k, z, p)?;
    let (source, predicate) = parts(k, z, p, asked, 15)?;
    let width = 1 << asked.size;
    range(lane < 16 * k / width)?;
    Ok(Lane {
        value: extended(source, width, lane, signed),
        active: active(predicate, width, lane),
        start: asked.source * 16 * k + lane * width,
        bit: lane * width,
    })
}

/// Writes the low bytes of `value` to a lane of the vector file.
pub fn put_lane(
    k: usize,
    z: &mut [u8],
    destination: usize,
    size: usize,
    lane: usize,
    value: u64,
) -> Result<(), Refusal> {
    checks::length(k)?;
    checks::size_of_file(z, 512 * k)?;
    range(destination <= 31 && size <= 3 && lane < (16 * k) >> size)?;
    set_lane(&mut z[destination * 16 * k..][..16 * k], 1 << size, lane, value);
    Ok(())
}

/// Sets or clears the bit of a lane in the predicate file.
pub fn put_active(
    k: usize,
    p: &mut [u8],
    predicate: usize,
    size: usize,
    lane: usize,
    on: bool,
) -> Result<(), Refusal> {
    checks::length(k)?;
    checks::size_of_file(p, 32 * k)?;
    range(predicate <= 15 && size <= 3 && lane < (16 * k) >> size)?;
    let bit = predicate * 16 * k + (lane << size);
    if on {
        p[bit / 8] |= 1 << (bit % 8);
    } else {
        p[bit / 8] &= !(1 << (bit % 8));
    }
    Ok(())
}

pub fn panel(k: usize, z: &[u8], p: &[u8], asked: Asked, out: &mut [u8]) -> Result<(), Refusal> {
    checks::files(k, z, p)?;
    if out.len() < 256 {
        return Err(Refusal::Out);
    }
    let (source, governing) = parts(k, z, p, asked, 7)?;
    let width = 1 << asked.size;

    let out = &mut out[..256];
    out.fill(0);
    for (e, (row, lane)) in out.chunks_exact_mut(width).zip(source.chunks_exact(width)).enumerate()
    {
        if active(governing, width, e) {
            row.copy_from_slice(lane);
        }
    }
    Ok(())
}

pub fn subtotal(
    k: usize,
    z: &[u8],
    p: &[u8],
    asked: Asked,
    signed: bool,
    numbers: Range<usize>,
) -> Result<u64, Refusal> {
    checks::files(k, z, p)?;
    let (source, governing) = parts(k, z, p, asked, 7)?;
    let width = 1 << asked.size;
    range(numbers.start <= numbers.end && numbers.end <= 16 * k / width)?;
    Ok(sum_of_active(source, governing, width, signed, numbers))
}

pub fn read_word(program: &[u8], at: usize) -> Result<Word, Refusal> {
    checks::program(program)?;
    let bytes = program.chunks_exact(4).nth(at).ok_or(Refusal::End)?;
    Ok(Word { word: u32::from_le_bytes([bytes[0], bytes[1], bytes[2], bytes[3]]), at: at + 1 })
}
