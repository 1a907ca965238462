//! What a pane asks of the files: registers, lanes, the panel and subtotals; and lanes put into files.

use crate::refusal::known;
use crate::{
    boundary, lane_count, predicate_bytes, predicate_file_bytes, vector_bytes, vector_file_bytes,
    Kind, Predicate, Refusal, Register, Size, Vector, LENGTHS, PANEL_BYTES,
};
use std::ops::Range;

/// Where a register's bytes stand in the file of its kind.
#[derive(Clone, Copy, Debug, PartialEq, Eq)]
pub struct Place {
    /// The file's kind.
    pub kind: Kind,
    /// The number of its first byte in the file.
    pub start: usize,
    /// How many bytes it has.
    pub bytes: usize,
}

/// Where a register's bytes stand.
///
/// # Errors
///
/// [`Refusal::Length`], [`Refusal::File`].
#[inline]
pub fn register_place(
    k: usize,
    z: &[u8],
    p: &[u8],
    register: impl Into<Register>,
) -> Result<Place, Refusal> {
    let register = register.into();
    let predicate = u64::from(register.kind() == Kind::Predicate);
    let index = register.number();
    let place = unsafe {
        boundary::ln_register_place(k, z.as_ptr(), z.len(), p.as_ptr(), p.len(), predicate, index)
    };
    Refusal::check(place.number)?;
    Ok(Place {
        kind: if place.predicate == 0 { Kind::Vector } else { Kind::Predicate },
        start: place.start as usize,
        bytes: place.bytes as usize,
    })
}

/// A register's bytes for drawing: the part of the file that holds them, not a copy.
///
/// # Errors
///
/// [`Refusal::Length`], [`Refusal::File`].
///
#[doc = concat!("# Examples\n\n```\n", include_str!("../examples/pane.rs"), "```")]
#[inline]
pub fn register<'a>(
    k: usize,
    z: &'a [u8],
    p: &'a [u8],
    register: impl Into<Register>,
) -> Result<&'a [u8], Refusal> {
    let place = register_place(k, z, p, register)?;
    let file = match place.kind {
        Kind::Vector => z,
        Kind::Predicate => p,
    };
    Ok(&file[place.start..place.start + place.bytes])
}

/// The lanes of a vector register at a size, and the predicate register that makes some of them active.
#[derive(Clone, Copy, Debug, PartialEq, Eq)]
pub struct Lanes {
    /// The vector register.
    pub source: Vector,
    /// The predicate register. A panel and a subtotal are of P0 to P7, which can govern.
    pub predicate: Predicate,
    /// The size of a lane.
    pub size: Size,
}

/// A lane as a pane draws it.
#[derive(Clone, Copy, Debug, PartialEq, Eq)]
pub struct Lane {
    /// The lane at its sign, extended to 64 bits.
    pub value: u64,
    /// Whether the predicate makes it active.
    pub active: bool,
    /// The number of its first byte in the vector file.
    pub start: usize,
    /// The bit of the predicate register that makes it active, counted from bit 0 of the first byte.
    pub bit: usize,
}

impl Lane {
    /// The value of a lane that was asked for as signed, as a signed number.
    pub const fn signed(self) -> i64 {
        self.value as i64
    }
}

/// One lane, read as a signed or an unsigned number. The example is [`lanes`]'s.
///
/// # Errors
///
/// [`Refusal::Length`], [`Refusal::File`], [`Refusal::Range`] where `lane` is not below the number of lanes.
#[inline]
pub fn read_lane(
    k: usize,
    z: &[u8],
    p: &[u8],
    lanes: Lanes,
    signed: bool,
    lane: usize,
) -> Result<Lane, Refusal> {
    let lane = unsafe {
        boundary::ln_read_lane(
            k,
            z.as_ptr(),
            z.len(),
            p.as_ptr(),
            p.len(),
            lanes.source.number(),
            lanes.predicate.number(),
            lanes.size.number(),
            u64::from(signed),
            lane,
        )
    };
    Refusal::check(lane.number)?;
    Ok(Lane {
        value: lane.value,
        active: lane.active != 0,
        start: lane.start as usize,
        bit: lane.bit as usize,
    })
}

/// Every lane, lane 0 first, read as signed or unsigned numbers.
///
/// [`About::widths`](crate::About::widths) tells at which sizes a word reads its lanes. sadalp and uadalp read
/// lanes of half the width, and their predicate governs the lanes of the destination: whether lanes 2e and
/// 2e + 1 of the source are added is told by lane e at the word's own size. saddlv, uaddlv and the rows from
/// saddlb on have no predicate.
///
/// # Errors
///
/// [`Refusal::Length`], [`Refusal::File`].
///
#[doc = concat!("# Examples\n\n```\n", include_str!("../examples/lanes.rs"), "```")]
pub fn lanes<'a>(
    k: usize,
    z: &'a [u8],
    p: &'a [u8],
    lanes: Lanes,
    signed: bool,
) -> Result<impl DoubleEndedIterator<Item = Lane> + ExactSizeIterator + 'a, Refusal> {
    // Every register has a lane 0, so what refuses it refuses all.
    read_lane(k, z, p, lanes, signed, 0)?;
    Ok((0..lane_count(k, lanes.size))
        .map(move |lane| known(read_lane(k, z, p, lanes, signed, lane))))
}

/// Writes the addqv panel to the first 256 bytes of `out`: sixteen rows of sixteen bytes, row s being
/// segment s of the source with inactive lanes zeroed, rows from k on zero. The bytes past it stay.
///
/// # Errors
///
/// [`Refusal::Length`], [`Refusal::File`], [`Refusal::Out`] where `out` has under 256 bytes,
/// [`Refusal::Range`] where the predicate cannot govern.
#[inline]
pub fn panel(k: usize, z: &[u8], p: &[u8], lanes: Lanes, out: &mut [u8]) -> Result<(), Refusal> {
    Refusal::check(unsafe {
        boundary::ln_panel(
            k,
            z.as_ptr(),
            z.len(),
            p.as_ptr(),
            p.len(),
            lanes.source.number(),
            lanes.predicate.number(),
            lanes.size.number(),
            out.as_mut_ptr(),
            out.len(),
        )
    })
}

/// The addqv panel by value. The example is [`register`]'s.
///
/// # Errors
///
/// [`Refusal::Length`], [`Refusal::File`], [`Refusal::Range`] where the predicate cannot govern.
#[inline]
pub fn panel_rows(k: usize, z: &[u8], p: &[u8], lanes: Lanes) -> Result<[[u8; 16]; 16], Refusal> {
    let mut out = [0; PANEL_BYTES];
    panel(k, z, p, lanes, &mut out)?;
    let mut rows = [[0; 16]; 16];
    for (row, bytes) in rows.iter_mut().zip(out.chunks_exact(16)) {
        row.copy_from_slice(bytes);
    }
    Ok(rows)
}

/// The sum, modulo 2^64, of the active lanes with the numbers of `range`, each read as a signed or an
/// unsigned number. The example is [`register`]'s.
///
/// # Errors
///
/// [`Refusal::Length`], [`Refusal::File`], [`Refusal::Range`] where the predicate cannot govern, or the range
/// ends before its start or above the number of lanes.
#[inline]
pub fn subtotal(
    k: usize,
    z: &[u8],
    p: &[u8],
    lanes: Lanes,
    signed: bool,
    range: Range<usize>,
) -> Result<u64, Refusal> {
    let answer = unsafe {
        boundary::ln_subtotal(
            k,
            z.as_ptr(),
            z.len(),
            p.as_ptr(),
            p.len(),
            lanes.source.number(),
            lanes.predicate.number(),
            lanes.size.number(),
            u64::from(signed),
            range.start,
            range.end,
        )
    };
    Refusal::check(answer.number)?;
    Ok(answer.value)
}

/// A length that is accepted, and a file of its size.
fn check_file(k: usize, file: &[u8], bytes: usize) -> Result<(), Refusal> {
    if !LENGTHS.contains(&k) {
        Err(Refusal::Length)
    } else if file.len() != bytes {
        Err(Refusal::File)
    } else {
        Ok(())
    }
}

/// A lane that there is.
fn check_lane(k: usize, size: Size, lane: usize) -> Result<(), Refusal> {
    if lane < lane_count(k, size) {
        Ok(())
    } else {
        Err(Refusal::Range)
    }
}

/// Puts the low bytes of `value` into a lane of a vector register. This is plain code, not a proved call. The
/// example is [`lanes`]'s.
///
/// # Errors
///
/// [`Refusal::Length`], [`Refusal::File`], [`Refusal::Range`] where `lane` is not below the number of lanes.
pub fn put_lane(
    k: usize,
    z: &mut [u8],
    destination: Vector,
    size: Size,
    lane: usize,
    value: u64,
) -> Result<(), Refusal> {
    check_file(k, z, vector_file_bytes(k))?;
    check_lane(k, size, lane)?;
    let start = destination.number() * vector_bytes(k) + lane * size.bytes();
    z[start..start + size.bytes()].copy_from_slice(&value.to_le_bytes()[..size.bytes()]);
    Ok(())
}

/// Makes a lane active in a predicate register, or inactive: its one bit is set or cleared, and all others
/// stay. This is plain code, not a proved call. The example is [`lanes`]'s.
///
/// # Errors
///
/// [`Refusal::Length`], [`Refusal::File`], [`Refusal::Range`] where `lane` is not below the number of lanes.
pub fn put_active(
    k: usize,
    p: &mut [u8],
    predicate: Predicate,
    size: Size,
    lane: usize,
    active: bool,
) -> Result<(), Refusal> {
    check_file(k, p, predicate_file_bytes(k))?;
    check_lane(k, size, lane)?;
    let bit = lane * size.bytes();
    let byte = &mut p[predicate.number() * predicate_bytes(k) + bit / 8];
    *byte = *byte & !(1 << (bit % 8)) | u8::from(active) << (bit % 8);
    Ok(())
}
