//! A step as one would write it by hand for speed, in plain Rust: typed lanes, one loop for each word
//! and width, eight bytes and their predicate byte at a time, no copy of a source, no branch on a lane.
//!
//! It answers and writes what the reference does; `tests/typed.rs` compares them.

use ghishmadul::{Facts, Refusal};

/// A lane of some bytes, signed or not.
trait Lane: Copy {
    const BYTES: usize;
    fn read(bytes: &[u8]) -> Self;
    fn write(self, bytes: &mut [u8]);
    /// Sign- or zero-extended.
    fn extended(self) -> u64;
    /// The sum modulo 2^width.
    fn plus(self, other: Self) -> Self;
    /// The difference modulo 2^width.
    fn minus(self, other: Self) -> Self;
    /// The lane itself if the lowest bit of `bits` is set, else 0.
    fn if_set(self, bits: u8) -> Self;
}

macro_rules! lane {
    ($($type:ty),*) => {$(
        impl Lane for $type {
            const BYTES: usize = std::mem::size_of::<$type>();

            #[inline(always)]
            fn read(bytes: &[u8]) -> Self {
                <$type>::from_le_bytes(bytes.try_into().expect("the bytes of a lane"))
            }

            #[inline(always)]
            fn write(self, bytes: &mut [u8]) {
                bytes.copy_from_slice(&self.to_le_bytes());
            }

            #[inline(always)]
            fn extended(self) -> u64 {
                self as i64 as u64
            }

            #[inline(always)]
            fn plus(self, other: Self) -> Self {
                self.wrapping_add(other)
            }

            #[inline(always)]
            fn minus(self, other: Self) -> Self {
                self.wrapping_sub(other)
            }

            #[inline(always)]
            fn if_set(self, bits: u8) -> Self {
                self & ((bits & 1) as $type).wrapping_neg()
            }
        }
    )*};
}

lane!(u8, u16, u32, u64, i8, i16, i32, i64);

/// A lane with two lanes of half its width beneath it.
trait Wide: Lane {
    type Half: Lane;
    fn from(half: Self::Half) -> Self;
}

macro_rules! wide {
    ($($wide:ty, $half:ty;)*) => {$(
        impl Wide for $wide {
            type Half = $half;

            #[inline(always)]
            fn from(half: $half) -> Self {
                half.into()
            }
        }
    )*};
}

wide! { u16, u8; u32, u16; u64, u32; i16, i8; i32, i16; i64, i32; }

/// saddv, uaddv.
fn across<L: Lane>(destination: &mut [u8], source: &[u8], predicate: &[u8]) {
    let mut sum = 0u64;
    for (lanes, &bits) in source.chunks_exact(8).zip(predicate) {
        for (e, lane) in lanes.chunks_exact(L::BYTES).enumerate() {
            sum = sum.wrapping_add(L::read(lane).if_set(bits >> (e * L::BYTES)).extended());
        }
    }
    destination[..8].copy_from_slice(&sum.to_le_bytes());
    destination[8..].fill(0);
}

/// addqv.
fn segments<L: Lane>(destination: &mut [u8], source: &[u8], predicate: &[u8]) {
    let mut sums = [0; 16];
    for (segment, bits) in source.chunks_exact(16).zip(predicate.chunks_exact(2)) {
        let bits = [bits[0], bits[1]];
        for (e, lane) in segment.chunks_exact(L::BYTES).enumerate() {
            let at = e * L::BYTES;
            let sum = &mut sums[at..at + L::BYTES];
            L::read(sum).plus(L::read(lane).if_set(bits[at / 8] >> (at % 8))).write(sum);
        }
    }
    destination[..16].copy_from_slice(&sums);
    destination[16..].fill(0);
}

/// saddlv, uaddlv.
fn long_across<L: Lane>(destination: &mut [u8], source: &[u8], q: bool) {
    let low = if q { &source[..16] } else { &source[..8] };
    let sum = low
        .chunks_exact(L::BYTES)
        .fold(0u64, |sum, lane| sum.wrapping_add(L::read(lane).extended()));
    destination[..2 * L::BYTES].copy_from_slice(&sum.to_le_bytes()[..2 * L::BYTES]);
    destination[2 * L::BYTES..].fill(0);
}

/// sadalp, uadalp.
fn pairs<W: Wide>(destination: &mut [u8], source: &[u8], predicate: &[u8]) {
    let (half, whole) = (W::Half::BYTES, W::BYTES);
    let lanes = destination.chunks_exact_mut(8).zip(source.chunks_exact(8));
    for ((lanes, sources), &bits) in lanes.zip(predicate) {
        let both = lanes.chunks_exact_mut(whole).zip(sources.chunks_exact(whole));
        for (e, (lane, pair)) in both.enumerate() {
            let low = W::from(W::Half::read(&pair[..half]));
            let high = W::from(W::Half::read(&pair[half..]));
            W::read(lane).plus(low.plus(high).if_set(bits >> (e * whole))).write(lane);
        }
    }
}

/// How a word of the widening family makes a lane of two.
#[derive(Clone, Copy)]
struct Widening {
    /// The first source has the full width.
    wide: bool,
    /// The first less the second.
    subtract: bool,
    /// The upper half-width lane of each two.
    top: bool,
}

/// saddlb to usubwt.
fn widening<W: Wide>(to: &mut [u8], first: &[u8], second: &[u8], form: Widening) {
    match (form.wide, form.subtract, form.top) {
        (false, false, false) => made_of_two::<W, false, false, false>(to, first, second),
        (false, false, true) => made_of_two::<W, false, false, true>(to, first, second),
        (false, true, false) => made_of_two::<W, false, true, false>(to, first, second),
        (false, true, true) => made_of_two::<W, false, true, true>(to, first, second),
        (true, false, false) => made_of_two::<W, true, false, false>(to, first, second),
        (true, false, true) => made_of_two::<W, true, false, true>(to, first, second),
        (true, true, false) => made_of_two::<W, true, true, false>(to, first, second),
        (true, true, true) => made_of_two::<W, true, true, true>(to, first, second),
    }
}

fn made_of_two<W: Wide, const WIDE: bool, const SUBTRACT: bool, const TOP: bool>(
    to: &mut [u8],
    first: &[u8],
    second: &[u8],
) {
    let half = W::Half::BYTES;
    let at = if TOP { half } else { 0 };
    let narrow = |lane: &[u8]| W::from(W::Half::read(&lane[at..at + half]));
    let sources = first.chunks_exact(W::BYTES).zip(second.chunks_exact(W::BYTES));
    for (lane, (a, b)) in to.chunks_exact_mut(W::BYTES).zip(sources) {
        let a = if WIDE { W::read(a) } else { narrow(a) };
        let value = if SUBTRACT { a.minus(narrow(b)) } else { a.plus(narrow(b)) };
        value.write(lane);
    }
}

/// ptrue with this many lanes, and with none pfalse: eight bits at a time, whole bytes of them alike. The entry keeps
/// what stood there, and zeros after it.
fn made(register: &mut [u8], entry: &mut [u8], size: u32, lanes: usize) {
    let (old, padding) = entry.split_at_mut(register.len());
    old.copy_from_slice(register);
    padding.fill(0);
    let bits = lanes << size;
    let every = [0xFF, 0x55, 0x11, 0x01][size as usize];
    let (whole, rest) = register.split_at_mut(bits / 8);
    whole.fill(every);
    rest.fill(0);
    if let Some(last) = rest.first_mut() {
        *last = every & !(0xFF << (bits % 8));
    }
}

/// How many lanes a pattern of ptrue makes active.
fn pattern_lanes(pattern: usize, count: usize) -> usize {
    let fixed = match pattern {
        0 => return 1 << (usize::BITS - 1 - count.leading_zeros()),
        1..=8 => pattern,
        9..=13 => 1 << (pattern - 5),
        29 => return count & !3,
        30 => return count - count % 3,
        31 => return count,
        _ => return 0,
    };
    if fixed > count {
        0
    } else {
        fixed
    }
}

/// What a word is of.
#[derive(Clone, Copy)]
enum Form {
    Across { signed: bool },
    Segments,
    LongAcross { signed: bool },
    Pairs { signed: bool },
    Widening { signed: bool, form: Widening },
    Made,
    Cleared,
}

/// The word's form, and its size if that is allowed on a core with these facts.
#[inline]
fn decode(word: u32, facts: Facts) -> Result<(Form, u32), Refusal> {
    let size = word >> 22 & 3;
    let form = match word & 0xFF3F_E000 {
        0x0400_2000 => Form::Across { signed: true },
        0x0401_2000 => Form::Across { signed: false },
        0x0405_2000 => Form::Segments,
        0x4404_A000 => Form::Pairs { signed: true },
        0x4405_A000 => Form::Pairs { signed: false },
        _ => match word & 0xBF3F_FC00 {
            0x0E30_3800 => Form::LongAcross { signed: true },
            0x2E30_3800 => Form::LongAcross { signed: false },
            _ if word & 0xFF20_A000 == 0x4500_0000 => {
                let bit = |at: u32| word >> at & 1 == 1;
                let form = Widening { wide: bit(14), subtract: bit(12), top: bit(10) };
                Form::Widening { signed: !bit(11), form }
            }
            _ if word & 0xFF3F_FC10 == 0x2518_E000 => Form::Made,
            _ if word & 0xFFFF_FFF0 == 0x2518_E400 => Form::Cleared,
            _ => return Err(Refusal::Unknown),
        },
    };
    let allowed = match form {
        Form::Across { signed } => (!signed || size < 3) && (facts.sve || facts.sme),
        Form::Segments => facts.sve2p1 || facts.sme2p1,
        Form::LongAcross { .. } => size < 2 || (size == 2 && word >> 30 & 1 == 1),
        Form::Pairs { .. } | Form::Widening { .. } => size > 0 && (facts.sve2 || facts.sme),
        Form::Made | Form::Cleared => facts.sve || facts.sme,
    };
    if allowed {
        Ok((form, size))
    } else {
        Err(Refusal::Undefined)
    }
}

/// One step, refused and done as the engine's.
pub fn step(
    k: usize,
    facts: Facts,
    z: &mut [u8],
    p: &mut [u8],
    program: &[u8],
    journal: &mut [u8],
) -> Result<(), Refusal> {
    if !k.is_power_of_two() || k > 16 {
        return Err(Refusal::Length);
    }
    let bytes = 16 * k;
    if z.len() != 32 * bytes || p.len() != 2 * bytes {
        return Err(Refusal::File);
    }
    if program.len() % 4 != 0 || program.len() > 1024 {
        return Err(Refusal::Program);
    }
    if journal.len() < 8 || journal.len() > 65_536 {
        return Err(Refusal::Room);
    }
    let (header, entries) = journal.split_at_mut(8);
    let count = usize::from(u16::from_le_bytes([header[6], header[7]]));
    let entry = 1 + bytes;
    let version = header[3];
    let numbers = if version == 1 { 32 } else { 48 };
    let well_formed = header[..6] == [b'L', b'N', b'J', version, 0, k as u8]
        && (version == 1 || version == 2)
        && count <= 256
        && count * entry <= entries.len()
        && entries[..count * entry].chunks_exact(entry).all(|entry| entry[0] < numbers);
    if !well_formed {
        return Err(Refusal::Journal);
    }
    let word = program.get(4 * count..4 * count + 4).ok_or(Refusal::End)?;
    let word = u32::from_le_bytes(word.try_into().expect("four bytes"));
    let (form, size) = decode(word, facts)?;
    let makes_predicate = matches!(form, Form::Made | Form::Cleared);
    if makes_predicate && version == 1 {
        return Err(Refusal::Journal);
    }
    let entry = entries.get_mut(count * entry..(count + 1) * entry).ok_or(Refusal::Full)?;

    // The entry keeps the destination's old bytes: a source that is the destination is read there.
    let field = |low: u32, most: u32| (word >> low & most) as usize;
    let (d, n, m, g) = (field(0, 31), field(5, 31), field(16, 31), field(10, 7));
    if makes_predicate {
        header[6..].copy_from_slice(&(count as u16 + 1).to_le_bytes());
        let lanes = match form {
            Form::Made => pattern_lanes(n, bytes >> size),
            _ => 0,
        };
        entry[0] = 32 + d as u8;
        made(&mut p[2 * k * d..][..2 * k], &mut entry[1..], size, lanes);
        return Ok(());
    }
    let (low, rest) = z.split_at_mut(d * bytes);
    let (destination, high) = rest.split_at_mut(bytes);
    let (number, old) = entry.split_first_mut().expect("an entry has a number");
    *number = d as u8;
    old.copy_from_slice(destination);
    header[6..].copy_from_slice(&(count as u16 + 1).to_le_bytes());
    let vector = |n: usize| match n.cmp(&d) {
        std::cmp::Ordering::Less => &low[n * bytes..][..bytes],
        std::cmp::Ordering::Equal => &*old,
        std::cmp::Ordering::Greater => &high[(n - d - 1) * bytes..][..bytes],
    };
    let (source, predicate, q) = (vector(n), &p[2 * k * g..][..2 * k], word >> 30 & 1 == 1);

    let to = destination;
    match (form, size) {
        (Form::Across { signed: true }, 0) => across::<i8>(to, source, predicate),
        (Form::Across { signed: true }, 1) => across::<i16>(to, source, predicate),
        (Form::Across { signed: true }, _) => across::<i32>(to, source, predicate),
        (Form::Across { signed: false }, 0) => across::<u8>(to, source, predicate),
        (Form::Across { signed: false }, 1) => across::<u16>(to, source, predicate),
        (Form::Across { signed: false }, 2) => across::<u32>(to, source, predicate),
        (Form::Across { signed: false }, _) => across::<u64>(to, source, predicate),
        (Form::Segments, 0) => segments::<u8>(to, source, predicate),
        (Form::Segments, 1) => segments::<u16>(to, source, predicate),
        (Form::Segments, 2) => segments::<u32>(to, source, predicate),
        (Form::Segments, _) => segments::<u64>(to, source, predicate),
        (Form::LongAcross { signed: true }, 0) => long_across::<i8>(to, source, q),
        (Form::LongAcross { signed: true }, 1) => long_across::<i16>(to, source, q),
        (Form::LongAcross { signed: true }, _) => long_across::<i32>(to, source, q),
        (Form::LongAcross { signed: false }, 0) => long_across::<u8>(to, source, q),
        (Form::LongAcross { signed: false }, 1) => long_across::<u16>(to, source, q),
        (Form::LongAcross { signed: false }, _) => long_across::<u32>(to, source, q),
        (Form::Pairs { signed: true }, 1) => pairs::<i16>(to, source, predicate),
        (Form::Pairs { signed: true }, 2) => pairs::<i32>(to, source, predicate),
        (Form::Pairs { signed: true }, _) => pairs::<i64>(to, source, predicate),
        (Form::Pairs { signed: false }, 1) => pairs::<u16>(to, source, predicate),
        (Form::Pairs { signed: false }, 2) => pairs::<u32>(to, source, predicate),
        (Form::Pairs { signed: false }, _) => pairs::<u64>(to, source, predicate),
        (Form::Widening { signed, form }, _) => {
            let second = vector(m);
            match (signed, size) {
                (true, 1) => widening::<i16>(to, source, second, form),
                (true, 2) => widening::<i32>(to, source, second, form),
                (true, _) => widening::<i64>(to, source, second, form),
                (false, 1) => widening::<u16>(to, source, second, form),
                (false, 2) => widening::<u32>(to, source, second, form),
                (false, _) => widening::<u64>(to, source, second, form),
            }
        }
        (Form::Made | Form::Cleared, _) => unreachable!("a word that writes a vector"),
    }
    Ok(())
}
