//! Words that make a predicate and journals of both versions, with the slip that is named; none if none is.

use crate::slips::{count, slips};
use ghishmadul::Refusal;
use reference::{pattern_lanes, Entry, Fields, TABLE};
use std::borrow::Cow;

/// The row of ptrue, and some of its patterns.
const PTRUE: usize = 23;
const POW2: usize = 0;
const MUL4: usize = 29;
const MUL3: usize = 30;
const ALL: usize = 31;

/// The number of P0 in an entry, and the last of an entry that there is.
const P0: u8 = 32;
const P15: u8 = 47;

pub fn fresh(k: usize, version: u64, journal: &mut [u8]) -> Result<(), Refusal> {
    let stood = journal.get(3).map_or(0, |&stood| u64::from(stood));
    let version = match version {
        3 if slips("version 3 let in by fresh") => 2,
        1 | 2 if slips("fresh goes by the version that stood there") => match stood {
            1 | 2 => stood,
            _ => version,
        },
        2 if slips("version 1 written where 2 was told") => 1,
        _ if slips("sixteen bits of fresh's version tested") => version & 0xFFFF,
        _ if slips("half of fresh's version tested") => version & 0xFFFF_FFFF,
        _ => version,
    };
    let unknown = || reference::fresh(k, version, &mut [0; 8]) == Err(Refusal::Journal);
    match reference::fresh(k, version, journal) {
        Err(Refusal::Room) if slips("fresh's version tested before the room") && unknown() => {
            Err(Refusal::Journal)
        }
        answer => answer,
    }
}

/// The pattern of a word as it is told.
pub fn pattern(fields: &Fields) -> u64 {
    match slips("the pattern left out of the fields") {
        true => 0,
        false => fields.pattern as u64,
    }
}

/// The text that is read in the place of this one.
pub fn read_as(text: &[u8]) -> Cow<'_, [u8]> {
    let ends = |end: &str| text.ends_with(end.as_bytes());
    let front = |bytes: usize| &text[..text.len() - bytes];
    if slips("#31 accepted for all") && ends(", #31") {
        [front(3), b"all"].concat().into()
    } else if slips("a missing pattern taken for all")
        && text.starts_with(b"ptrue p")
        && !text.contains(&b',')
    {
        [text, b", all"].concat().into()
    } else if slips("pfalse accepted at every size") && text.starts_with(b"pfalse p") && ends(".h")
    {
        [front(1), b"b"].concat().into()
    } else {
        text.into()
    }
}

/// The numbers of the entries that a journal counts.
fn numbers(k: usize, journal: &mut [u8]) -> impl Iterator<Item = &mut u8> {
    let (many, entry) = (count(journal).unwrap_or(0), 1 + 16 * k.min(16));
    journal.iter_mut().skip(8).step_by(entry).take(many)
}

/// The journal that is looked at in the place of this one.
pub fn seen_as(k: usize, journal: &[u8]) -> Vec<u8> {
    let mut seen = journal.to_vec();
    let version = journal.get(3).copied();
    if slips("entry 48 let in in version 2") && version == Some(2) {
        numbers(k, &mut seen).filter(|number| **number == P15 + 1).for_each(|number| *number = P15);
    }
    if slips("entry 47 refused in version 2") && version == Some(2) {
        numbers(k, &mut seen).filter(|number| **number == P15).for_each(|number| *number += 1);
    }
    if slips("entry 31 refused in version 1") && version == Some(1) {
        numbers(k, &mut seen).filter(|number| **number == P0 - 1).for_each(|number| *number += 1);
    }
    seen
}

/// A call over a journal that has another version for so long.
fn with_version<T>(journal: &mut [u8], version: u8, call: impl FnOnce(&mut [u8]) -> T) -> T {
    let stood = std::mem::replace(&mut journal[3], version);
    let answer = call(journal);
    journal[3] = stood;
    answer
}

pub fn back(k: usize, z: &mut [u8], p: &mut [u8], journal: &mut [u8]) -> Result<(), Refusal> {
    let (before, file) = (journal.to_vec(), p.to_vec());
    let answer = match reference::back(k, z, p, journal) {
        Err(Refusal::Journal)
            if slips("entry 32 let in in version 1") && before.get(3) == Some(&1) =>
        {
            with_version(journal, 2, |journal| reference::back(k, z, p, journal))
        }
        answer => answer,
    };
    answer?;
    let last = 8 + (1 + 16 * k) * count(journal).expect("a journal");
    if before[last] < P0 {
        return answer;
    }
    let number = usize::from(before[last] - P0);
    let padding = last + 1 + 2 * k..last + 1 + 16 * k;
    if slips("a predicate's entry restored to a vector") {
        p.copy_from_slice(&file);
        z[number * 16 * k..][..2 * k].copy_from_slice(&before[last + 1..][..2 * k]);
    }
    if slips("a predicate's padding left at a back") {
        journal[padding.clone()].copy_from_slice(&before[padding.clone()]);
    }
    if slips("a predicate's padding added at a back") {
        p[number * 2 * k] |= before[padding.start];
    }
    answer
}

/// The entry as it is told, if it is of a predicate.
pub fn told(k: usize, entry: Entry) -> Entry {
    match entry.target >= P0.into() {
        true if slips("a predicate's entry told with its padding") => {
            Entry { bytes: 16 * k, ..entry }
        }
        true if slips("a predicate's entry told as of a vector") => {
            Entry { target: entry.target - usize::from(P0), ..entry }
        }
        _ => entry,
    }
}

/// What a step is lent.
pub struct Lent<'a> {
    pub k: usize,
    pub z: &'a mut [u8],
    pub p: &'a mut [u8],
    pub journal: &'a mut [u8],
}

/// The answer to a step of a word that makes a predicate, which answered so.
pub fn answer(
    lent: &mut Lent<'_>,
    answer: Result<(), Refusal>,
    step: impl FnOnce(&mut [u8], &mut [u8], &mut [u8]) -> Result<(), Refusal>,
) -> Result<(), Refusal> {
    let Lent { z, p, journal, .. } = lent;
    match answer {
        Err(Refusal::Journal) if slips("a predicate's step let in in version 1") => {
            with_version(journal, 2, |journal| step(z, p, journal))
        }
        Err(Refusal::Journal) if slips("a full journal tested before its version") => {
            let (mut z, mut p, mut journal) = (z.to_vec(), p.to_vec(), journal.to_vec());
            journal[3] = 2;
            match step(&mut z, &mut p, &mut journal) {
                Err(Refusal::Full) => Err(Refusal::Full),
                _ => answer,
            }
        }
        answer => answer,
    }
}

/// How many lanes a slip takes a pattern for.
fn lanes(pattern: usize, count: usize) -> usize {
    let right = pattern_lanes(pattern, count);
    match pattern {
        1..=13 if slips("a fixed number above the count taken for all") && right == 0 => count,
        14..=28 if slips("a pattern without a name taken for all") => count,
        MUL4 if slips("mul3 for mul4") => pattern_lanes(MUL3, count),
        MUL3 if slips("mul3 one too low") => right.saturating_sub(3),
        POW2 if slips("the largest power taken below the count") => right / 2,
        9 if slips("vl16 taken for nine lanes") => 9.min(count),
        ALL if slips("the last lane left out of all") => count - 1,
        _ => right,
    }
}

/// Changes what an accepted step that makes a predicate wrote; the bytes before it come with it: both files and the
/// journal.
pub fn slip(lent: &mut Lent<'_>, before: [Vec<u8>; 3], fields: Fields) {
    let k = lent.k;
    let [vectors, predicates, journal] = before;
    let register = fields.d * 2 * k..(fields.d + 1) * 2 * k;
    let (made, old) = (&mut lent.p[register.clone()], &predicates[register]);
    if fields.row == PTRUE {
        set_bits(made, old, fields);
    } else if slips("pfalse leaves the last byte") {
        made[2 * k - 1] = old[2 * k - 1];
    }
    let vector = fields.d * 16 * k..(fields.d + 1) * 16 * k;
    if slips("a made predicate clears a vector") {
        lent.z[vector.clone()].fill(0);
    }
    let entry = 8 + (count(lent.journal).expect("a journal") - 1) * (1 + 16 * k);
    let padding = entry + 1 + 2 * k..entry + 1 + 16 * k;
    if slips("an entry's padding left as it stood") {
        lent.journal[padding.clone()].copy_from_slice(&journal[padding]);
    } else if slips("the vector of its number kept for a predicate") {
        lent.journal[entry + 1..][..16 * k].copy_from_slice(&vectors[vector]);
    } else if slips("a made predicate's entry without the 32") {
        lent.journal[entry] -= P0;
    }
}

/// Sets the bits of the lanes that a slip makes active, and at no lane's place those that a slip leaves or adds there.
fn set_bits(made: &mut [u8], old: &[u8], fields: Fields) {
    let (bits, width) = (8 * made.len(), 1 << fields.size);
    let active = lanes(fields.pattern, bits / width);
    let (kept, all) =
        (slips("bits between the lanes kept"), slips("a bit for every byte of a lane"));
    for at in 0..bits {
        let (bit, lane) = (1 << (at % 8), at / width < active);
        let set = match at % width {
            0 => lane,
            _ if kept => old[at / 8] & bit != 0,
            _ => lane && all,
        };
        made[at / 8] = made[at / 8] & !bit | if set { bit } else { 0 };
    }
}

/// Changes the line of a word that makes a predicate.
pub fn line(k: usize, out: &mut [u8], word: u32) {
    let made = TABLE.iter().any(|row| row.matches(word) && row.writes_predicate());
    if made && slips("a predicate's line with its lowest byte first") {
        let end = out.len() - 1;
        let digits = &mut out[end - 4 * k..end];
        digits.reverse();
        digits.chunks_exact_mut(2).for_each(|byte| byte.reverse());
    }
}
