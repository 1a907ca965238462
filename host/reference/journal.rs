//! The journal in both versions: fresh, step, back, the position and the entries.

use crate::words::TABLE;
use crate::{checks, decode, execute::execute};
use ghishmadul::{Facts, Refusal};

const HEADER: usize = 8;

/// The version without entries of predicates, and the one with them.
const FORMER: u64 = 1;
const CURRENT: u64 = 2;

/// The number of P0 in an entry; those below are Z0 to Z31.
const P0: u8 = 32;

fn header(version: u64, k: usize, count: usize) -> [u8; HEADER] {
    let count = (count as u16).to_le_bytes();
    [b'L', b'N', b'J', version as u8, 0, k as u8, count[0], count[1]]
}

fn entry_bytes(k: usize) -> usize {
    1 + 16 * k
}

/// Version and count of a well-formed journal.
fn heading(k: usize, journal: &[u8]) -> Result<(u64, usize), Refusal> {
    let version = u16::from_le_bytes([journal[3], journal[4]]).into();
    let most = match version {
        FORMER => 31,
        CURRENT => 47,
        _ => return Err(Refusal::Journal),
    };
    let count = u16::from_le_bytes([journal[6], journal[7]]) as usize;
    let entries = journal[HEADER..].chunks_exact(entry_bytes(k));
    let well_formed = journal[..HEADER] == header(version, k, count)
        && count <= 256
        && count <= entries.len()
        && entries.take(count).all(|entry| entry[0] <= most);
    if well_formed {
        Ok((version, count))
    } else {
        Err(Refusal::Journal)
    }
}

/// A fresh journal of a version, whatever stood there.
pub fn fresh(k: usize, version: u64, journal: &mut [u8]) -> Result<(), Refusal> {
    checks::length(k)?;
    checks::room(journal)?;
    if version != FORMER && version != CURRENT {
        return Err(Refusal::Journal);
    }
    journal.fill(0);
    journal[..HEADER].copy_from_slice(&header(version, k, 0));
    Ok(())
}

/// The bytes of the register with an entry's number.
fn register<'a>(k: usize, z: &'a mut [u8], p: &'a mut [u8], number: u8) -> &'a mut [u8] {
    match number.checked_sub(P0) {
        Some(number) => &mut p[number as usize * 2 * k..][..2 * k],
        None => &mut z[number as usize * 16 * k..][..16 * k],
    }
}

pub fn step(
    k: usize,
    facts: Facts,
    z: &mut [u8],
    p: &mut [u8],
    program: &[u8],
    journal: &mut [u8],
) -> Result<(), Refusal> {
    checks::files(k, z, p)?;
    checks::program(program)?;
    checks::room(journal)?;
    let (version, count) = heading(k, journal)?;
    let word = program.chunks_exact(4).nth(count).ok_or(Refusal::End)?;
    let fields = decode(u32::from_le_bytes([word[0], word[1], word[2], word[3]]), facts)?;
    let writes_predicate = TABLE[fields.row].writes_predicate();
    if writes_predicate && version == FORMER {
        return Err(Refusal::Journal);
    }
    let (head, entries) = journal.split_at_mut(HEADER);
    let entry = entries.chunks_exact_mut(entry_bytes(k)).nth(count).ok_or(Refusal::Full)?;

    let number = fields.d as u8 + if writes_predicate { P0 } else { 0 };
    let old = register(k, z, p, number);
    entry.fill(0);
    entry[0] = number;
    entry[1..=old.len()].copy_from_slice(old);
    head.copy_from_slice(&header(version, k, count + 1));
    execute(&fields, k, z, p);
    Ok(())
}

pub fn back(k: usize, z: &mut [u8], p: &mut [u8], journal: &mut [u8]) -> Result<(), Refusal> {
    checks::files(k, z, p)?;
    checks::room(journal)?;
    let (version, count) = heading(k, journal)?;
    let last = count.checked_sub(1).ok_or(Refusal::Empty)?;
    let (head, entries) = journal.split_at_mut(HEADER);
    let entry = &mut entries[last * entry_bytes(k)..][..entry_bytes(k)];

    let old = register(k, z, p, entry[0]);
    old.copy_from_slice(&entry[1..=old.len()]);
    entry.fill(0);
    head.copy_from_slice(&header(version, k, last));
    Ok(())
}

pub fn position(k: usize, journal: &[u8]) -> Result<usize, Refusal> {
    checks::length(k)?;
    checks::room(journal)?;
    heading(k, journal).map(|(_, count)| count)
}

/// An entry: the number of its register, from 32 on a predicate's, and where its old bytes stand in the journal.
#[derive(Clone, Copy, Debug, PartialEq, Eq)]
pub struct Entry {
    pub target: usize,
    pub start: usize,
    pub bytes: usize,
}

pub fn read_entry(k: usize, journal: &[u8], index: usize) -> Result<Entry, Refusal> {
    let held = position(k, journal)?;
    if index >= held {
        return Err(Refusal::Range);
    }
    let place = HEADER + index * entry_bytes(k);
    let number = journal[place];
    let bytes = if number < P0 { 16 * k } else { 2 * k };
    Ok(Entry { target: number.into(), start: place + 1, bytes })
}
