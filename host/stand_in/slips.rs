//! The reference with the slip of `slips.txt` that the variable SLIP names; none if none is named.

use crate::made::{self, Lent};
use ghishmadul::{Facts, Refusal, Session};
use reference::{facts_of, Asked, Fields, HIGHER, TABLE};
use std::ops::Range;

/// What the bits of a widening word say.
const TOP: u32 = 1 << 10;
const UNSIGNED: u32 = 1 << 11;
const SUBTRACT: u32 = 1 << 12;
const WIDE: u32 = 1 << 14;

/// The row of addqv, the first row of the widening words, and their last.
const ADDQV: usize = 2;
const SADDLB: usize = 7;
const USUBWT: usize = 22;

/// The rows of the words that make a predicate.
const PTRUE: usize = 23;
const PFALSE: usize = 24;

thread_local! {
    static SLIP: String = std::env::var("SLIP").unwrap_or_default();
}

/// Whether this slip is made.
pub fn slips(name: &str) -> bool {
    SLIP.with(|slip| slip == name)
}

/// The facts of a byte, and what a slip makes of them for a word.
pub fn facts(byte: u8, word: impl FnOnce() -> Option<u32>) -> Facts {
    let facts = facts_of(byte);
    if SLIP.with(String::is_empty) {
        return facts;
    }
    let row = word().and_then(|word| TABLE.iter().position(|row| row.matches(word)));
    let name = SLIP.with(String::clone);
    match name.as_str() {
        "facts read from the neighbouring bit" => facts_of(byte >> 1),
        "facts with a higher bit taken for none" if byte & HIGHER != 0 => Facts::NONE,
        "usubwt accepted whatever the facts" if row == Some(USUBWT) => Facts::ALL,
        "ptrue's need taken for saddlb's" if row == Some(PTRUE) => {
            Facts { sve: facts.sve2, ..facts }
        }
        "pfalse accepted whatever the facts" if row == Some(PFALSE) => Facts::ALL,
        "sve2 taken to imply sve" => Facts { sve: facts.sve || facts.sve2, ..facts },
        "addqv's need taken for saddv's" if row == Some(ADDQV) => {
            Facts { sve2p1: facts.sve, sme2p1: facts.sme, ..facts }
        }
        "a need asked with and" => {
            let both = match row {
                Some(0 | 1 | PTRUE | PFALSE) => facts.sve && facts.sme,
                Some(ADDQV) => facts.sve2p1 && facts.sme2p1,
                _ => facts.sve2 && facts.sme,
            };
            if both {
                facts
            } else {
                Facts::NONE
            }
        }
        _ => facts,
    }
}

/// The word of a program at a position.
fn word_at(program: &[u8], position: usize) -> Option<u32> {
    reference::read_word(program, position).ok().map(|word| word.word)
}

pub fn text(word: u32, byte: u8, out: &mut [u8]) -> Result<usize, Refusal> {
    let facts = match slips("a name told that the facts forbid") {
        true => Facts::ALL,
        false => facts(byte, || Some(word)),
    };
    if slips("the facts asked before a text's room") && reference::decode(word, Facts::ALL).is_ok()
    {
        reference::decode(word, facts)?;
    }
    let length = reference::text(word, facts, out)?;
    if slips("a byte past the text written") {
        out[length] = 0;
    }
    if slips("the half letter of zn in a wide text") && out[4] == b'w' {
        reference::text(word ^ WIDE, facts, out)?;
        out[4] = b'w';
    }
    Ok(length)
}

pub fn assemble(text: &[u8], byte: u8) -> Result<u32, Refusal> {
    let facts = facts(byte, || reference::assemble(text, Facts::ALL).ok());
    if slips("a byte past the text read") {
        unsafe { text.as_ptr().add(text.len()).read_volatile() };
    }
    let text = &made::read_as(text)[..];
    if slips("two spaces accepted") {
        let text = String::from_utf8_lossy(text).replacen("  ", " ", 1);
        return reference::assemble(text.as_bytes(), facts);
    }
    if slips("the full letter of zn accepted in a long text") {
        let refused = |refusal| assemble_as_wide(text, facts).ok_or(refusal);
        return reference::assemble(text, facts).or_else(refused);
    }
    if slips("a text accepted that the facts forbid") {
        return reference::assemble(text, Facts::ALL);
    }
    reference::assemble(text, facts)
}

/// The long word of a text that a wide word would have.
fn assemble_as_wide(text: &[u8], facts: Facts) -> Option<u32> {
    if text.get(4) != Some(&b'l') {
        return None;
    }
    let wide = [&text[..4], b"w", &text[5..]].concat();
    reference::assemble(&wide, facts).ok().map(|word| word ^ WIDE)
}

pub fn subtotal(
    k: usize,
    z: &[u8],
    p: &[u8],
    asked: Asked,
    signed: bool,
    range: Range<usize>,
) -> Result<u64, Refusal> {
    let total = reference::subtotal(k, z, p, asked, signed, range.clone())?;
    if slips("lanes counted from one") && range.start > 0 {
        return reference::subtotal(k, z, p, asked, signed, range.start - 1..range.end - 1);
    }
    Ok(total)
}

/// The facts of a line that is told done.
pub fn line_facts(byte: u8, program: &[u8], position: usize) -> Facts {
    if slips("a line of a step that the facts forbid") {
        return Facts::ALL;
    }
    facts(byte, || word_at(program, position))
}

/// The facts that come with a refused session.
pub fn refused_facts(bytes: &[u8]) -> u64 {
    match bytes.get(8) {
        Some(&facts) if slips("facts told of a refused session") => facts.into(),
        _ => 0,
    }
}

/// The answer number of a line.
pub fn line_number(number: u64) -> u64 {
    if slips("a line's number cut to a byte") {
        number % 256
    } else {
        number
    }
}

pub fn back(k: usize, z: &mut [u8], p: &mut [u8], journal: &mut [u8]) -> Result<(), Refusal> {
    if SLIP.with(String::is_empty) {
        return reference::back(k, z, p, journal);
    }
    if slips("entry left after a back") {
        let before = journal.to_vec();
        reference::back(k, z, p, journal)?;
        journal[8..].copy_from_slice(&before[8..]);
        return Ok(());
    }
    made::back(k, z, p, journal)
}

/// The number in the two bytes of a journal's count.
pub fn count(journal: &[u8]) -> Option<usize> {
    Some(u16::from_le_bytes([*journal.get(6)?, *journal.get(7)?]) as usize)
}

pub fn position(k: usize, journal: &[u8]) -> Result<usize, Refusal> {
    if SLIP.with(String::is_empty) {
        return reference::position(k, journal);
    }
    match reference::position(k, &made::seen_as(k, journal)) {
        Err(Refusal::Journal) if slips("the position of any journal told") => {
            count(journal).ok_or(Refusal::Journal)
        }
        Err(Refusal::Length) if slips("length 12 let in") && k == 12 => {
            count(journal).ok_or(Refusal::Room)
        }
        Err(Refusal::Length) if slips("a length's low byte alone tested") => {
            reference::position(k & 255, journal)
        }
        Ok(_) if slips("length 16 refused") && k == 16 => Err(Refusal::Length),
        answer => answer,
    }
}

pub fn read_session(bytes: &[u8]) -> Result<Session, Refusal> {
    let program = 8 + 544 * 6;
    let facts = Facts::ALL;
    match reference::read_session(bytes) {
        Err(_) if slips("a higher bit of a session let in") && bytes.len() > 8 && bytes[3] == 2 => {
            let mut lower = bytes.to_vec();
            lower[8] &= !HIGHER;
            reference::read_session(&lower)
        }
        Ok(session) if slips("version 1 read as no facts") && bytes[3] == 1 => {
            Ok(Session { facts: Facts::NONE, ..session })
        }
        Ok(session) if slips("the parts of version 2 where version 1 has them") => {
            let Session { k, .. } = session;
            Ok(Session { vectors: 8, predicates: 8 + 512 * k, program: 8 + 544 * k, ..session })
        }
        Err(_) if slips("a session of length 6 let in") && bytes.get(5) == Some(&6) => {
            let words = bytes.len().checked_sub(program).ok_or(Refusal::Session)?;
            let (count, predicates) = (words / 4, 8 + 512 * 6);
            Ok(Session { k: 6, count, vectors: 8, predicates, program, facts })
        }
        answer => answer,
    }
}

/// The word at the journal's position.
fn next(program: &[u8], journal: &[u8]) -> Option<u32> {
    word_at(program, count(journal)?)
}

pub fn step(
    k: usize,
    byte: u8,
    z: &mut [u8],
    p: &mut [u8],
    program: &[u8],
    journal: &mut [u8],
) -> Result<(), Refusal> {
    if SLIP.with(String::is_empty) {
        return reference::step(k, facts_of(byte), z, p, program, journal);
    }
    let [before, predicates, entries] = [&*z, &*p, &*journal].map(|part| part.to_vec());
    let word = next(program, journal);
    let facts = match slips("a step done that the facts forbid") {
        true => Facts::ALL,
        false => facts(byte, || word),
    };
    let fields = word.and_then(|word| reference::decode(word, facts).ok());
    let answer = reference::step(k, facts, z, p, program, journal);
    let mut lent = Lent { k, z, p, journal };
    if let Err(refusal) = answer {
        another_refusal(&mut lent, refusal, program)?;
    }
    match fields {
        Some(fields) if TABLE[fields.row].writes_predicate() => {
            let again = |z: &mut [u8], p: &mut [u8], journal: &mut [u8]| {
                reference::step(k, facts, z, p, program, journal)
            };
            made::answer(&mut lent, answer, again)?;
            made::slip(&mut lent, [before, predicates, entries], fields);
            Ok(())
        }
        Some(fields) if answer.is_ok() => {
            slip(k, lent.z, lent.p, before, fields);
            version_slip(lent.journal);
            answer
        }
        _ => answer,
    }
}

/// What a slip makes of a refusal of a step: another one, or none and a byte changed.
fn another_refusal(lent: &mut Lent<'_>, of: Refusal, program: &[u8]) -> Result<(), Refusal> {
    let Lent { k, z, p, journal } = lent;
    match of {
        Refusal::Undefined if slips("a full journal tested before the facts") => {
            let (mut z, mut p, mut journal) = (z.to_vec(), p.to_vec(), journal.to_vec());
            reference::step(*k, Facts::ALL, &mut z, &mut p, program, &mut journal)
                .or_else(|refusal| if refusal == Refusal::Full { Err(refusal) } else { Ok(()) })
        }
        Refusal::Full if slips("a full journal's step changes its count") => {
            journal[7] ^= 1;
            Ok(())
        }
        Refusal::Journal if slips("end tested before the journal") && program.is_empty() => {
            Err(Refusal::End)
        }
        _ => Ok(()),
    }
}

/// Changes the version of a journal that a step has written.
fn version_slip(journal: &mut [u8]) {
    if slips("version 2 written by every step") {
        journal[3] = 2;
    }
}

/// Changes what an accepted step of a word that writes a vector wrote.
fn slip(k: usize, z: &mut [u8], p: &[u8], mut before: Vec<u8>, fields: Fields) {
    let bytes = 16 * k;
    let destination = fields.d * bytes..(fields.d + 1) * bytes;
    let width = 1 << fields.size;
    let lanes = bytes / width;
    let governing = fields.g * 2 * k;
    let bit = |at: usize| p[governing + at / 8] >> (at % 8) & 1;
    let pairs = fields.row == 5 || fields.row == 6;
    let word = word_of(&fields);
    let has = |bits: u32| (SADDLB..=USUBWT).contains(&fields.row) && word & bits != 0;

    // The predicate file with another bit in each lane's place.
    let moved = |from: fn(usize, usize) -> usize| {
        let mut moved = p.to_vec();
        moved[governing..governing + 2 * k].fill(0);
        for e in 0..lanes {
            moved[governing + e * width / 8] |= bit(from(e, width)) << (e * width % 8);
        }
        moved
    };
    // The predicate file with other bits for these segments.
    let governed = |segments: Range<usize>, bits: u8| {
        let mut governed = p.to_vec();
        governed[governing + 2 * segments.start..governing + 2 * segments.end].fill(bits);
        governed
    };
    // What this word leaves of the bytes before.
    let mut again = |word: u32, p: &[u8], before: &mut Vec<u8>| {
        let mut journal = vec![0; 8 + 1 + bytes];
        reference::fresh(k, 1, &mut journal).expect("a legal length");
        reference::step(k, Facts::ALL, before, &mut p.to_vec(), &word.to_le_bytes(), &mut journal)
            .expect("an accepted word");
        z.copy_from_slice(before);
    };
    let name = SLIP.with(String::clone);
    match name.as_str() {
        "bit e for lane e at every width" => again(word, &moved(|e, _| e), &mut before),
        "sadalp activity at half the width" if pairs => {
            again(word, &moved(|e, width| e * width / 2), &mut before)
        }
        "destination cleared before the sources are read" => {
            before[destination].fill(0);
            again(word, p, &mut before);
        }
        "addqv adds inactive lanes" if fields.row == ADDQV => {
            again(word, &governed(0..k, 255), &mut before)
        }
        "addqv leaves out a segment" if fields.row == ADDQV => {
            again(word, &governed(k - 1..k, 0), &mut before)
        }
        "a column of addqv takes its neighbour's lane" if fields.row == ADDQV => {
            z[destination][..16].rotate_left(width)
        }
        "addqv carries into the next lane" if fields.row == ADDQV => {
            let asked = Asked { source: fields.n, predicate: fields.g, size: fields.size };
            z[destination][..16].copy_from_slice(&double_words_added(k, &before, p, asked))
        }
        "a sum for a difference" if has(SUBTRACT) => again(word ^ SUBTRACT, p, &mut before),
        "a sum for usubwt .d alone" if fields.row == USUBWT && fields.size == 3 => {
            again(word ^ SUBTRACT, p, &mut before)
        }
        "bits 10 and 11 exchanged" if has(SUBTRACT | WIDE) && has(TOP) != has(UNSIGNED) => {
            again(word ^ TOP ^ UNSIGNED, p, &mut before)
        }
        "a half lane of zn in a wide form" if has(WIDE) => again(word ^ WIDE, p, &mut before),
        "usubl extends by the sign" if has(SUBTRACT) && has(UNSIGNED) && !has(WIDE) => {
            again(word ^ UNSIGNED, p, &mut before)
        }
        "the top half for the bottom one" if has(SUBTRACT | WIDE) && !has(TOP) => {
            again(word ^ TOP, p, &mut before)
        }
        "operands of a difference exchanged" if has(SUBTRACT) => {
            for lane in z[destination].chunks_exact_mut(width) {
                negate(lane);
            }
        }
        "high bytes left after a V write" if fields.row < 5 => {
            let high = destination.start + 16..destination.end;
            z[high.clone()].copy_from_slice(&before[high]);
        }
        "inactive sadalp lanes zeroed" if pairs => {
            for e in (0..lanes).filter(|e| bit(e * width) == 0) {
                z[destination.start + e * width..][..width].fill(0);
            }
        }
        _ => {}
    }
}

/// The rows of a panel added as two double words each, whatever the width of its lanes is.
fn double_words_added(k: usize, z: &[u8], p: &[u8], asked: Asked) -> [u8; 16] {
    let mut rows = [0; 256];
    reference::panel(k, z, p, asked, &mut rows).expect("a panel");
    let mut sums = [0; 16];
    for row in rows.chunks_exact(16) {
        for (sum, half) in sums.chunks_exact_mut(8).zip(row.chunks_exact(8)) {
            let number = |bytes: &[u8]| u64::from_le_bytes(bytes.try_into().expect("eight bytes"));
            let added = number(sum).wrapping_add(number(half));
            sum.copy_from_slice(&added.to_le_bytes());
        }
    }
    sums
}

/// A lane's number, modulo 2^width, with the other sign.
fn negate(lane: &mut [u8]) {
    let mut carry = true;
    for byte in lane {
        (*byte, carry) = (!*byte).overflowing_add(carry.into());
    }
}

/// A word that writes a vector, with these fields; one that its row does not have is 0.
fn word_of(fields: &Fields) -> u32 {
    let Fields { row, size, n, d, g, m, q, .. } = *fields;
    TABLE[row].value | (q << 30 | size << 22 | m << 16 | g << 10 | n << 5 | d) as u32
}
