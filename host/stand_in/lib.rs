//! Stands in for the engine's library: the same boundary over the reference, with a slip if one is
//! named. It is there to try the comparison itself. What a caller of the boundary owes, the header says.

#![allow(clippy::missing_safety_doc)]

mod made;
mod reading;
mod slips;

use ghishmadul::boundary::{About, Answer, Entry, Fields, Lane, Place, Session, Word};
use ghishmadul::{Facts, Kind, Refusal};
use reference::Asked;
use std::slice::{from_raw_parts, from_raw_parts_mut};

unsafe fn lent<'a>(start: *const u8, bytes: usize) -> &'a [u8] {
    if bytes == 0 {
        &[]
    } else {
        from_raw_parts(start, bytes)
    }
}

unsafe fn lent_mut<'a>(start: *mut u8, bytes: usize) -> &'a mut [u8] {
    if bytes == 0 {
        &mut []
    } else {
        from_raw_parts_mut(start, bytes)
    }
}

fn number(answer: Result<(), Refusal>) -> u64 {
    answer.err().map_or(0, Refusal::number)
}

fn answer(answer: Result<u64, Refusal>) -> Answer {
    match answer {
        Ok(value) => Answer { number: 0, value },
        Err(refusal) => Answer { number: refusal.number(), value: 0 },
    }
}

/// The bits of these facts.
fn facts_byte(facts: Facts) -> u64 {
    let bits = [facts.sve, facts.sve2, facts.sve2p1, facts.sme, facts.sme2p1];
    bits.iter().rev().fold(0, |byte, &bit| byte << 1 | u64::from(bit))
}

#[no_mangle]
pub extern "C" fn ln_version() -> u64 {
    reading::version()
}

#[no_mangle]
pub extern "C" fn ln_decode(word: u32, facts: u8) -> Fields {
    match reference::decode(word, slips::facts(facts, || Some(word))) {
        Ok(fields) => Fields {
            number: 0,
            row: fields.row as u64,
            size: fields.size as u64,
            n: fields.n as u64,
            d: fields.d as u64,
            g: fields.g as u64,
            m: fields.m as u64,
            q: fields.q as u64,
            pattern: made::pattern(&fields),
        },
        Err(refusal) => Fields {
            number: refusal.number(),
            row: 0,
            size: 0,
            n: 0,
            d: 0,
            g: 0,
            m: 0,
            q: 0,
            pattern: 0,
        },
    }
}

#[no_mangle]
pub unsafe extern "C" fn ln_text(word: u32, facts: u8, out: *mut u8, out_len: usize) -> Answer {
    answer(slips::text(word, facts, lent_mut(out, out_len)).map(|length| length as u64))
}

#[no_mangle]
pub unsafe extern "C" fn ln_assemble(text: *const u8, text_len: usize, facts: u8) -> Answer {
    answer(slips::assemble(lent(text, text_len), facts).map(u64::from))
}

#[no_mangle]
pub unsafe extern "C" fn ln_fresh(
    k: usize,
    version: u64,
    journal: *mut u8,
    journal_len: usize,
) -> u64 {
    number(made::fresh(k, version, lent_mut(journal, journal_len)))
}

#[no_mangle]
pub unsafe extern "C" fn ln_step(
    k: usize,
    facts: u8,
    z: *mut u8,
    z_len: usize,
    p: *mut u8,
    p_len: usize,
    program: *const u8,
    program_len: usize,
    journal: *mut u8,
    journal_len: usize,
) -> u64 {
    let (z, p) = (lent_mut(z, z_len), lent_mut(p, p_len));
    let (program, journal) = (lent(program, program_len), lent_mut(journal, journal_len));
    number(slips::step(k, facts, z, p, program, journal))
}

#[no_mangle]
pub unsafe extern "C" fn ln_back(
    k: usize,
    z: *mut u8,
    z_len: usize,
    p: *mut u8,
    p_len: usize,
    journal: *mut u8,
    journal_len: usize,
) -> u64 {
    let (z, p, journal) = (lent_mut(z, z_len), lent_mut(p, p_len), lent_mut(journal, journal_len));
    number(slips::back(k, z, p, journal))
}

#[no_mangle]
pub unsafe extern "C" fn ln_position(k: usize, journal: *const u8, journal_len: usize) -> Answer {
    answer(slips::position(k, lent(journal, journal_len)).map(|position| position as u64))
}

#[no_mangle]
pub unsafe extern "C" fn ln_read_entry(
    k: usize,
    journal: *const u8,
    journal_len: usize,
    index: usize,
) -> Entry {
    match reading::read_entry(k, lent(journal, journal_len), index) {
        Ok(entry) => Entry {
            number: 0,
            target: entry.target as u64,
            start: entry.start as u64,
            bytes: entry.bytes as u64,
        },
        Err(refusal) => Entry { number: refusal.number(), target: 0, start: 0, bytes: 0 },
    }
}

#[no_mangle]
pub unsafe extern "C" fn ln_read_lane(
    k: usize,
    z: *const u8,
    z_len: usize,
    p: *const u8,
    p_len: usize,
    source: usize,
    predicate: usize,
    size: usize,
    is_signed: u64,
    lane: usize,
) -> Lane {
    let asked = Asked { source, predicate, size };
    match reading::read_lane(k, lent(z, z_len), lent(p, p_len), asked, is_signed, lane) {
        Ok(lane) => Lane {
            number: 0,
            value: lane.value,
            active: lane.active.into(),
            start: lane.start as u64,
            bit: lane.bit as u64,
        },
        Err(refusal) => Lane { number: refusal.number(), value: 0, active: 0, start: 0, bit: 0 },
    }
}

#[no_mangle]
pub extern "C" fn ln_read_row(row: usize) -> About {
    let bytes = |widths: [usize; 4]| widths.map(|bytes| bytes as u64);
    match reading::read_row(row) {
        Ok(about) => About {
            number: 0,
            is_signed: about.signed.into(),
            has_g: about.has_g.into(),
            has_m: about.has_m.into(),
            has_q: about.has_q.into(),
            reads_destination: about.reads_destination.into(),
            need: about.need.into(),
            n_bytes: bytes(about.n_bytes),
            m_bytes: bytes(about.m_bytes),
            d_bytes: bytes(about.d_bytes),
            has_n: about.has_n.into(),
            has_pattern: about.has_pattern.into(),
            writes_predicate: about.writes_predicate.into(),
        },
        Err(refusal) => About {
            number: refusal.number(),
            is_signed: 0,
            has_g: 0,
            has_m: 0,
            has_q: 0,
            reads_destination: 0,
            need: 0,
            n_bytes: [0; 4],
            m_bytes: [0; 4],
            d_bytes: [0; 4],
            has_n: 0,
            has_pattern: 0,
            writes_predicate: 0,
        },
    }
}

#[no_mangle]
pub unsafe extern "C" fn ln_register_place(
    k: usize,
    z: *const u8,
    z_len: usize,
    p: *const u8,
    p_len: usize,
    predicate: u64,
    index: usize,
) -> Place {
    let kind = if predicate == 0 { Kind::Vector } else { Kind::Predicate };
    match reference::register_place(k, lent(z, z_len), lent(p, p_len), kind, index) {
        Ok(place) => Place {
            number: 0,
            predicate: u64::from(place.kind == Kind::Predicate),
            start: place.start as u64,
            bytes: place.bytes as u64,
        },
        Err(refusal) => Place { number: refusal.number(), predicate: 0, start: 0, bytes: 0 },
    }
}

#[no_mangle]
pub unsafe extern "C" fn ln_panel(
    k: usize,
    z: *const u8,
    z_len: usize,
    p: *const u8,
    p_len: usize,
    source: usize,
    predicate: usize,
    size: usize,
    out: *mut u8,
    out_len: usize,
) -> u64 {
    let (z, p, out) = (lent(z, z_len), lent(p, p_len), lent_mut(out, out_len));
    number(reference::panel(k, z, p, Asked { source, predicate, size }, out))
}

#[no_mangle]
pub unsafe extern "C" fn ln_subtotal(
    k: usize,
    z: *const u8,
    z_len: usize,
    p: *const u8,
    p_len: usize,
    source: usize,
    predicate: usize,
    size: usize,
    is_signed: u64,
    a: usize,
    b: usize,
) -> Answer {
    let (z, p, signed) = (lent(z, z_len), lent(p, p_len), is_signed != 0);
    answer(slips::subtotal(k, z, p, Asked { source, predicate, size }, signed, a..b))
}

#[no_mangle]
pub unsafe extern "C" fn ln_read_word(program: *const u8, program_len: usize, at: usize) -> Word {
    match reference::read_word(lent(program, program_len), at) {
        Ok(word) => Word { number: 0, word: u64::from(word.word), at: word.at as u64 },
        Err(refusal) => Word { number: refusal.number(), word: 0, at: at as u64 },
    }
}

#[no_mangle]
pub unsafe extern "C" fn ln_read_session(bytes: *const u8, bytes_len: usize) -> Session {
    let bytes = lent(bytes, bytes_len);
    match slips::read_session(bytes) {
        Ok(session) => Session {
            number: 0,
            k: session.k as u64,
            count: session.count as u64,
            vectors: session.vectors as u64,
            predicates: session.predicates as u64,
            program: session.program as u64,
            facts: facts_byte(session.facts),
        },
        Err(refusal) => Session {
            number: refusal.number(),
            k: 0,
            count: 0,
            vectors: 0,
            predicates: 0,
            program: 0,
            facts: slips::refused_facts(bytes),
        },
    }
}

#[no_mangle]
pub unsafe extern "C" fn ln_write_line(
    out: *mut u8,
    out_len: usize,
    k: usize,
    facts: u8,
    z: *const u8,
    z_len: usize,
    p: *const u8,
    p_len: usize,
    program: *const u8,
    program_len: usize,
    position: usize,
    number: u64,
) -> Answer {
    let (program, out) = (lent(program, program_len), lent_mut(out, out_len));
    let line = reference::write_line(
        out,
        k,
        slips::line_facts(facts, program, position),
        lent(z, z_len),
        lent(p, p_len),
        program,
        position,
        Refusal::check(slips::line_number(number)),
    );
    if let (Ok(length), Ok(next), 0) = (line, reference::read_word(program, position), number) {
        made::line(k, &mut out[..length], next.word);
    }
    answer(line.map(|length| length as u64))
}
