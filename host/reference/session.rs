//! The session that `walk` reads, a session written, and the lines that `walk` writes.

use crate::{checks, decode, facts_of, fresh, read_word, step, text, ALL, HIGHER, TABLE};
use ghishmadul::{Facts, Refusal, Session};
use std::fmt::Write;

pub fn read_session(bytes: &[u8]) -> Result<Session, Refusal> {
    let header = bytes.get(..8).ok_or(Refusal::Session)?;
    let k = header[5] as usize;
    let count = u16::from_le_bytes([header[6], header[7]]) as usize;
    // Where the vector file starts, and the byte of the facts.
    let (start, facts) = match &header[..5] {
        b"LNW\x01\x00" => (8, ALL),
        b"LNW\x02\x00" => (9, *bytes.get(8).ok_or(Refusal::Session)?),
        _ => return Err(Refusal::Session),
    };
    let well_formed = checks::is_length(k)
        && count <= 256
        && facts & HIGHER == 0
        && bytes.len() == start + 544 * k + 4 * count;
    if well_formed {
        let (predicates, program) = (start + 512 * k, start + 544 * k);
        Ok(Session { k, count, vectors: start, predicates, program, facts: facts_of(facts) })
    } else {
        Err(Refusal::Session)
    }
}

/// A session of version 2 at the front of the output.
pub fn write_session(
    out: &mut [u8],
    k: usize,
    facts: u8,
    z: &[u8],
    p: &[u8],
    program: &[u8],
) -> Result<usize, Refusal> {
    checks::files(k, z, p)?;
    checks::program(program)?;
    let count = (program.len() / 4) as u16;
    let mut session = b"LNW\x02\x00".to_vec();
    session.push(k as u8);
    session.extend(count.to_le_bytes());
    session.push(facts & ALL);
    session.extend([z, p, program].concat());
    if out.len() < session.len() {
        return Err(Refusal::Out);
    }
    out[..session.len()].copy_from_slice(&session);
    Ok(session.len())
}

/// Everything that `walk` prints for this input.
pub fn walk(input: &[u8]) -> String {
    let session = match read_session(input) {
        Ok(session) => session,
        Err(_) => return "14\n".to_string(),
    };
    let (k, facts) = (session.k, session.facts);
    let mut z = input[session.vectors..session.predicates].to_vec();
    let mut p = input[session.predicates..session.program].to_vec();
    let program = &input[session.program..];
    let mut journal = vec![0; 65_536];
    fresh(k, 2, &mut journal).expect("a session has a length, and the journal its room");

    let mut output = String::new();
    for position in 0..session.count {
        let word = read_word(program, position).expect("the place is below the count").word;
        let answer = step(k, facts, &mut z, &mut p, program, &mut journal);
        output += &line(k, facts, &z, &p, word, position, answer);
        if answer.is_err() {
            break;
        }
    }
    output
}

/// One line of a walk, from the files after the step.
pub fn line(
    k: usize,
    facts: Facts,
    z: &[u8],
    p: &[u8],
    word: u32,
    position: usize,
    answer: Result<(), Refusal>,
) -> String {
    match answer {
        Err(refusal) => format!("{} {} {:08x}\n", position, refusal.number(), word),
        Ok(()) => {
            let fields = decode(word, facts).expect("an accepted word");
            let mut out = [0; 32];
            let length = text(word, facts, &mut out).expect("an accepted word");
            let name = std::str::from_utf8(&out[..length]).expect("a text is ASCII");
            let mut line = format!("{} 0 {} ", position, name);
            let register = match TABLE[fields.row].writes_predicate() {
                true => &p[fields.d * 2 * k..][..2 * k],
                false => &z[fields.d * 16 * k..][..16 * k],
            };
            for byte in register.iter().rev() {
                write!(line, "{:02x}", byte).expect("a string takes what is written");
            }
            line + "\n"
        }
    }
}

/// The line of a step at the front of the output.
#[allow(clippy::too_many_arguments)]
pub fn write_line(
    out: &mut [u8],
    k: usize,
    facts: Facts,
    z: &[u8],
    p: &[u8],
    program: &[u8],
    position: usize,
    answer: Result<(), Refusal>,
) -> Result<usize, Refusal> {
    checks::files(k, z, p)?;
    let word = read_word(program, position)?.word;
    if out.len() < 546 {
        return Err(Refusal::Out);
    }
    if answer.is_ok() {
        decode(word, facts)?;
    }
    let text = line(k, facts, z, p, word, position, answer);
    out[..text.len()].copy_from_slice(text.as_bytes());
    Ok(text.len())
}
