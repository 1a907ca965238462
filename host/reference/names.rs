//! How a word reads, and reading it.

use crate::decode;
use crate::facts::suffice;
use crate::patterns::{pattern_name, pattern_of};
use crate::words::{Form, TABLE};
use ghishmadul::{Facts, Refusal};
use std::io::Write;

const LETTERS: [char; 4] = ['b', 'h', 's', 'd'];

pub fn text(word: u32, facts: Facts, out: &mut [u8]) -> Result<usize, Refusal> {
    if out.len() < 32 {
        return Err(Refusal::Out);
    }
    let fields = decode(word, facts)?;
    let row = &TABLE[fields.row];
    let (name, size, d, g, n, m) = (row.name, fields.size, fields.d, fields.g, fields.n, fields.m);
    let letter = LETTERS[size];

    let room = out.len();
    let mut rest = out;
    let written = match row.form {
        Form::Across { .. } => write!(rest, "{} d{}, p{}, z{}.{}", name, d, g, n, letter),
        Form::Segments => {
            write!(rest, "{} v{}.{}{}, p{}, z{}.{}", name, d, 16 >> size, letter, g, n, letter)
        }
        Form::LongAcross { .. } => {
            let lanes = (8 << fields.q) >> size;
            write!(rest, "{} {}{}, v{}.{}{}", name, LETTERS[size + 1], d, n, lanes, letter)
        }
        Form::Pairs { .. } => {
            write!(rest, "{} z{}.{}, p{}/m, z{}.{}", name, d, letter, g, n, LETTERS[size - 1])
        }
        Form::Widening { wide, .. } => {
            let half = LETTERS[size - 1];
            let first = if wide { letter } else { half };
            write!(rest, "{} z{}.{}, z{}.{}, z{}.{}", name, d, letter, n, first, m, half)
        }
        Form::Made => write!(rest, "{} p{}.{}, {}", name, d, letter, pattern_name(fields.pattern)),
        Form::Cleared => write!(rest, "{} p{}.{}", name, d, letter),
    };
    written.expect("a text has at most 26 bytes");
    Ok(room - rest.len())
}

pub fn assemble(text: &[u8], facts: Facts) -> Result<u32, Refusal> {
    std::str::from_utf8(text).ok().and_then(|text| parse(text, facts)).ok_or(Refusal::Text)
}

fn parse(text: &str, facts: Facts) -> Option<u32> {
    let (name, rest) = text.split_once(' ')?;
    let number = TABLE.iter().position(|row| row.name == name)?;
    let row = &TABLE[number];
    let mut operands = rest.split(", ");
    let mut next = || operands.next();

    // The size and the other fields, each at its place in the word.
    let (size, q, fields) = match row.form {
        Form::Across { .. } => {
            let d = register(next()?, 'd', 31)?;
            let g = register(next()?, 'p', 7)?;
            let (n, size) = lanes(next()?, 'z', 31)?;
            (size, 0, g << 10 | n << 5 | d)
        }
        Form::Segments => {
            let (d, arrangement) = arranged(next()?)?;
            let g = register(next()?, 'p', 7)?;
            let (n, size) = lanes(next()?, 'z', 31)?;
            if arrangement != ["16b", "8h", "4s", "2d"][size] {
                return None;
            }
            (size, 0, g << 10 | n << 5 | d)
        }
        Form::LongAcross { .. } => {
            let destination = next()?;
            let (n, arrangement) = arranged(next()?)?;
            let (size, q) = match arrangement {
                "8b" => (0, 0),
                "16b" => (0, 1),
                "4h" => (1, 0),
                "8h" => (1, 1),
                "4s" => (2, 1),
                _ => return None,
            };
            let d = register(destination, LETTERS[size + 1], 31)?;
            (size, q, n << 5 | d)
        }
        Form::Pairs { .. } => {
            let (d, size) = lanes(next()?, 'z', 31)?;
            let g = register(next()?.strip_suffix("/m")?, 'p', 7)?;
            let (n, half) = lanes(next()?, 'z', 31)?;
            if half + 1 != size {
                return None;
            }
            (size, 0, g << 10 | n << 5 | d)
        }
        Form::Widening { wide, .. } => {
            let (d, size) = lanes(next()?, 'z', 31)?;
            let (n, first) = lanes(next()?, 'z', 31)?;
            let (m, half) = lanes(next()?, 'z', 31)?;
            if half + 1 != size || first != if wide { size } else { half } {
                return None;
            }
            (size, 0, m << 16 | n << 5 | d)
        }
        Form::Made => {
            let (d, size) = lanes(next()?, 'p', 15)?;
            (size, 0, (pattern_of(next()?)? as u32) << 5 | d)
        }
        Form::Cleared => {
            let (d, size) = lanes(next()?, 'p', 15)?;
            (size, 0, d)
        }
    };
    if next().is_some() || !row.allows(size, q) || !suffice(facts, number) {
        return None;
    }
    Some(row.word((q as u32) << 30 | (size as u32) << 22 | fields))
}

/// A register: a letter and a decimal number without leading zeros.
fn register(operand: &str, letter: char, most: u32) -> Option<u32> {
    let number = match *operand.strip_prefix(letter)?.as_bytes() {
        [ones @ b'0'..=b'9'] => u32::from(ones - b'0'),
        [tens @ b'1'..=b'9', ones @ b'0'..=b'9'] => u32::from((tens - b'0') * 10 + (ones - b'0')),
        _ => return None,
    };
    if number <= most {
        Some(number)
    } else {
        None
    }
}

/// A register with its lanes, `zN.T` or `pN.T`: the number, which is at most this one, and the size.
fn lanes(operand: &str, kind: char, most: u32) -> Option<(u32, usize)> {
    let (name, letter) = operand.split_once('.')?;
    let size = match letter {
        "b" => 0,
        "h" => 1,
        "s" => 2,
        "d" => 3,
        _ => return None,
    };
    Some((register(name, kind, most)?, size))
}

/// A vector register with its arrangement, `vN.A`.
fn arranged(operand: &str) -> Option<(u32, &str)> {
    let (name, arrangement) = operand.split_once('.')?;
    Some((register(name, 'v', 31)?, arrangement))
}
