//! The reference's lanes, entries and rows with the slip that is named; none if none is.

use crate::made;
use crate::slips::slips;
use ghishmadul::{Lane, Refusal};
use reference::{About, Asked, Entry};

/// Rows by their numbers.
const SADDV: usize = 0;
const ADDQV: usize = 2;
const SADALP: usize = 5;
const PTRUE: usize = 23;
const PFALSE: usize = 24;

pub fn version() -> u64 {
    if slips("the former version told") {
        reference::VERSION - 1
    } else {
        reference::VERSION
    }
}

pub fn read_lane(
    k: usize,
    z: &[u8],
    p: &[u8],
    asked: Asked,
    is_signed: u64,
    number: usize,
) -> Result<Lane, Refusal> {
    let signed = match slips("signed taken for 1 alone") {
        true => is_signed == 1,
        false => is_signed != 0,
    };
    let number = if slips("a lane counted from one") { number.wrapping_sub(1) } else { number };
    let read = |number| reference::read_lane(k, z, p, asked, signed, number);
    let lane = match read(number) {
        Err(Refusal::Range) if slips("the lane after the last read") && number > 0 => {
            read(number - 1)?
        }
        answer => answer?,
    };
    let bit = |at: usize| p[asked.predicate * 2 * k + at / 8] >> (at % 8) & 1 == 1;
    if slips("a lane refused past p7") && asked.predicate > 7 {
        return Err(Refusal::Range);
    }
    Ok(match () {
        () if slips("predicate bit e told for lane e") => Lane { active: bit(number), ..lane },
        () if slips("a lane active at half the width") => {
            Lane { active: bit(lane.bit / 2), ..lane }
        }
        () if slips("a signed lane not extended") => {
            Lane { value: reference::read_lane(k, z, p, asked, false, number)?.value, ..lane }
        }
        () if slips("a lane's start without the lane") => {
            Lane { start: asked.source * 16 * k, ..lane }
        }
        () if slips("a lane's start in its register") => Lane { start: lane.bit, ..lane },
        () if slips("a lane's bit without the width") => Lane { bit: number, ..lane },
        () => lane,
    })
}

pub fn read_entry(k: usize, journal: &[u8], index: usize) -> Result<Entry, Refusal> {
    let (entry, held) = (1 + 16 * k.min(16), reference::position(k, journal));
    let place = 8 + index.min(256) * entry;
    let fits = index < 256 && place + entry <= journal.len();
    // Whatever stands at the place, held or not.
    let any = || Entry { target: journal[place].into(), start: place + 1, bytes: 16 * k };
    match (reference::read_entry(k, journal, index), held) {
        (Ok(_), Ok(held)) if slips("an entry counted from the newest") => {
            reference::read_entry(k, journal, held - 1 - index)
        }
        (Ok(told), _) if slips("an entry's start at its number") => {
            Ok(Entry { start: told.start - 1, ..told })
        }
        (Ok(told), _) if slips("an entry's number among its bytes") => {
            Ok(Entry { bytes: told.bytes + 1, ..told })
        }
        (Err(Refusal::Range), _) if slips("an entry past the held ones told") && fits => Ok(any()),
        (Err(Refusal::Journal), _) if slips("an entry of any journal told") && fits => Ok(any()),
        (told, _) => told.map(|entry| made::told(k, entry)),
    }
}

pub fn read_row(row: usize) -> Result<About, Refusal> {
    let row = if slips("a row's low byte alone tested") { row & 255 } else { row };
    let about = match reference::read_row(row) {
        Err(_) if slips("a row past the last told") && row == PFALSE + 1 => {
            reference::read_row(PFALSE)?
        }
        answer => answer?,
    };
    Ok(match () {
        () if slips("addqv's need told of saddv") && row == SADDV => About { need: 20, ..about },
        () if slips("the needs of all rows alike") => About { need: 10, ..about },
        () if slips("saddv's destination told as read") && row == SADDV => {
            About { reads_destination: true, ..about }
        }
        () if slips("a q told of every row") => About { has_q: true, ..about },
        () if slips("a predicate told of every row") => About { has_g: true, ..about },
        () if slips("addqv told as signed") && row == ADDQV => About { signed: true, ..about },
        () if slips("sadalp's source told at the full width") && row == SADALP => {
            About { n_bytes: about.d_bytes, ..about }
        }
        () if slips("a source told of every row") => About { has_n: true, ..about },
        () if slips("a pattern told of pfalse") && row == PFALSE => {
            About { has_pattern: true, ..about }
        }
        () if slips("ptrue told as writing a vector") && row == PTRUE => {
            About { writes_predicate: false, ..about }
        }
        () if slips("pfalse told at every size") && row == PFALSE => {
            About { d_bytes: [1, 2, 4, 8], ..about }
        }
        () if slips("a second source told at every size") => {
            About { m_bytes: [1, 1, 2, 4], ..about }
        }
        () => about,
    })
}
