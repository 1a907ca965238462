//! Which lanes, entries and rows were asked for: those at an end and past it, every size and sign, every row; which
//! versions a fresh journal was told, and which numbers the entries of both versions had.

use crate::inputs::VERSIONS;
use reference::{Asked, TABLE};
use std::collections::BTreeMap;
use std::fmt::Write;

/// How often each was asked for.
#[derive(Default)]
pub struct Edges {
    counts: BTreeMap<String, u64>,
}

/// Where a number lies that is asked with, among so many that there are.
fn place(number: usize, many: usize) -> &'static str {
    match number {
        0 if many > 0 => "first",
        _ if number < many => ["between", "last"][usize::from(number == many - 1)],
        _ if number == many => "at the end",
        _ if number < 1 << 32 => "past the end",
        _ => "far past",
    }
}

const PLACES: [&str; 6] = ["first", "last", "between", "at the end", "past the end", "far past"];

/// The calls that look at the numbers of a journal's entries.
const NUMBERED: [&str; 4] = ["step", "back", "position", "entry"];

/// The version of a journal that is well formed but perhaps for the numbers of its entries, and the greatest of them.
fn greatest(k: usize, journal: &[u8]) -> Option<(u8, u8)> {
    let head = journal.get(..8)?;
    let count = usize::from(u16::from_le_bytes([head[6], head[7]]));
    let entries = journal[8..].chunks_exact(1 + 16 * k);
    let well_formed = [1, 2].contains(&head[3])
        && head[4] == 0
        && usize::from(head[5]) == k
        && count <= entries.len().min(256);
    let numbers = entries.take(count).map(|entry| entry[0]);
    numbers.max().filter(|_| well_formed).map(|greatest| (head[3], greatest))
}

/// How a sign is asked for: by 0, by 1, and by every other number.
fn sign(is_signed: u64) -> &'static str {
    ["unsigned", "signed", "signed by more"][is_signed.min(2) as usize]
}

impl Edges {
    fn count(&mut self, name: String) {
        *self.counts.entry(name).or_default() += 1;
    }

    /// Counts a lane that was asked for in files of the right sizes, with registers and a size that there are.
    pub fn count_lane(&mut self, k: usize, asked: Asked, is_signed: u64, lane: usize) {
        let many = (16 * k) >> asked.size;
        self.count(format!("lane {}", place(lane, many)));
        if lane < many {
            self.count(format!("lane of size {} {}", asked.size, sign(is_signed)));
            self.count(format!("lane of p{}", asked.predicate));
        }
    }

    /// Counts an entry that was asked for in a well-formed journal that holds so many.
    pub fn count_entry(&mut self, index: usize, held: usize) {
        self.count(format!("entry {}", place(index, held)));
    }

    /// Counts a row that was asked for.
    pub fn count_row(&mut self, row: usize) {
        let name = TABLE.get(row).map_or(place(row, TABLE.len()), |row| row.name);
        self.count(format!("row {}", name));
    }

    /// Counts the version that a fresh journal was told which has a length and room.
    pub fn count_fresh(&mut self, version: u64) {
        self.count(format!("fresh of version {}", version));
    }

    /// Counts the greatest number that a call found in the entries of a journal, if it is well formed but perhaps
    /// for the numbers.
    pub fn count_numbers(&mut self, call: &str, k: usize, journal: &[u8]) {
        if let Some((version, greatest)) = greatest(k, journal) {
            self.count(format!("{} of version {} up to {}", call, version, greatest));
        }
    }

    /// Counts a step of a word that makes a predicate: the version of its journal, and what it answered.
    pub fn count_made(&mut self, version: u8, number: u64) {
        self.count(format!("a predicate in version {}: {}", version, number));
    }

    /// Counts an entry of a predicate that was taken back, by what stood after the old bytes.
    pub fn count_padding(&mut self, zeros: bool) {
        self.count(format!("padding {}", ["of any bytes", "of zeros"][usize::from(zeros)]));
    }

    /// What has to be asked for.
    fn names() -> Vec<String> {
        let of = |what: &'static str| PLACES.iter().map(move |place| format!("{} {}", what, place));
        let sizes = (0..4).flat_map(|size| {
            (0..3).map(move |number| format!("lane of size {} {}", size, sign(number)))
        });
        let predicates = (0..16).map(|number| format!("lane of p{}", number));
        let rows = TABLE.iter().map(|row| row.name).chain(PLACES[3..].iter().copied());
        let rows = rows.map(|name| format!("row {}", name));
        let asked = of("lane").chain(sizes).chain(predicates).chain(of("entry")).chain(rows);
        asked.chain(Edges::names_of_journals()).collect()
    }

    /// What has to be asked for of journals: every version at an end, and every number at an end of one.
    fn names_of_journals() -> Vec<String> {
        let fresh = VERSIONS.iter().map(|version| format!("fresh of version {}", version));
        let greatest = NUMBERED.iter().flat_map(|call| {
            [(1, 31), (1, 32), (1, 47), (1, 48), (2, 31), (2, 32), (2, 47), (2, 48)]
                .map(|(version, most)| format!("{} of version {} up to {}", call, version, most))
        });
        // Done and FULL in the current version, JOURNAL alone in the former.
        let made = [(2, 0), (2, 9), (1, 5)]
            .map(|(version, number)| format!("a predicate in version {}: {}", version, number));
        let padding = ["of any bytes", "of zeros"].map(|what| format!("padding {}", what));
        fresh.chain(greatest).chain(made).chain(padding).collect()
    }

    /// A line for each.
    pub fn table(&self) -> String {
        let mut table = format!("{:40}", "asked for");
        for name in Edges::names() {
            let count = self.counts.get(&name).copied().unwrap_or(0);
            write!(table, "\n{:40}{:>9}", name, count).unwrap();
        }
        table
    }

    /// What was never asked for.
    pub fn missing(&self) -> Vec<String> {
        Edges::names().into_iter().filter(|name| !self.counts.contains_key(name)).collect()
    }
}
