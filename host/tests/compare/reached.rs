//! Which words the steps had that were compared: each row at each size, and where its destination was.

use crate::inputs::has_second;
use ghishmadul::Facts;
use reference::TABLE;
use std::fmt::Write;

/// Where the destination can be among the sources; the last two are for rows with a second source.
const PLACES: [&str; 4] = ["d apart", "d = n", "d = m", "d = n = m"];

/// For each row, Q, size and place of the destination: how many steps were done or refused for the size.
#[derive(Default)]
pub struct Reached {
    counts: [[[[u64; PLACES.len()]; 4]; 2]; TABLE.len()],
}

impl Reached {
    /// Counts a step of this word that was done or refused for the word's size.
    pub fn count(&mut self, word: u32) {
        let row = TABLE.iter().position(|row| row.matches(word)).expect("a word of a row");
        let field = |low: u32, most: u32| (word >> low & most) as usize;
        let (d, n, m) = (field(0, 31), field(5, 31), field(16, 31));
        let place = match places(row) {
            1 => 0,
            _ => usize::from(d == n) + 2 * usize::from(has_second(&TABLE[row]) && d == m),
        };
        self.counts[row][field(30, most_q(row))][field(22, 3)][place] += 1;
    }

    /// A line for each row, with Q two: its steps by size, in brackets where that is refused, and those
    /// that were done by the place of their destination.
    pub fn table(&self) -> String {
        let mut table = format!("{:15}", "step of");
        for size in 0..4 {
            write!(table, "{:>9}", format!("size {}", size)).unwrap();
        }
        for place in &PLACES[1..] {
            write!(table, "{:>11}", place).unwrap();
        }
        for (row, q) in rows() {
            write!(table, "\n{:15}", name(row, q)).unwrap();
            let mut done = [0; PLACES.len()];
            for (size, counts) in self.counts[row][q].iter().enumerate() {
                let steps: u64 = counts.iter().sum();
                if !is_there(row, size) {
                    write!(table, "{:>9}", "-").unwrap();
                } else if is_accepted(row, q, size) {
                    write!(table, "{:>9}", steps).unwrap();
                    done.iter_mut().zip(counts).for_each(|(done, count)| *done += count);
                } else {
                    write!(table, "{:>9}", format!("({})", steps)).unwrap();
                }
            }
            for count in &done[1..places(row)] {
                write!(table, "{:>11}", count).unwrap();
            }
        }
        table
    }

    /// The rows and sizes that no step had, and of accepted words the places of the destination.
    pub fn missing(&self) -> Vec<String> {
        let mut missing = Vec::new();
        for (row, q) in rows() {
            for (size, counts) in self.counts[row][q].iter().enumerate() {
                let of = format!("{} size {}", name(row, q), size);
                if is_accepted(row, q, size) {
                    let never = (0..places(row)).filter(|&place| counts[place] == 0);
                    missing.extend(never.map(|place| format!("{} {}", of, PLACES[place])));
                } else if is_there(row, size) && counts.iter().all(|&count| count == 0) {
                    missing.push(of);
                }
            }
        }
        missing
    }
}

/// The numbers of the rows; one with Q comes twice, with 0 and with 1.
fn rows() -> impl Iterator<Item = (usize, usize)> {
    (0..TABLE.len()).flat_map(|row| (0..=most_q(row) as usize).map(move |q| (row, q)))
}

/// The greatest Q of a row's words.
fn most_q(row: usize) -> u32 {
    !TABLE[row].mask >> 30 & 1
}

fn name(row: usize, q: usize) -> String {
    match most_q(row) {
        0 => TABLE[row].name.to_string(),
        _ => format!("{} q {}", TABLE[row].name, q),
    }
}

fn is_accepted(row: usize, q: usize, size: usize) -> bool {
    reference::decode(TABLE[row].value | (q << 30 | size << 22) as u32, Facts::ALL).is_ok()
}

/// Whether some word of the row has the size.
fn is_there(row: usize, size: usize) -> bool {
    TABLE[row].matches(TABLE[row].value | (size << 22) as u32)
}

/// How many places the destination can have.
fn places(row: usize) -> usize {
    match TABLE[row] {
        of if of.writes_predicate() => 1,
        of if has_second(&of) => PLACES.len(),
        _ => 2,
    }
}
