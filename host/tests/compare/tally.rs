//! How often each call gave each answer, which lengths were refused, which words were stepped, under
//! which facts, which sessions were read, and which lanes, entries and rows were asked for.

use crate::edges::Edges;
use crate::facts::UnderFacts;
use crate::lengths::{self, Lengths};
use crate::reached::Reached;
use crate::sessions::Sessions;
use ghishmadul::Refusal;
use std::fmt::Write;

#[derive(Clone, Copy, Debug, PartialEq)]
pub enum Call {
    Decode,
    Text,
    Assemble,
    Fresh,
    Step,
    Back,
    Position,
    RegisterPlace,
    Panel,
    Subtotal,
    ReadWord,
    ReadSession,
    WriteLine,
    ReadLane,
    ReadEntry,
    ReadRow,
    Version,
    PutLane,
    PutActive,
    WriteSession,
}

/// Each call's name, and the refusals that it can give.
const CALLS: [(&str, &[usize]); 20] = [
    ("decode", &[7, 8]),
    ("text", &[7, 8, 11]),
    ("assemble", &[12]),
    ("fresh", &[1, 4, 5]),
    ("step", &[1, 2, 3, 4, 5, 6, 7, 8, 9]),
    ("back", &[1, 2, 4, 5, 10]),
    ("position", &[1, 4, 5]),
    ("register_place", &[1, 2, 13]),
    ("panel", &[1, 2, 11, 13]),
    ("subtotal", &[1, 2, 13]),
    ("read_word", &[3, 6]),
    ("read_session", &[14]),
    ("write_line", &[1, 2, 3, 6, 7, 8, 11]),
    ("read_lane", &[1, 2, 13]),
    ("read_entry", &[1, 4, 5, 13]),
    ("read_row", &[13]),
    ("version", &[]),
    ("put_lane", &[1, 2, 13]),
    ("put_active", &[1, 2, 13]),
    ("write_session", &[1, 2, 3, 11]),
];

/// The refusals of a length: LENGTH, and SESSION where a session is read.
const OF_A_LENGTH: [usize; 2] = [1, 14];

#[derive(Default)]
pub struct Tally {
    counts: [[u64; 15]; CALLS.len()],
    lengths: [Lengths; CALLS.len()],
    steps: Reached,
    facts: UnderFacts,
    sessions: Sessions,
    edges: Edges,
}

impl Tally {
    /// Counts an answer; for a refused length `given` is that length.
    pub fn count(&mut self, call: Call, number: u64, given: Option<usize>) {
        let (call, number) = (call as usize, number as usize);
        self.counts[call][number] += 1;
        match given {
            Some(k) if OF_A_LENGTH.contains(&number) => self.lengths[call].count(k),
            _ => {}
        }
    }

    /// Counts the word of a step that was done or refused for the word's size.
    pub fn count_word(&mut self, word: u32) {
        self.steps.count(word);
    }

    /// Counts an answer about a word that the facts were looked at for.
    pub fn count_facts(&mut self, call: Call, facts: u8, higher: bool, word: u32, number: u64) {
        self.facts.count(call, facts, higher, word, number);
    }

    /// Counts a session that was read.
    pub fn count_session(&mut self, bytes: &[u8]) {
        self.sessions.count(bytes);
    }

    /// Where the lanes, entries and rows that were asked for are counted.
    pub fn edges(&mut self) -> &mut Edges {
        &mut self.edges
    }

    pub fn total(&self) -> u64 {
        self.counts.iter().flatten().sum()
    }

    /// A line for each call: its answers by number; then the lengths that were refused, the words that were
    /// stepped, the facts, the sessions and what was asked for.
    pub fn table(&self) -> String {
        let mut table = format!("{:15}{:>9}", "call", "done");
        for number in 1..15 {
            write!(table, "{:>8}", number).unwrap();
        }
        for ((name, _), counts) in CALLS.iter().zip(&self.counts) {
            write!(table, "\n{:15}{:>9}", name, counts[0]).unwrap();
            for &count in &counts[1..] {
                if count == 0 {
                    write!(table, "{:>8}", ".").unwrap();
                } else {
                    write!(table, "{:>8}", count).unwrap();
                }
            }
        }
        let further =
            [self.steps.table(), self.facts.table(), self.sessions.table(), self.edges.table()];
        table + "\n\n" + &self.refused_lengths() + "\n\n" + &further.join("\n\n")
    }

    /// A line for each call that refuses lengths: how often each was refused.
    fn refused_lengths(&self) -> String {
        let mut table = format!("{:15}", "refused k");
        lengths::names().for_each(|name| write!(table, "{:>6}", name).unwrap());
        for (name, lengths) in self.by_length() {
            write!(table, "\n{:15}{}", name, lengths.line()).unwrap();
        }
        table
    }

    /// The calls that refuse lengths, and what they refused.
    fn by_length(&self) -> impl Iterator<Item = (&'static str, &Lengths)> {
        let calls = CALLS.iter().zip(&self.lengths);
        let refusing = calls.filter(|((_, refusals), _)| refuses_lengths(refusals));
        refusing.map(|((name, _), lengths)| (*name, lengths))
    }

    /// For each call the answers that it can give and that never came, and the lengths that it never
    /// refused; and the words never stepped, the facts never asked, the sessions never read, and the lanes,
    /// entries and rows never asked for.
    pub fn missing(&self) -> Vec<String> {
        let calls = CALLS.iter().zip(&self.counts);
        let answers =
            calls.filter_map(|((name, refusals), counts)| missing(name, refusals, counts));
        let lengths = self.by_length().flat_map(|(name, lengths)| {
            lengths.missing().into_iter().map(move |k| format!("{} k {}", name, k))
        });
        let further = [
            self.steps.missing(),
            self.facts.missing(),
            self.sessions.missing(),
            self.edges.missing(),
        ];
        answers.chain(lengths).chain(further.into_iter().flatten()).collect()
    }
}

fn refuses_lengths(refusals: &[usize]) -> bool {
    OF_A_LENGTH.iter().any(|number| refusals.contains(number))
}

fn missing(name: &str, refusals: &[usize], counts: &[u64]) -> Option<String> {
    let numbers = std::iter::once(&0).chain(refusals).filter(|&&number| counts[number] == 0);
    let names: Vec<&str> = numbers
        .map(|&number| Refusal::check(number as u64).err().map_or("DONE", Refusal::name))
        .collect();
    if names.is_empty() {
        None
    } else {
        Some(format!("{} {}", name, names.join(" ")))
    }
}
