//! Under which facts the calls were asked, and which words they refused for want of one.

use crate::tally::Call;
use ghishmadul::Facts;
use reference::{ALL, HIGHER, TABLE};
use std::fmt::Write;

/// The calls that take facts, with their names.
const CALLS: [(Call, &str); 5] = [
    (Call::Decode, "decode"),
    (Call::Text, "text"),
    (Call::Assemble, "assemble"),
    (Call::Step, "step"),
    (Call::WriteLine, "write_line"),
];

/// The rows that need no fact: saddlv and uaddlv.
const NEEDLESS: [usize; 2] = [3, 4];

/// The refusals of a word by its bits and the facts: UNKNOWN, UNDEFINED, TEXT.
const OF_A_WORD: [u64; 3] = [7, 8, 12];

/// What a call was asked, by sets of facts and by rows.
#[derive(Clone, Copy, Default)]
struct Asked {
    sets: [u64; ALL as usize + 1],
    /// Of each row: accepted, accepted without any fact, and refused for want of one.
    accepted: [u64; TABLE.len()],
    bare: [u64; TABLE.len()],
    wanting: [u64; TABLE.len()],
    /// By a byte that has higher bits set: accepted, and refused for want of a fact.
    higher: [u64; 2],
}

#[derive(Default)]
pub struct UnderFacts {
    calls: [Asked; CALLS.len()],
}

impl UnderFacts {
    /// Counts an answer about this word that the facts were looked at for. `higher` is whether the higher
    /// bits of the byte reached the engine.
    pub fn count(&mut self, call: Call, facts: u8, higher: bool, word: u32, number: u64) {
        if number != 0 && !OF_A_WORD.contains(&number) {
            return;
        }
        let at = CALLS.iter().position(|&(of, _)| of == call).expect("a call that takes facts");
        let asked = &mut self.calls[at];
        let set = facts & ALL;
        asked.sets[set as usize] += 1;
        let row = match reference::decode(word, Facts::ALL) {
            Ok(fields) => fields.row,
            Err(_) => return,
        };
        let wanting = number != 0;
        if wanting {
            asked.wanting[row] += 1;
        } else {
            asked.accepted[row] += 1;
            asked.bare[row] += u64::from(set == 0);
        }
        asked.higher[usize::from(wanting)] += u64::from(higher && facts & HIGHER != 0);
    }

    /// A column for each call: how many sets of facts, answers where higher bits were set, and for each row
    /// the refusals for want of a fact; at the end what was accepted without any.
    pub fn table(&self) -> String {
        let mut table = format!("{:22}", "under facts");
        CALLS.iter().for_each(|(_, name)| write!(table, "{:>11}", name).unwrap());
        let mut line = |name: &str, of: &dyn Fn(&Asked) -> u64| {
            write!(table, "\n{:22}", name).unwrap();
            self.calls.iter().for_each(|asked| write!(table, "{:>11}", of(asked)).unwrap());
        };
        line("sets, of 32", &|asked| asked.sets.iter().filter(|&&count| count > 0).count() as u64);
        line("a set at least", &|asked| asked.sets.iter().copied().min().unwrap_or(0));
        line("higher bits, accepted", &|asked| asked.higher[0]);
        line("higher bits, refused", &|asked| asked.higher[1]);
        for (row, of) in TABLE.iter().enumerate() {
            line(&format!("{} refused", of.name), &|asked| asked.wanting[row]);
        }
        for row in NEEDLESS {
            line(&format!("{} without", TABLE[row].name), &|asked| asked.bare[row]);
        }
        table
    }

    /// What was never asked, and rows that were refused or accepted as none may be.
    pub fn missing(&self) -> Vec<String> {
        let mut missing = Vec::new();
        for ((_, call), asked) in CALLS.iter().zip(&self.calls) {
            let mut need = |met: bool, what: String| {
                if !met {
                    missing.push(format!("{} {}", call, what));
                }
            };
            for (set, &count) in asked.sets.iter().enumerate() {
                need(count > 0, format!("facts {}", set));
            }
            need(asked.higher[0] > 0, "higher bits accepted".to_string());
            need(asked.higher[1] > 0, "higher bits refused".to_string());
            for (row, of) in TABLE.iter().enumerate() {
                let needless = NEEDLESS.contains(&row);
                need(asked.accepted[row] > 0, format!("{} accepted", of.name));
                need((asked.wanting[row] > 0) != needless, format!("{} for want", of.name));
                need((asked.bare[row] > 0) == needless, format!("{} without facts", of.name));
            }
        }
        missing
    }
}
