//! Which sessions were read: of both versions and with every set of facts, and those that are refused for
//! their version, their facts or their length alone.

use reference::{ALL, HIGHER};
use std::fmt::Write;

/// What a session can be. All but the first two are refused.
const KINDS: [&str; 13] = [
    "version 1",
    "version 2",
    "version 0",
    "version 3",
    "version 257",
    "version 258",
    "bit 5",
    "bit 6",
    "bit 7",
    "1, a byte more",
    "2, a byte less",
    "2, of 8 bytes",
    "under 8 bytes",
];

#[derive(Default)]
pub struct Sessions {
    counts: [u64; KINDS.len()],
    sets: [u64; ALL as usize + 1],
}

impl Sessions {
    pub fn count(&mut self, bytes: &[u8]) {
        if let Some(kind) = kind(bytes) {
            let at = KINDS.iter().position(|&name| name == kind).expect("one of the kinds");
            self.counts[at] += 1;
            if kind == "version 2" {
                self.sets[bytes[8] as usize] += 1;
            }
        }
    }

    /// A line for each kind, and one for the sets of facts.
    pub fn table(&self) -> String {
        let mut table = format!("{:15}", "session");
        for (name, count) in KINDS.iter().zip(self.counts) {
            write!(table, "\n{:15}{:>9}", name, count).unwrap();
        }
        let sets = self.sets.iter().filter(|&&count| count > 0).count();
        write!(table, "\n{:15}{:>9}", "sets, of 32", sets).unwrap();
        table
    }

    /// The kinds and the sets of facts that no session had.
    pub fn missing(&self) -> Vec<String> {
        let kinds = KINDS.iter().zip(self.counts).filter(|(_, count)| *count == 0);
        let kinds = kinds.map(|(name, _)| format!("session {}", name));
        let sets = self.sets.iter().enumerate().filter(|(_, &count)| count == 0);
        kinds.chain(sets.map(|(set, _)| format!("session facts {}", set))).collect()
    }
}

/// The kind of a session that is right but for one thing.
fn kind(bytes: &[u8]) -> Option<&'static str> {
    if bytes.len() < 8 {
        return Some("under 8 bytes");
    }
    let (version, k) = (u16::from_le_bytes([bytes[3], bytes[4]]), bytes[5] as usize);
    let words = u16::from_le_bytes([bytes[6], bytes[7]]) as usize;
    if bytes[..3] != *b"LNW" || ![1, 2, 4, 8, 16].contains(&k) || words > 256 {
        return None;
    }
    let header = bytes.len().checked_sub(544 * k + 4 * words);
    match (version, header) {
        (1, Some(8)) => Some("version 1"),
        (1, Some(9)) => Some("1, a byte more"),
        (2, Some(8)) => Some("2, a byte less"),
        (2, None) if bytes.len() == 8 => Some("2, of 8 bytes"),
        (2, Some(9)) => match bytes[8] & HIGHER {
            0 => Some("version 2"),
            0x20 => Some("bit 5"),
            0x40 => Some("bit 6"),
            0x80 => Some("bit 7"),
            _ => None,
        },
        (0, Some(8 | 9)) => Some("version 0"),
        (3, Some(8 | 9)) => Some("version 3"),
        (257, Some(8 | 9)) => Some("version 257"),
        (258, Some(8 | 9)) => Some("version 258"),
        _ => None,
    }
}
