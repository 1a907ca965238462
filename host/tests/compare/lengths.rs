//! Which lengths were refused: by the calls that are lent one, and where a session was read.

use std::fmt::Write;

/// The lengths that there are.
pub const LEGAL: [usize; 5] = [1, 2, 4, 8, 16];

/// The others up to 17.
pub const REFUSED: [usize; 13] = [0, 3, 5, 6, 7, 9, 10, 11, 12, 13, 14, 15, 17];

/// Larger ones: those whose low five bits would be a length, and all others.
const LARGER: [&str; 2] = ["cut", "other"];

/// How often each length was refused.
#[derive(Clone, Copy, Default)]
pub struct Lengths {
    counts: [u64; REFUSED.len() + LARGER.len()],
}

impl Lengths {
    /// Counts a refusal of this length.
    pub fn count(&mut self, k: usize) {
        let larger = if LEGAL.contains(&low_bits(k)) { 0 } else { 1 };
        let column = REFUSED.iter().position(|&refused| refused == k);
        self.counts[column.unwrap_or(REFUSED.len() + larger)] += 1;
    }

    /// The counts, one after the other.
    pub fn line(&self) -> String {
        self.counts.iter().fold(String::new(), |mut line, count| {
            write!(line, "{:>6}", count).unwrap();
            line
        })
    }

    /// The lengths that were never refused.
    pub fn missing(&self) -> Vec<String> {
        let never = names().zip(self.counts).filter(|(_, count)| *count == 0);
        never.map(|(name, _)| name).collect()
    }
}

/// The columns' heads.
pub fn names() -> impl Iterator<Item = String> {
    let larger = LARGER.iter().map(|name| name.to_string());
    REFUSED.iter().map(usize::to_string).chain(larger)
}

/// What a call would take a length for that looked at its low five bits alone.
pub fn low_bits(k: usize) -> usize {
    k % 32
}

/// The length of bytes that are a session but perhaps for it.
pub fn of_a_session(bytes: &[u8]) -> Option<usize> {
    let head = bytes.get(..8)?;
    let k = head[5] as usize;
    let words = u16::from_le_bytes([head[6], head[7]]) as usize;
    let start = match &head[..5] {
        b"LNW\x01\x00" => 8,
        b"LNW\x02\x00" if *bytes.get(8)? <= reference::ALL => 9,
        _ => return None,
    };
    (words <= 256 && bytes.len() == start + 544 * k + 4 * words).then_some(k)
}
