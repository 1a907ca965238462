//! The patterns of ptrue: their names, and how many lanes each makes active.

/// The patterns that have a name; the others are written by their number.
const NAMES: [(usize, &str); 17] = [
    (0, "pow2"),
    (1, "vl1"),
    (2, "vl2"),
    (3, "vl3"),
    (4, "vl4"),
    (5, "vl5"),
    (6, "vl6"),
    (7, "vl7"),
    (8, "vl8"),
    (9, "vl16"),
    (10, "vl32"),
    (11, "vl64"),
    (12, "vl128"),
    (13, "vl256"),
    (29, "mul4"),
    (30, "mul3"),
    (31, "all"),
];

/// A pattern as a text has it.
pub fn pattern_name(pattern: usize) -> String {
    let named = NAMES.iter().find(|(number, _)| *number == pattern);
    named.map_or_else(|| format!("#{}", pattern), |(_, name)| name.to_string())
}

/// The pattern that a text has.
pub(crate) fn pattern_of(name: &str) -> Option<usize> {
    (0..32).find(|&pattern| pattern_name(pattern) == name)
}

/// How many of so many lanes a pattern makes active: those with the lowest numbers.
pub fn pattern_lanes(pattern: usize, count: usize) -> usize {
    let fixed = |lanes: usize| if lanes <= count { lanes } else { 0 };
    let largest = |fits: fn(usize) -> bool| (1..=count).rev().find(|&n| fits(n)).unwrap_or(0);
    match pattern {
        0 => largest(|n| n.count_ones() == 1),
        1..=8 => fixed(pattern),
        9 => fixed(16),
        10 => fixed(32),
        11 => fixed(64),
        12 => fixed(128),
        13 => fixed(256),
        29 => largest(|n| n % 4 == 0),
        30 => largest(|n| n % 3 == 0),
        31 => count,
        _ => 0,
    }
}
