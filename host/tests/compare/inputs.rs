//! Inputs for the comparison: valid ones, damaged ones and noise.

use crate::lengths::{low_bits, LEGAL, REFUSED};
use crate::random::Random;
use ghishmadul::{Facts, Refusal};
use reference::{facts_of, Row, ALL, HIGHER, TABLE};

const LETTERS: [&str; 5] = ["b", "h", "s", "d", "q"];
const LONG: usize = 10_000;
const MOST_JOURNAL: usize = 65_536;

/// Versions of a journal at the ends: those that there are, those beside them, and those that are right in their
/// low bits.
pub const VERSIONS: [u64; 10] =
    [0, 1, 2, 3, (1 << 16) + 1, (1 << 16) + 2, (1 << 32) + 1, (1 << 32) + 2, 1 << 63, u64::MAX];

/// A word: mostly of a row, whatever its size, often one that makes a predicate, else often with its destination
/// among its sources; sometimes with a bit turned; sometimes noise.
pub fn word(random: &mut Random) -> u32 {
    let row = match random.below(8) {
        0 => random.pick(&TABLE[TABLE.len() - 2..]),
        _ => random.pick(&TABLE),
    };
    let word = row.value | random.word() & !row.mask;
    match random.below(10) {
        0 => random.word(),
        1 => word ^ 1 << random.below(32),
        2..=4 if !row.writes_predicate() => with_destination_read(random, &row, word),
        _ => word,
    }
}

/// The word with its destination for a source: for the first, the second if it has one, or both.
fn with_destination_read(random: &mut Random, row: &Row, word: u32) -> u32 {
    let mut places: &[u32] = &[5];
    if has_second(row) {
        places = random.pick(&[&[5][..], &[16], &[5, 16]]);
    }
    let d = word & 31;
    places.iter().fold(word, |word, place| word & !(31 << place) | d << place)
}

/// Whether the words of a row have a second source, bits 20:16.
pub fn has_second(row: &Row) -> bool {
    row.mask & 31 << 16 == 0
}

/// Every word that a row matches, whatever its size.
pub fn every_word_of_a_row() -> impl Iterator<Item = u32> {
    TABLE.iter().flat_map(|&Row { mask, value, .. }| {
        // The numbers within the free bits, upwards: adding one to the mask's ones carries over them.
        let mut free = Some(0u32);
        std::iter::from_fn(move || {
            let word = value | free?;
            free = (free? | mask).checked_add(1).map(|next| next & !mask);
            Some(word)
        })
    })
}

pub fn accepted_word(random: &mut Random, facts: Facts) -> u32 {
    loop {
        let word = word(random);
        if reference::decode(word, facts).is_ok() {
            return word;
        }
    }
}

/// An accepted word that writes a vector.
pub fn vector_word(random: &mut Random, facts: Facts) -> u32 {
    loop {
        let word = accepted_word(random, facts);
        let row = TABLE.iter().find(|row| row.matches(word)).expect("a word of a row");
        if !row.writes_predicate() {
            return word;
        }
    }
}

/// A byte of facts: any, but often one with all of them, with none, or without higher bits.
pub fn facts(random: &mut Random) -> u8 {
    let any = random.byte();
    match random.below(8) {
        0 | 1 => any | ALL,
        2 => any & HIGHER,
        3 => any & ALL,
        _ => any,
    }
}

/// A byte of facts that lacks what the word needs; for a word that needs nothing, one without any.
pub fn facts_against(random: &mut Random, word: u32) -> u8 {
    for _ in 0..12 {
        let any = random.byte();
        if reference::decode(word, facts_of(any)) == Err(Refusal::Undefined) {
            return any;
        }
    }
    random.byte() & HIGHER
}

/// A length that there is.
pub fn legal_length(random: &mut Random) -> usize {
    random.pick(&LEGAL)
}

/// A length: mostly a legal one; sometimes another up to 17, one that is legal in its low bits, or a
/// large one.
pub fn length(random: &mut Random) -> usize {
    let legal = legal_length(random);
    match random.below(40) {
        0..=4 => random.pick(&REFUSED),
        5 => legal + random.pick(&[1 << 5, 1 << 8, 1 << 16, 1 << 32, 1 << 63]),
        6 => random.pick(&[18, 24, 31, 32, 64, 255, 256, 1 << 55, 1 << 59, 1 << 63, usize::MAX]),
        _ => legal,
    }
}

/// The length to lay parts out for: one that is too large is taken for its low bits.
fn laid_out_for(k: usize) -> usize {
    if k <= 17 {
        k
    } else {
        low_bits(k).clamp(1, 16)
    }
}

/// An answer number: mostly done or a refusal's; sometimes one that no byte or no sixteen bits hold.
pub fn answer_number(random: &mut Random) -> u64 {
    match random.below(6) {
        0 => random.number() >> random.below(64),
        1 => random.pick(&[99, 100, 255, 256, 65_535, 65_536, 1 << 32, 1 << 63, u64::MAX]),
        _ => random.pick(&[0, 0, 0, 1, 6, 7, 8, 9, 14]),
    }
}

/// Content of a part: noise, or bytes that are all alike, or alike but for some.
pub fn content(random: &mut Random, part: &mut Vec<u8>, bytes: usize) {
    part.clear();
    part.resize(bytes, random.pick(&[0x00, 0x01, 0x7F, 0x80, 0xFF]));
    match random.below(5) {
        0 => {}
        1 => {
            for byte in part.iter_mut().step_by(7) {
                *byte = random.byte();
            }
        }
        _ => random.fill(part),
    }
}

/// A part's length with a slip: a little or much too short or too long.
fn slipped(random: &mut Random, bytes: usize, unit: usize) -> usize {
    let slip = random.pick(&[1, 1, 2, 8, unit, unit]);
    match random.below(3) {
        0 => bytes.saturating_sub(slip),
        1 => bytes + slip,
        _ => random.pick(&[0, bytes / 2, bytes + 1]),
    }
}

/// Both files for a length.
pub fn files(random: &mut Random, k: usize, z: &mut Vec<u8>, p: &mut Vec<u8>) {
    let like = laid_out_for(k);
    let mut vectors = 512 * like;
    let mut predicates = 32 * like;
    match random.below(40) {
        0 => vectors = slipped(random, vectors, 512),
        1 => predicates = slipped(random, predicates, 32),
        2 => {
            vectors += 512;
            predicates += 32;
        }
        _ => {}
    }
    content(random, z, vectors);
    content(random, p, predicates);
}

/// A program, mostly of whole words and mostly of rows.
pub fn program(random: &mut Random, program: &mut Vec<u8>) {
    let words = match random.below(12) {
        0 => 0,
        1 => 1,
        2 => 256,
        3 => 257,
        4 => 255,
        _ => random.below(257),
    };
    program.clear();
    for _ in 0..words {
        program.extend(word(random).to_le_bytes());
    }
    if random.one_in(20) {
        let bytes = random.pick(&[1, 2, 3, 5, 1023, 1025, 1026, 1027, 1032, 4096]);
        program.resize(bytes, 0);
    } else if random.one_in(30) {
        program.pop();
    }
}

/// A journal with some entries, mostly well formed, mostly below the end of a program of so many words.
pub fn journal(random: &mut Random, k: usize, words: usize, journal: &mut Vec<u8>) {
    let like = laid_out_for(k);
    let entry = 1 + 16 * like;
    let most = ((MOST_JOURNAL - 8) / entry).min(256);
    let mut count = match random.below(8) {
        0 => 0,
        1 => most,
        2 => words.min(most),
        _ => random.below(words.max(1)).min(most),
    };
    if random.one_in(3) {
        count = count.min(random.below(8));
    }

    // The room: often just what the entries take, or one more, or all that there is.
    let taken = 8 + count * entry;
    let bytes = match random.below(8) {
        0 => taken,
        1 => taken + random.below(entry),
        2 => MOST_JOURNAL,
        3 => taken + 3 * entry + random.below(entry),
        _ => taken + entry,
    };
    journal.clear();
    journal.resize(bytes.min(MOST_JOURNAL), 0);
    if random.one_in(3) {
        random.fill(&mut journal[taken..]);
    }
    random.fill(&mut journal[8..taken]);
    let version = random.pick(&[1, 2, 2]);
    entry_numbers(random, version, journal[8..taken].iter_mut().step_by(entry).collect());
    journal[..5].copy_from_slice(&[b'L', b'N', b'J', version, 0]);
    journal[5] = like as u8;
    journal[6..8].copy_from_slice(&(count as u16).to_le_bytes());

    match random.below(24) {
        0 => {
            let place = random.below(8);
            journal[place] ^= 1 << random.below(8);
        }
        1 => {
            let place = random.below(8);
            journal[place] = random.byte();
        }
        2 => {
            let any = random.word() as u16;
            let count = random.pick(&[256, 257, 65_535, count as u16 + 1, any]);
            journal[6..8].copy_from_slice(&count.to_le_bytes());
        }
        3 | 4 if count > 0 => {
            let (any, between) = (random.byte(), random.below(count));
            let number = random.pick(&[32, 48, 255, any]);
            let place = random.pick(&[0, count - 1, between]);
            journal[8 + place * entry] = number;
        }
        5 => {
            let bytes = random.pick(&[0, 1, 7, 8, 9, MOST_JOURNAL + 1, MOST_JOURNAL + 9]);
            journal.resize(bytes, 0);
        }
        6 => {
            let bytes = journal.len().saturating_sub(1 + random.below(entry));
            journal.truncate(bytes);
        }
        7 => {
            let version: u16 = random.pick(&[0, 3, 257, 258, 3 - u16::from(version)]);
            journal[3..5].copy_from_slice(&version.to_le_bytes());
        }
        _ => {}
    }
}

/// Makes numbers of entries, which hold noise, those of a version; sometimes vectors alone but for one at an end
/// of what some version has.
fn entry_numbers(random: &mut Random, version: u8, mut numbers: Vec<&mut u8>) {
    let low = version == 1 || random.one_in(4);
    for number in &mut numbers {
        **number %= if low { 32 } else { 48 };
    }
    if random.one_in(6) && !numbers.is_empty() {
        numbers.iter_mut().for_each(|number| **number %= 31);
        let at = random.below(numbers.len());
        *numbers[at] = random.pick(&[31, 32, 47, 48]);
    }
}

/// The version that a fresh journal is told: mostly one that there is; sometimes one beside them, one that is right in
/// its low bits, or any.
pub fn version(random: &mut Random) -> u64 {
    match random.below(4) {
        0 => random.pick(&VERSIONS),
        1 if random.one_in(4) => random.number() >> random.below(64),
        _ => 1 + random.below(2) as u64,
    }
}

/// A text: an accepted one, a damaged one, one put together from pieces, noise, or a long one.
pub fn text(random: &mut Random, text: &mut Vec<u8>) {
    text.clear();
    let mut out = [0; 32];
    let word = accepted_word(random, Facts::ALL);
    let length = reference::text(word, Facts::ALL, &mut out).expect("an accepted word");
    match random.below(16) {
        0..=4 => text.extend(&out[..length]),
        5..=9 => {
            text.extend(&out[..length]);
            for _ in 0..1 + random.below(2) {
                damage(random, text);
            }
        }
        10..=13 => pieces(random, text),
        14 => {
            text.resize(random.below(48), 0);
            random.fill(text);
        }
        _ if random.one_in(20) => {
            text.extend(&out[..length]);
            let padding = random.pick(&[b' ', b'0', b'b', 0, 0xFF]);
            if random.one_in(2) {
                text.resize(LONG, padding);
            } else {
                let place = random.below(length);
                let long = std::iter::repeat(padding).take(LONG - length);
                text.splice(place..place, long);
            }
        }
        _ => {
            text.resize(random.below(16), b' ');
            text.extend(&out[..length]);
        }
    }
}

fn damage(random: &mut Random, text: &mut Vec<u8>) {
    let place = random.below(text.len().max(1));
    if text.is_empty() {
        return;
    }
    match random.below(8) {
        0 => {
            text.remove(place);
        }
        1 => text.insert(place, text[place]),
        2 => text[place] ^= 1 << random.below(8),
        3 => text[place] = random.pick(b"0123456789bhsdpvz.,/m #law"),
        4 => text.insert(place, random.pick(b"0123456789bhsdpvz.,/m #law")),
        5 => text.truncate(place),
        6 => text.push(random.pick(b" \n\0,b0")),
        _ => text.swap(place, 0),
    }
}

/// Every name with three vector registers, each with every letter.
pub fn every_text_of_three_lanes() -> impl Iterator<Item = String> {
    TABLE.iter().flat_map(|row| {
        (0..125).map(move |number| {
            let [d, n, m] = [number / 25, number / 5 % 5, number % 5].map(|at| LETTERS[at]);
            format!("{} z31.{}, z0.{}, z7.{}", row.name, d, n, m)
        })
    })
}

/// Patterns by their names and numbers, and what is nearly one: another spelling, a number that has a name, one past
/// the last, more after it.
#[rustfmt::skip]
pub const NEAR_PATTERNS: [&str; 34] = [
    "pow2", "vl1", "vl8", "vl16", "vl256", "mul4", "mul3", "all", "#14", "#28", "#0", "#1", "#5", "#13",
    "#29", "#30", "#31", "#32", "#014", "# 14", "#-1", "14", "31", "vl0", "vl9", "vl016", "vl12", "vl512",
    "ALL", "All", "pow", "mul", "", "all, mul #2",
];

/// Every text of a word that makes a predicate, and many that are nearly one.
pub fn every_text_of_a_predicate() -> Vec<String> {
    let numbers = (0..=17).map(|d| d.to_string()).chain(["03", "", "256"].map(String::from));
    let registers: Vec<String> =
        numbers.map(|d| format!("p{}", d)).chain(["z3", "P3", "v3"].map(String::from)).collect();
    let named = (0..32).map(reference::pattern_name);
    let mut patterns: Vec<String> = named.chain(NEAR_PATTERNS.map(String::from)).collect();
    patterns.sort();
    patterns.dedup();
    let mut texts = Vec::new();
    for (name, register) in ["ptrue", "pfalse", "ptrues", "Ptrue"]
        .into_iter()
        .flat_map(|name| registers.iter().map(move |r| (name, r)))
    {
        for letter in LETTERS.iter().chain(&["", "16b"]) {
            texts.push(format!("{} {}.{}", name, register, letter));
            let with = |pattern| format!("{} {}.{}, {}", name, register, letter, pattern);
            texts.extend(patterns.iter().map(with));
        }
        texts.push(format!("{} {}", name, register));
        texts.push(format!("{} {}, all", name, register));
        texts.push(format!("{} {}/m, all", name, register));
    }
    texts
}

/// Names, registers and sizes put together as some form has them, fitting or not.
fn pieces(random: &mut Random, text: &mut Vec<u8>) {
    const NO_NAMES: [&str; 8] =
        ["addv", "saddl", "uaddqv", "ssubv", "saddw", "usublw", "ptrues", "pfals"];
    const ARRANGEMENTS: [&str; 9] = ["8b", "16b", "4h", "8h", "2s", "4s", "1d", "2d", "32b"];
    let numbers: Vec<String> = (0..4)
        .map(|_| match random.below(12) {
            0 => format!("0{}", random.below(10)),
            1 => random.below(1000).to_string(),
            2 => random.below(34).to_string(),
            3 => random.pick(&["", "+1", "-1", " 1", "1 ", "256", "4294967297"]).to_string(),
            4 | 5 => random.below(32).to_string(),
            _ => random.below(8).to_string(),
        })
        .collect();
    let name = match random.below(6) {
        0 => random.pick(&NO_NAMES),
        _ => random.pick(&TABLE).name,
    };
    let size = random.below(4);
    let half = if random.one_in(4) { random.below(5) } else { size.max(1) - 1 };
    let other = if random.one_in(4) { random.below(5) } else { half };
    let (wide, narrow, second) = (LETTERS[size], LETTERS[half], LETTERS[other]);
    let first = random.pick(&[wide, narrow]);
    let arrangement = random.pick(&ARRANGEMENTS);
    let [a, b, c] = [&numbers[0], &numbers[1], &numbers[2]];
    let pattern = random.pick(&NEAR_PATTERNS);
    let made = match random.below(7) {
        0 => format!("{} d{}, p{}, z{}.{}", name, a, b, c, wide),
        1 => format!("{} v{}.{}, p{}, z{}.{}", name, a, arrangement, b, c, wide),
        2 => format!("{} {}{}, v{}.{}", name, wide, a, b, arrangement),
        3 => format!("{} z{}.{}, p{}/m, z{}.{}", name, a, wide, b, c, narrow),
        4 => format!("ptrue p{}.{}, {}", a, wide, pattern),
        5 => format!("{} p{}.{}", random.pick(&["pfalse", "ptrue", name]), a, wide),
        _ => format!("{} z{}.{}, z{}.{}, z{}.{}", name, a, wide, b, first, c, second),
    };
    text.extend(made.as_bytes());
}

/// A length that no session has and a byte holds.
fn session_length(random: &mut Random) -> usize {
    match random.below(4) {
        0 => random.pick(&[18, 24, 32, 33, 34, 36, 40, 48, 64, 80]),
        _ => random.pick(&REFUSED),
    }
}

/// A session, valid or with one thing wrong.
pub fn session(random: &mut Random, session: &mut Vec<u8>) {
    let k = legal_length(random);
    let any = random.below(257);
    let words = random.pick(&[0, 1, 2, 255, 256, any]);
    // The version, and where the vector file starts.
    let (version, start) = random.pick(&[(1, 8), (2, 9), (2, 9)]);
    session.clear();
    session.resize(start + 544 * k + 4 * words, 0);
    random.fill(session);
    session[..3].copy_from_slice(b"LNW");
    session[3..5].copy_from_slice(&[version, 0]);
    session[5] = k as u8;
    session[6..8].copy_from_slice(&(words as u16).to_le_bytes());
    if version == 2 {
        session[8] &= ALL;
    }
    match random.below(24) {
        0 => session.push(0),
        1 => {
            session.pop();
        }
        2 => {
            let place = random.below(start);
            session[place] ^= 1 << random.below(8);
        }
        3 => {
            let place = random.below(start);
            session[place] = random.byte();
        }
        4 => session[5] = session_length(random) as u8,
        5 => {
            // A count that is wrong, in a session of just its size.
            let words: u16 = random.pick(&[257, 258, 512]);
            session[6..8].copy_from_slice(&words.to_le_bytes());
            session.resize(start + 544 * k + 4 * words as usize, 0);
        }
        6 => session.truncate(random.below(10)),
        7 | 8 => {
            // A length that is wrong, in a session of just its size.
            let k = session_length(random);
            session[5] = k as u8;
            session.resize(start + 544 * k + 4 * words, 0);
        }
        9 => session.resize(random.pick(&[0, 1, 7, 8, 9, 551, 552, 553, LONG]), 0),
        10 | 11 => {
            // A version that is wrong, laid out as either.
            let version: u16 = random.pick(&[0, 3, 257, 258]);
            session[3..5].copy_from_slice(&version.to_le_bytes());
        }
        12 | 13 if version == 2 => session[8] |= random.pick(&[0x20, 0x40, 0x80, HIGHER]),
        14 => session[3] = 3 - version,
        _ => {}
    }
}
