//! What the programs `families` and `trials` are expected to print is what the reference makes of the
//! same start.

use ghishmadul::Facts;
use reference::{back, fresh, line, step};

/// The words of `fillings`: one of every row that writes a vector, with register 3 as destination and among the
/// sources, then two of ptrue and one of pfalse.
#[rustfmt::skip]
const WORDS: [u32; 26] = [
    0x0400_2463, 0x04C1_2463, 0x0445_2463, 0x4E30_3863, 0x6EB0_3863, 0x4444_A463, 0x44C5_A463,
    0x4543_0063, 0x4583_0463, 0x45C3_0863, 0x4543_0C63, 0x4544_1063, 0x4583_1483, 0x45C5_1863,
    0x4543_1CA3, 0x4583_4063, 0x45C4_4463, 0x4543_4883, 0x4585_4C63, 0x45C3_50A3, 0x4543_5463,
    0x4584_5863, 0x45C3_5C83, 0x2558_E3C1, 0x2558_E123, 0x2518_E40F,
];

/// The lengths that both programs try.
const LENGTHS: [usize; 3] = [1, 4, 16];

/// Bytes by the rule of `fillings`.
fn filled(bytes: usize, seed: u64, cut: u64) -> Vec<u8> {
    let values = std::iter::successors(Some(seed), |value| Some((value * 7 + 11) % 251));
    values.take(bytes).map(|value| (value % cut) as u8).collect()
}

fn files(k: usize) -> (Vec<u8>, Vec<u8>) {
    (filled(512 * k, 3, 256), filled(32 * k, 5, 256))
}

#[test]
fn families_prints_the_references_lines() {
    let mut lines = String::new();
    for k in LENGTHS {
        for word in WORDS {
            let (mut z, mut p) = files(k);
            let mut journal = vec![0; 8 + 1 + 16 * k];
            fresh(k, 2, &mut journal).expect("a legal length");
            let answer = step(k, Facts::ALL, &mut z, &mut p, &word.to_le_bytes(), &mut journal);
            lines += &line(k, Facts::ALL, &z, &p, word, 0, answer);
        }
    }
    assert_eq!(lines, include_str!("../../crates/families/stdout"));
}

/// The runs of `trials`: the length, the journal's version, the facts as a byte and the journal's bytes.
fn runs() -> Vec<(usize, u64, u8, usize)> {
    let mut runs = Vec::new();
    for k in LENGTHS {
        let entry = 8 + 1 + 16 * k;
        let rooms = [8, entry - 1, entry, 65_536];
        runs.extend(rooms.map(|room| (k, 2, Facts::ALL.byte(), room)));
        runs.push((k, 1, Facts::ALL.byte(), 65_536));
    }
    runs.extend([0, 1, 3, 8, 7].map(|byte| (4, 2, byte, 65_536)));
    runs
}

#[test]
fn trials_prints_the_references_counts() {
    let program: Vec<u8> = WORDS.iter().cycle().take(256).flat_map(|w| w.to_le_bytes()).collect();
    let mut lines = String::new();
    for (k, version, byte, room) in runs() {
        let facts = Facts::from_byte(byte);
        let (mut z, mut p) = files(k);
        let mut journal = vec![0; room];
        fresh(k, version, &mut journal).expect("a legal length and room");
        let (mut forward, mut backward) = (0, 0);
        for direction in filled(1200, 9, 3) {
            if direction == 0 {
                backward += u32::from(back(k, &mut z, &mut p, &mut journal).is_ok());
            } else {
                forward +=
                    u32::from(step(k, facts, &mut z, &mut p, &program, &mut journal).is_ok());
            }
        }
        let counts = format!("{} {}", forward, backward);
        lines += &format!("{} {} {} {} {} same\n", k, version, byte, room, counts);
    }
    assert_eq!(lines, include_str!("../../crates/trials/stdout"));
}
