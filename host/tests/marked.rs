//! The paper's marked cases M1 to M12, some of the differences and wide sums, and predicates that words make, by the
//! engine and by the reference.

use ghishmadul::{Facts, Refusal};

type Assemble = fn(&[u8], Facts) -> Result<u32, Refusal>;
type Text = fn(u32, Facts, &mut [u8]) -> Result<usize, Refusal>;
type Step = fn(usize, Facts, &mut [u8], &mut [u8], &[u8], &mut [u8]) -> Result<(), Refusal>;

/// One step of one word: Z0 and Z1 before it, P0, and Z0 after it. Each pattern fills its register.
struct Case {
    name: &'static str,
    k: usize,
    text: &'static str,
    old: &'static [u8],
    source: &'static [u8],
    predicate: &'static [u8],
    new: New,
}

enum New {
    /// These bytes, zeros above them.
    Low(&'static [u8]),
    /// These bytes, again and again.
    Again(&'static [u8]),
}

use New::{Again, Low};

const NOISE: &[u8] = &[0xEE];
const PLACES: &[u8] = &[
    0xFF, 0, 0, 0, 0, 0, 0, 0, 0, 0, 0, 0, 0, 0, 0, 0, //
    0x02, 0, 0, 0, 0, 0, 0, 0, 0, 0, 0, 0, 0, 0, 0, 0,
];
const TOP_AND_TWO: &[u8] =
    &[0xFF, 0xFF, 0xFF, 0xFF, 0xFF, 0xFF, 0xFF, 0xFF, 2, 0, 0, 0, 0, 0, 0, 0];

const CASES: [Case; 14] = [
    Case {
        name: "M1",
        k: 1,
        text: "saddv d0, p0, z1.b",
        old: NOISE,
        source: &[0x80],
        predicate: &[0xFF],
        new: Low(&[0x00, 0xF8, 0xFF, 0xFF, 0xFF, 0xFF, 0xFF, 0xFF]),
    },
    Case {
        name: "M2",
        k: 16,
        text: "saddv d0, p0, z1.b",
        old: NOISE,
        source: &[0x80],
        predicate: &[0xFF],
        new: Low(&[0x00, 0x80, 0xFF, 0xFF, 0xFF, 0xFF, 0xFF, 0xFF]),
    },
    Case {
        name: "M3",
        k: 16,
        text: "saddv d0, p0, z1.b",
        old: NOISE,
        source: &[0x80],
        predicate: &[0],
        new: Low(&[]),
    },
    Case {
        name: "M4",
        k: 1,
        text: "uaddv d0, p0, z1.d",
        old: NOISE,
        source: TOP_AND_TWO,
        predicate: &[0xFF],
        new: Low(&[1]),
    },
    Case {
        name: "M5",
        k: 4,
        text: "uaddlv h0, v1.16b",
        old: NOISE,
        source: &[0xFF],
        predicate: &[0],
        new: Low(&[0xF0, 0x0F]),
    },
    Case {
        name: "M6",
        k: 4,
        text: "uaddlv s0, v1.8h",
        old: NOISE,
        source: &[0xFF],
        predicate: &[0],
        new: Low(&[0xF8, 0xFF, 0x07, 0x00]),
    },
    Case {
        name: "M7",
        k: 4,
        text: "saddlv s0, v1.4h",
        old: NOISE,
        source: &[0x00, 0x80],
        predicate: &[0],
        new: Low(&[0x00, 0x00, 0xFE, 0xFF]),
    },
    Case {
        name: "M8",
        k: 2,
        text: "addqv v0.16b, p0, z1.b",
        old: NOISE,
        source: PLACES,
        predicate: &[0xFF],
        new: Low(&[0x01]),
    },
    Case {
        name: "M8, second inactive",
        k: 2,
        text: "addqv v0.16b, p0, z1.b",
        old: NOISE,
        source: PLACES,
        predicate: &[0xFF, 0xFF, 0xFE, 0xFF],
        new: Low(&[0xFF]),
    },
    Case {
        name: "M9",
        k: 1,
        text: "sadalp z0.h, p0/m, z1.b",
        old: &[0xFF, 0x7F],
        source: &[1, 0],
        predicate: &[0xFF],
        new: Again(&[0x00, 0x80]),
    },
    Case {
        name: "M9, inactive",
        k: 1,
        text: "sadalp z0.h, p0/m, z1.b",
        old: &[0xFF, 0x7F],
        source: &[1, 0],
        predicate: &[0xAA],
        new: Again(&[0xFF, 0x7F]),
    },
    Case {
        name: "M10",
        k: 1,
        text: "saddlb z0.h, z1.b, z1.b",
        old: NOISE,
        source: &[0x80],
        predicate: &[0],
        new: Again(&[0x00, 0xFF]),
    },
    Case {
        name: "M11, predicate 02 00",
        k: 1,
        text: "saddv d0, p0, z1.h",
        old: NOISE,
        source: &[1, 0],
        predicate: &[0x02, 0x00],
        new: Low(&[]),
    },
    Case {
        name: "M11, predicate 04 00",
        k: 1,
        text: "saddv d0, p0, z1.h",
        old: NOISE,
        source: &[1, 0],
        predicate: &[0x04, 0x00],
        new: Low(&[1]),
    },
];

/// A case of a widening word; the patterns are those of a lane.
const fn lanes(
    name: &'static str,
    text: &'static str,
    old: &'static [u8],
    source: &'static [u8],
    new: &'static [u8],
) -> Case {
    Case { name, k: 4, text, old, source, predicate: &[0], new: Again(new) }
}

#[rustfmt::skip]
const DIFFERENCES_AND_WIDE_SUMS: [Case; 10] = [
    lanes("-128 less 127", "ssublb z0.h, z0.b, z1.b", &[0x80, 0x11], &[0x7F, 0x22], &[0x01, 0xFF]),
    lanes("1 less 2", "usublb z0.h, z0.b, z1.b", &[0x01, 0x11], &[0x02, 0x22], &[0xFF, 0xFF]),
    lanes("255 less 128", "usublt z0.h, z1.b, z0.b", &[0x11, 0x80], &[0x22, 0xFF], &[0x7F, 0x00]),
    lanes("-1 less -127", "ssublt z0.h, z1.b, z0.b", &[0x11, 0x81], &[0x22, 0xFF], &[0x7E, 0x00]),
    lanes("32767 and 1", "saddwb z0.h, z0.h, z1.b", &[0xFF, 0x7F], &[0x01, 0x22], &[0x00, 0x80]),
    lanes("-32768 and -1", "saddwb z0.h, z0.h, z1.b", &[0x00, 0x80], &[0xFF, 0x22], &[0xFF, 0x7F]),
    lanes("FF80 and 128", "uaddwt z0.h, z1.h, z0.b", &[0x33, 0x80], &[0x80, 0xFF], &[0x00, 0x00]),
    lanes("-32768 less 1", "ssubwt z0.h, z1.h, z0.b", &[0x33, 0x01], &[0x00, 0x80], &[0xFF, 0x7F]),
    lanes("255 less -1", "ssubwb z0.h, z0.h, z0.b", &[0xFF, 0x00], NOISE, &[0x00, 0x01]),
    lanes("0 less 1", "usubwb z0.d, z0.d, z1.s", &[0x00], &[1, 0, 0, 0, 9, 9, 9, 9], &[0xFF]),
];

fn fill(part: &mut [u8], pattern: &[u8]) {
    for (byte, &value) in part.iter_mut().zip(pattern.iter().cycle()) {
        *byte = value;
    }
}

fn run(side: &str, case: &Case, assemble: Assemble, step: Step) {
    let bytes = 16 * case.k;
    let mut z = vec![0xEE; 512 * case.k];
    let mut p = vec![0; 32 * case.k];
    fill(&mut z[..bytes], case.old);
    fill(&mut z[bytes..2 * bytes], case.source);
    fill(&mut p[..2 * case.k], case.predicate);

    let mut after = z.clone();
    match case.new {
        Low(low) => {
            after[..bytes].fill(0);
            after[..low.len()].copy_from_slice(low);
        }
        Again(pattern) => fill(&mut after[..bytes], pattern),
    }

    let facts = Facts::ALL;
    let program = assemble(case.text.as_bytes(), facts).expect(case.text).to_le_bytes();
    let predicates = p.clone();
    for version in [1, 2] {
        let (mut z, mut journal) = (z.clone(), vec![0; 8 + 1 + bytes]);
        reference::fresh(case.k, version, &mut journal).expect("a legal length");
        let answer = step(case.k, facts, &mut z, &mut p, &program, &mut journal);
        assert_eq!(answer, Ok(()), "{} {}", side, case.name);
        assert!(z == after && p == predicates, "{} {}", side, case.name);
    }
}

fn run_all(cases: &[Case]) {
    for case in cases {
        let assemble: Assemble = |text, facts| Ok(ghishmadul::assemble(text, facts)?);
        run("engine", case, assemble, ghishmadul::step);
        run("reference", case, reference::assemble, reference::step);
    }
}

#[test]
fn m1_to_m11() {
    run_all(&CASES);
}

#[test]
fn differences_and_wide_sums() {
    run_all(&DIFFERENCES_AND_WIDE_SUMS);
}

/// A word that makes P5, at a length, and the bytes that it leaves there; those after them are zeros.
type Made = (usize, &'static str, &'static [u8]);

/// Worked out by hand: w bytes to a lane, so bit e * w for lane e; vectors of 16k bytes.
const MADE: [Made; 20] = [
    (1, "ptrue p5.b, all", &[0xFF, 0xFF]),
    (1, "ptrue p5.h, all", &[0x55, 0x55]),
    (1, "ptrue p5.s, all", &[0x11, 0x11]),
    (1, "ptrue p5.d, all", &[0x01, 0x01]),
    (1, "ptrue p5.b, pow2", &[0xFF, 0xFF]),
    (1, "ptrue p5.b, vl3", &[0x07]),
    (1, "ptrue p5.h, vl5", &[0x55, 0x01]),
    (1, "ptrue p5.b, vl16", &[0xFF, 0xFF]),
    (1, "ptrue p5.h, vl16", &[]),
    (2, "ptrue p5.h, vl16", &[0x55, 0x55, 0x55, 0x55]),
    (1, "ptrue p5.d, vl3", &[]),
    (2, "ptrue p5.d, vl3", &[0x01, 0x01, 0x01]),
    (1, "ptrue p5.b, mul3", &[0xFF, 0x7F]),
    (1, "ptrue p5.h, mul3", &[0x55, 0x05]),
    (1, "ptrue p5.d, mul3", &[]),
    (1, "ptrue p5.s, mul4", &[0x11, 0x11]),
    (1, "ptrue p5.d, mul4", &[]),
    (16, "ptrue p5.b, vl256", &[0xFF; 32]),
    (16, "ptrue p5.b, #14", &[]),
    (4, "pfalse p5.b", &[]),
];

fn make((k, text, low): Made, assemble: Assemble, step: Step) {
    let (mut z, mut p, mut journal) =
        (vec![0xEE; 512 * k], vec![0xDD; 32 * k], vec![0; 9 + 16 * k]);
    let (vectors, mut predicates, mut entry) = (z.clone(), p.clone(), vec![0; 16 * k]);
    let program = assemble(text.as_bytes(), Facts::SVE).expect(text).to_le_bytes();
    reference::fresh(k, 2, &mut journal).expect("a legal length");
    assert_eq!(step(k, Facts::SVE, &mut z, &mut p, &program, &mut journal), Ok(()), "{}", text);
    predicates[5 * 2 * k..][..2 * k].fill(0);
    predicates[5 * 2 * k..][..low.len()].copy_from_slice(low);
    entry[..2 * k].fill(0xDD);
    assert!(z == vectors && p == predicates, "{} at k = {}", text, k);
    assert_eq!(journal[..9], [b'L', b'N', b'J', 2, 0, k as u8, 1, 0, 32 + 5]);
    assert_eq!(journal[9..], entry);
}

#[test]
fn made_predicates() {
    for made in MADE {
        make(made, |text, facts| Ok(ghishmadul::assemble(text, facts)?), ghishmadul::step);
        make(made, reference::assemble, reference::step);
    }
}

#[test]
fn m12() {
    for word in [0x2EB0_3800, 0x4500_0000] {
        assert_eq!(ghishmadul::decode(word, Facts::ALL), Err(Refusal::Undefined));
        assert_eq!(reference::decode(word, Facts::ALL), Err(Refusal::Undefined));
    }
    let calls: [Text; 2] = [ghishmadul::text, reference::text];
    for text in calls {
        let mut out = [0; 32];
        let length = text(0x6EB0_3800, Facts::ALL, &mut out).expect("an accepted word");
        assert_eq!(&out[..length], b"uaddlv d0, v0.4s");
    }
}
