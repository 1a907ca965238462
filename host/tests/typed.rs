//! What the benchmark sets beside the engine, compared with the reference: the step written for speed,
//! and the subtotal by a split.

#[path = "compare/inputs.rs"]
#[allow(dead_code)]
mod inputs;
#[path = "compare/lengths.rs"]
#[allow(dead_code)]
mod lengths;
#[path = "compare/random.rs"]
#[allow(dead_code)]
mod random;
#[path = "compare/reached.rs"]
#[allow(dead_code)]
mod reached;
#[path = "../benches/bench/split.rs"]
mod split;
#[path = "../benches/bench/typed.rs"]
mod typed;

use ghishmadul::{Facts, Refusal};
use random::Random;
use reached::Reached;
use reference::Asked;

#[test]
fn the_step_for_speed_agrees() {
    let mut random = Random::new(1);
    let (mut z, mut p, mut program, mut journal) = (vec![], vec![], vec![], vec![]);
    let (mut reached, mut wanting) = (Reached::default(), 0);
    for _ in 0..100_000 {
        let k = inputs::length(&mut random);
        inputs::files(&mut random, k, &mut z, &mut p);
        inputs::program(&mut random, &mut program);
        inputs::journal(&mut random, k, program.len() / 4, &mut journal);
        let position = reference::position(k, &journal);
        let next = position.and_then(|position| reference::read_word(&program, position));
        let (mut other_z, mut other_p, mut other_journal) = (z.clone(), p.clone(), journal.clone());
        let facts = reference::facts_of(inputs::facts(&mut random));
        let answer = typed::step(k, facts, &mut z, &mut p, &program, &mut journal);
        let other =
            reference::step(k, facts, &mut other_z, &mut other_p, &program, &mut other_journal);
        assert_eq!(answer, other);
        let same = z == other_z && p == other_p && journal == other_journal;
        assert!(same, "k {}, {:02x?}", k, &journal[..8]);
        if let (Ok(next), Ok(()) | Err(Refusal::Undefined)) = (next, other) {
            if other.is_ok() || reference::decode(next.word, Facts::ALL).is_err() {
                reached.count(next.word);
            } else {
                wanting += 1;
            }
        }
    }
    assert!(reached.missing().is_empty(), "not reached: {}", reached.missing().join(", "));
    assert!(wanting > 1000, "words refused for want of a fact");
}

#[test]
fn the_subtotal_by_a_split_agrees() {
    let mut random = Random::new(2);
    let (mut z, mut p) = (vec![], vec![]);
    for _ in 0..20_000 {
        let k = inputs::length(&mut random);
        inputs::files(&mut random, k, &mut z, &mut p);
        let (source, predicate, size) = (random.below(33), random.below(9), random.below(5));
        let asked = Asked { source, predicate, size };
        let range = random.below(40)..random.below(280);
        for signed in [false, true] {
            let answer = split::subtotal(k, &z, &p, asked, signed, range.clone());
            assert_eq!(answer, reference::subtotal(k, &z, &p, asked, signed, range.clone()));
        }
    }
}
