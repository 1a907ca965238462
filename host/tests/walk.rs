//! The paper's session walked, by the engine and by the reference: of the former version, and with facts; and one that
//! makes its predicate itself.

use ghishmadul::{Facts, Machine, Refusal};

/// k = 1, Z1 bytes 1 to 16 in order, P0 bytes FF FF, all else zero, four words; after this header.
fn session(header: &[u8]) -> Vec<u8> {
    let mut session = header.to_vec();
    session.resize(header.len() + 544, 0);
    let (vectors, predicates) = session[header.len()..].split_at_mut(512);
    for (byte, value) in vectors[16..32].iter_mut().zip(1..) {
        *byte = value;
    }
    predicates[..2].fill(0xFF);
    for word in [0x0400_2020u32, 0x2E30_3822, 0x4541_0023, 0x04C0_2020] {
        session.extend(word.to_le_bytes());
    }
    session
}

/// Of version 1, which has no facts.
fn former() -> Vec<u8> {
    session(b"LNW\x01\x00\x01\x04\x00")
}

/// Of version 2, with this byte of facts.
fn with_facts(facts: u8) -> Vec<u8> {
    session(&[b'L', b'N', b'W', 2, 0, 1, 4, 0, facts])
}

/// All steps but the last, which is undefined on every core.
#[test]
fn the_engine_walks_the_papers_lines() {
    for session in [former(), with_facts(31)] {
        let mut machine = Machine::from_session(&session).expect("a session");
        assert_eq!(machine.facts(), Facts::ALL);
        assert_eq!(machine.walk(), include_str!("walk.expected"));
        assert_eq!(machine.position(), 3);
        assert_eq!(machine.step(), Err(Refusal::Undefined));
    }
}

#[test]
fn the_reference_walks_the_papers_lines() {
    for session in [former(), with_facts(31)] {
        assert_eq!(reference::walk(&session), include_str!("walk.expected"));
    }
}

/// The first lines that come under these facts, and the word that is undefined then.
#[test]
fn a_core_that_lacks_a_fact_stops_at_its_word() {
    let paper: Vec<&str> = include_str!("walk.expected").lines().collect();
    for (facts, steps, last) in [
        (0, 0, "0 8 04002020"),
        (Facts::SVE.byte(), 2, "2 8 45410023"),
        (Facts::SVE2.byte(), 3, "3 8 04c02020"),
        (Facts::SME_ONLY.byte(), 3, "3 8 04c02020"),
        (2, 0, "0 8 04002020"),
    ] {
        let lines = [&paper[..steps], &[last]].concat().join("\n") + "\n";
        let mut machine = Machine::from_session(&with_facts(facts)).expect("a session");
        assert_eq!((machine.walk(), machine.position()), (lines.clone(), steps));
        assert_eq!(reference::walk(&with_facts(facts)), lines);
    }
}

/// From a predicate file of zeros: all lanes, their sum, none of them, and the sum of none. Z1 has the bytes 1 to 16.
#[test]
fn a_session_makes_its_own_predicates() {
    let mut session = vec![b'L', b'N', b'W', 2, 0, 1, 4, 0, Facts::SVE.byte()];
    session.resize(9 + 16, 0);
    session.extend(1..=16);
    session.resize(9 + 544, 0);
    for text in ["ptrue p0.b, all", "saddv d0, p0, z1.b", "pfalse p0.b", "saddv d0, p0, z1.b"] {
        let word = ghishmadul::assemble(text, Facts::SVE).expect("an accepted text");
        session.extend(word.to_le_bytes());
    }
    let lines = "0 0 ptrue p0.b, all ffff\n\
                 1 0 saddv d0, p0, z1.b 00000000000000000000000000000088\n\
                 2 0 pfalse p0.b 0000\n\
                 3 0 saddv d0, p0, z1.b 00000000000000000000000000000000\n";
    let mut machine = Machine::from_session(&session).expect("a session");
    assert_eq!(machine.walk(), lines);
    assert_eq!(reference::walk(&session), lines);
    machine.reset();
    assert_eq!(machine.session(), session);
}

#[test]
fn what_is_no_session_is_refused() {
    let longer = [former(), with_facts(31)].map(|mut session| {
        session.push(0);
        session
    });
    let cut = |session: &[u8], bytes: usize| session[..bytes].to_vec();
    let other = |version: u8| {
        let mut session = with_facts(31);
        session[3] = version;
        session
    };
    let sessions = [
        &longer[..],
        &[with_facts(32), with_facts(64), with_facts(128), with_facts(255)],
        &[other(0), other(1), other(3), session(b"LNW\x02\x00\x01\x04\x00")],
        &[cut(&with_facts(31), 9), cut(&with_facts(31), 8), cut(&former(), 8), cut(&former(), 7)],
    ]
    .concat();
    for session in sessions {
        assert_eq!(Machine::from_session(&session), Err(Refusal::Session));
        assert_eq!(reference::walk(&session), "14\n");
    }
}

/// k = 16 and 256 words in version 2 with all facts: 9 + 8192 + 512 + 1024 bytes. With one byte more it is no session.
#[test]
fn the_longest_session_is_walked_and_a_longer_one_is_none() {
    let mut session = vec![b'L', b'N', b'W', 2, 0, 16, 0, 1, 31];
    session.resize(9 + 8192 + 512, 0);
    for _ in 0..256 {
        session.extend(0x0400_2020u32.to_le_bytes());
    }
    assert_eq!(session.len(), 9737);
    let mut machine = Machine::from_session(&session).expect("a session");
    assert_eq!(machine.facts(), Facts::ALL);
    let lines = machine.walk();
    assert!(lines.ends_with("\n254 9 04002020\n"));
    assert_eq!(reference::walk(&session), lines);
    session.push(0);
    assert_eq!(Machine::from_session(&session), Err(Refusal::Session));
    assert_eq!(reference::walk(&session), "14\n");
}
