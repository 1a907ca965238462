//! A machine beside the reference: the same moves leave the same bytes and tell the same lines.

#[path = "compare/random.rs"]
#[allow(dead_code)]
mod random;

use ghishmadul::{
    fresh, journal_bytes, predicate_bytes, predicate_file_bytes, session_bytes, vector_bytes,
    vector_file_bytes, Facts, JournalVersion, Lanes, Machine, Pattern, Predicate, Refusal,
    Register, Row, Size, Vector, LENGTHS, MOST_JOURNAL_BYTES,
};
use random::Random;
use reference::Asked;

/// Words of every family, and one that is undefined now and then.
fn words(random: &mut Random) -> Vec<u32> {
    const TEXTS: [&str; 14] = [
        "saddv d3, p1, z2.h",
        "uaddv d2, p0, z3.d",
        "addqv v1.4s, p2, z1.s",
        "saddlv s4, v2.8h",
        "uadalp z3.h, p1/m, z3.b",
        "saddlb z2.d, z3.s, z2.s",
        "uaddlt z1.s, z1.h, z3.h",
        "ssublt z3.h, z1.b, z3.b",
        "saddwb z2.s, z2.s, z1.h",
        "usubwt z1.d, z3.d, z1.s",
        "ptrue p1.h, vl3",
        "ptrue p0.b, all",
        "ptrue p2.s, mul3",
        "pfalse p1.b",
    ];
    let many = random.below(40);
    (0..many)
        .map(|_| match random.below(30) {
            0 => 0x2EB0_3800,
            _ => {
                let text = random.pick(&TEXTS);
                ghishmadul::assemble(text, Facts::ALL).expect("an accepted text")
            }
        })
        .collect()
}

/// The reference's bytes beside a machine.
struct Beside {
    machine: Machine,
    z: Vec<u8>,
    p: Vec<u8>,
    program: Vec<u8>,
    journal: Vec<u8>,
    position: usize,
}

impl Beside {
    fn new(random: &mut Random, k: usize) -> Beside {
        let words = words(random);
        let bytes = journal_bytes(k, random.below(30));
        let cores = [Facts::ALL, Facts::SVE2P1, Facts::SME2P1, Facts::SVE2, Facts::SVE];
        let facts = random.pick(&cores);
        let mut machine = Machine::with_room(k, facts, &words, bytes).expect("a machine");
        assert_eq!(machine.facts(), facts);
        for number in 0..4 {
            random.fill(machine.register_mut(Vector::ALL[number]));
            random.fill(machine.register_mut(Predicate::ALL[number]));
        }
        Beside {
            z: machine.vectors().to_vec(),
            p: machine.predicates().to_vec(),
            program: words.iter().flat_map(|word| word.to_le_bytes()).collect(),
            journal: machine.journal().to_vec(),
            position: 0,
            machine,
        }
    }

    fn step(&mut self) {
        let (k, facts) = (self.machine.k(), self.machine.facts());
        let answer = self.machine.step();
        assert_eq!(
            answer,
            reference::step(k, facts, &mut self.z, &mut self.p, &self.program, &mut self.journal)
        );
        match reference::read_word(&self.program, self.position) {
            Ok(word) => {
                let line = {
                    let Beside { z, p, position, .. } = self;
                    reference::line(k, facts, z, p, word.word, *position, answer)
                };
                assert_eq!(self.machine.line(self.position, answer), Ok(line));
                let mut out = [0; 32];
                let text = reference::text(word.word, facts, &mut out);
                let text = text.map(|length| String::from_utf8_lossy(&out[..length]).into_owned());
                assert_eq!(self.machine.text(self.position), text);
                let row = reference::decode(word.word, facts).map(|fields| fields.row);
                let fields = self.machine.fields(self.position);
                assert_eq!(fields.map(|fields| fields.row.number()), row);
                // The core lacks exactly the words that all facts would accept.
                let there = reference::decode(word.word, Facts::ALL).is_ok();
                assert_eq!(self.machine.lacks(self.position).is_some(), row.is_err() && there);
            }
            Err(refusal) => {
                assert_eq!(self.machine.line(self.position, answer), Err(refusal));
                assert_eq!(self.machine.fields(self.position), Err(refusal));
                assert_eq!(self.machine.lacks(self.position), None);
            }
        }
        self.position += usize::from(answer.is_ok());
    }

    fn back(&mut self) {
        let k = self.machine.k();
        let last = self.machine.last_entry().map(|entry| (entry.target, entry.old.to_vec()));
        let answer = self.machine.back();
        assert_eq!(answer, reference::back(k, &mut self.z, &mut self.p, &mut self.journal));
        // The last entry is what is restored, and there is one exactly where a step is taken back.
        assert_eq!(answer.is_ok(), last.is_some());
        if let Some((target, old)) = last {
            assert_eq!(self.machine.register(target), old);
        }
        self.position -= usize::from(answer.is_ok());
    }

    fn same(&self, lanes: Lanes) {
        let Beside { machine, z, p, program, journal, position } = self;
        assert_eq!(machine.vectors(), z);
        assert_eq!(machine.predicates(), p);
        assert_eq!(machine.program(), program);
        assert_eq!(machine.journal(), journal);
        assert_eq!(machine.position(), *position);

        let k = machine.k();
        let Lanes { source, predicate, size } = lanes;
        let asked =
            Asked { source: source.number(), predicate: predicate.number(), size: size.number() };
        let mut panel = [0; 256];
        let answer = reference::panel(k, z, p, asked, &mut panel).map(|()| panel.to_vec());
        assert_eq!(machine.panel(lanes).map(|rows| rows.concat()), answer);
        for signed in [false, true] {
            let answer = reference::subtotal(k, z, p, asked, signed, 1..2 * k);
            assert_eq!(machine.subtotal(lanes, signed, 1..2 * k), answer);
            let many = (16 * k) >> asked.size;
            let all = (0..=many).map(|lane| reference::read_lane(k, z, p, asked, signed, lane));
            let all: Vec<_> = all.collect();
            assert!(machine.lanes(lanes, signed).map(Ok).eq(all[..many].iter().copied()));
            assert_eq!(machine.lanes(lanes, signed).len(), many);
            for lane in [0, many - 1, many] {
                assert_eq!(machine.lane(lanes, signed, lane), all[lane]);
            }
            let active = machine.lanes(lanes, signed).filter(|lane| lane.active);
            let sum = active.fold(0, |sum: u64, lane| sum.wrapping_add(lane.value));
            let governed = if predicate.can_govern() { Ok(sum) } else { Err(Refusal::Range) };
            assert_eq!(machine.subtotal(lanes, signed, 0..many), governed);
        }
        assert_eq!(machine.register(source), &z[asked.source * 16 * k..][..16 * k]);
        assert_eq!(machine.register(predicate), &p[asked.predicate * 2 * k..][..2 * k]);
        self.same_entries();
        self.same_session();
    }

    /// Every entry, and the last by its own name.
    fn same_entries(&self) {
        let Beside { machine, journal, position, .. } = self;
        for index in 0..=*position {
            let told = machine.entry(index).map(|entry| {
                assert_eq!(entry.old, &journal[entry.start..][..entry.old.len()]);
                let target = match entry.target {
                    Register::Vector(vector) => vector.number(),
                    Register::Predicate(predicate) => 32 + predicate.number(),
                };
                let bytes = if target < 32 { vector_bytes } else { predicate_bytes };
                assert_eq!(entry.old.len(), bytes(machine.k()));
                reference::Entry { target, start: entry.start, bytes: entry.old.len() }
            });
            assert_eq!(told, reference::read_entry(machine.k(), journal, index));
        }
        let last = position.checked_sub(1).map(|last| machine.entry(last).expect("an entry"));
        assert_eq!(machine.last_entry(), last);
    }

    /// A session of what stands now.
    fn same_session(&self) {
        let Beside { machine, z, p, program, .. } = self;
        let (k, facts) = (machine.k(), machine.facts().byte());
        let mut out = vec![0; session_bytes(k, program.len() / 4)];
        assert_eq!(reference::write_session(&mut out, k, facts, z, p, program), Ok(out.len()));
        assert_eq!(machine.session(), out);
    }
}

#[test]
fn a_machine_moves_as_the_reference_does() {
    let mut random = Random::new(1);
    for &k in LENGTHS.iter().cycle().take(200) {
        let mut beside = Beside::new(&mut random, k);
        for _ in 0..60 {
            if random.one_in(3) {
                beside.back();
            } else {
                beside.step();
            }
            beside.same(Lanes {
                source: random.pick(&Vector::ALL),
                predicate: random.pick(&Predicate::ALL),
                size: random.pick(&Size::ALL),
            });
        }
    }
}

/// All steps are taken back, and lanes that were put before are there again.
#[test]
fn a_reset_machine_is_what_it_was() {
    let mut random = Random::new(2);
    for &k in LENGTHS.iter().cycle().take(50) {
        let start = Beside::new(&mut random, k).machine;
        let mut machine = start.clone();
        machine.walk();
        machine.reset();
        assert_eq!(machine, start);
        assert_eq!(
            Machine::from_session(&machine.session()).map(|other| other.session()),
            Ok(machine.session())
        );
    }
}

/// A lane and its bit, put through the machine, are those that it reads.
#[test]
fn what_is_put_is_read() {
    let mut machine = Machine::new(2, Facts::NONE, &[]).expect("a machine");
    let lanes = Lanes { source: Vector::Z31, predicate: Predicate::P15, size: Size::H };
    assert_eq!(machine.put_lane(Vector::Z31, Size::H, 15, 0x1_FFFE), Ok(()));
    assert_eq!(machine.put_active(Predicate::P15, Size::H, 15, true), Ok(()));
    let lane = machine.lane(lanes, true, 15).expect("a lane");
    assert_eq!((lane.signed(), lane.active, lane.start, lane.bit), (-2, true, 1022, 30));
    assert_eq!(machine.lane(lanes, false, 15).map(|lane| lane.value), Ok(0xFFFE));
    assert_eq!(machine.predicates().last(), Some(&0x40));
    assert_eq!(machine.put_active(Predicate::P15, Size::H, 15, false), Ok(()));
    assert_eq!(machine.predicates().last(), Some(&0));
    assert_eq!(machine.put_lane(Vector::Z31, Size::H, 16, 0), Err(Refusal::Range));
    assert_eq!(machine.put_active(Predicate::P0, Size::D, 4, true), Err(Refusal::Range));
}

#[test]
fn what_is_no_machine_is_refused() {
    let made =
        |k, words: usize, bytes| Machine::with_room(k, Facts::NONE, &vec![0; words], bytes).err();
    assert_eq!(made(1, 256, 8), None);
    assert_eq!(made(16, 0, MOST_JOURNAL_BYTES), None);
    for k in (0..40).filter(|k| !LENGTHS.contains(k)).chain([usize::MAX]) {
        assert_eq!(made(k, 257, 7), Some(Refusal::Length));
    }
    assert_eq!(made(1, 257, 7), Some(Refusal::Program));
    for bytes in [0, 7, MOST_JOURNAL_BYTES + 1, usize::MAX] {
        assert_eq!(made(1, 256, bytes), Some(Refusal::Room));
    }
}

#[test]
fn room_is_what_the_journal_holds() {
    let facts = Facts::SVE;
    let word = ghishmadul::assemble("saddv d0, p0, z0.b", facts).expect("an accepted text");
    for (k, room) in [(1, 256), (8, 256), (16, 254)] {
        let mut machine = Machine::new(k, facts, &[word; 256]).expect("a machine");
        assert_eq!(machine.room().min(256), room);
        let lines = machine.walk();
        assert_eq!(machine.position(), room);
        assert_eq!(lines.lines().count(), room + usize::from(room < 256));
        let next = machine.step();
        assert_eq!(next, Err(if room < 256 { Refusal::Full } else { Refusal::End }));
    }
    let machine = Machine::with_room(4, facts, &[word], journal_bytes(4, 5)).expect("a machine");
    assert_eq!(machine.room(), 5);
}

#[test]
fn sizes_never_overflow() {
    for k in [0, 1, 16, 17, usize::MAX / 16, usize::MAX / 2, usize::MAX] {
        let sizes = [vector_bytes(k), predicate_bytes(k)];
        assert!(sizes[0] >= sizes[1]);
        let sizes = [vector_file_bytes(k), predicate_file_bytes(k)];
        assert!(sizes[0] >= sizes[1]);
        assert!(journal_bytes(k, usize::MAX) >= journal_bytes(k, 0));
        assert!(session_bytes(k, usize::MAX) >= session_bytes(k, 0));
    }
    assert_eq!((vector_file_bytes(16), predicate_file_bytes(16)), (8192, 512));
    assert_eq!(journal_bytes(16, 254), 8 + 254 * 257);
}

/// Names and numbers there and back, and none past the last.
#[test]
fn rows_sizes_and_registers_have_their_numbers() {
    assert_eq!(Row::ALL.len(), reference::TABLE.len());
    for (number, (&row, of)) in Row::ALL.iter().zip(&reference::TABLE).enumerate() {
        assert_eq!((row.number(), row.name()), (number, of.name));
        assert_eq!(row.to_string(), format!("{:?}", row).to_lowercase());
        assert_eq!(Row::try_from(number), Ok(row));
    }
    for number in 0..40 {
        let vector = Vector::try_from(number).map(|vector| (vector.number(), vector.to_string()));
        assert_eq!(vector.ok(), (number < 32).then(|| (number, format!("z{}", number))));
        let predicate = Predicate::try_from(number);
        let predicate = predicate.map(|predicate| (predicate.number(), predicate.to_string()));
        assert_eq!(predicate.ok(), (number < 16).then(|| (number, format!("p{}", number))));
        let size = Size::try_from(number).map(|size| (size.number(), size.bytes(), size.bits()));
        assert_eq!(size.ok(), (number < 4).then(|| (number, 1 << number, 8 << number)));
    }
    let governing = Predicate::ALL.into_iter().filter(|predicate| predicate.can_govern());
    assert_eq!(governing.collect::<Vec<_>>(), Predicate::ALL[..8]);
    assert_eq!(Size::ALL.map(Size::letter), ['b', 'h', 's', 'd']);
    let past = [25, 26, 256, usize::MAX].map(Row::try_from);
    assert_eq!(past, [Err(Refusal::Range); 4]);
}

/// Every pattern has the reference's name and makes as many lanes active, of whatever number of lanes.
#[test]
fn patterns_are_the_references() {
    for (number, pattern) in Pattern::EVERY.into_iter().enumerate() {
        assert_eq!((pattern.number(), Pattern::try_from(number)), (number, Ok(pattern)));
        assert_eq!(pattern.to_string(), reference::pattern_name(number));
        for count in 0..600 {
            assert_eq!(pattern.lanes(count), reference::pattern_lanes(number, count));
        }
    }
    assert_eq!([32, 256, usize::MAX].map(Pattern::try_from), [Err(Refusal::Range); 3]);
    assert_eq!(Pattern::Pow2.lanes(usize::MAX), 1 << (usize::BITS - 1));
}

/// A version has its number there and back, and its journals say it.
#[test]
fn versions_have_their_numbers() {
    for &version in JournalVersion::ALL {
        assert_eq!(JournalVersion::try_from(version.number()), Ok(version));
        let mut journal = [0xEE; 8];
        assert_eq!(fresh(1, version, &mut journal), Ok(()));
        assert_eq!(u64::from(journal[3]), version.number());
    }
    let others = [0, 3, 65_538, u64::MAX].map(JournalVersion::try_from);
    assert_eq!(others, [Err(Refusal::Journal); 4]);
    let machine = Machine::new(1, Facts::NONE, &[]).expect("a machine");
    assert_eq!(machine.journal()[3], 2);
}

/// Every set of facts is read back from its text, and what is no fact is named.
#[test]
fn facts_have_their_text() {
    for byte in 0..32 {
        let facts = Facts::from_byte(byte);
        assert_eq!(facts.to_string().parse(), Ok(facts));
    }
    assert_eq!(Facts::ALL.to_string(), "sve sve2 sve2p1 sme sme2p1");
    assert_eq!(Facts::NONE.to_string(), "none");
    assert_eq!(" SVE2,sve , sve".parse(), Ok(Facts::SVE2));
    assert_eq!("".parse(), Ok(Facts::NONE));
    let refused = "sve none".parse::<Facts>().unwrap_err();
    let names = "sve, sve2, sve2p1, sme, sme2p1";
    assert_eq!(refused.to_string(), format!("\"none\" is no fact: they are {}", names));
}

#[test]
fn refusals_have_their_numbers_and_names() {
    for (number, &refusal) in (1..).zip(Refusal::ALL) {
        assert_eq!(refusal.number(), number);
        assert_eq!(Refusal::check(number), Err(refusal));
        assert_eq!(refusal.name(), format!("{:?}", refusal).to_uppercase());
    }
    assert_eq!(Refusal::check(0), Ok(()));
    assert_eq!(Refusal::check(99), Err(Refusal::Unlisted(99)));
}
