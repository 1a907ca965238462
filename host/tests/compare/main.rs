//! Compares the engine with the reference, call by call: the answer and every lent byte.
//!
//! What is lent ends right at a page that cannot be read; in a second pass it begins right after one.
//! The variable LN_INPUTS is the number of inputs (a million), LN_SEED the seed.

mod edges;
mod engine;
mod facts;
mod guarded;
mod inputs;
mod lengths;
mod made;
mod random;
mod reached;
mod reading;
mod sessions;
mod tally;
mod writing;

use engine::{numbers, Numbers, Way};
use ghishmadul::{Facts, Kind, Refusal};
use guarded::{Guard, Guarded};
use random::Random;
use reference::{facts_of, ALL, TABLE};
use std::io::Write;
use std::sync::atomic::{AtomicBool, Ordering};
use tally::{Call, Tally};

/// More than any length of a part.
const MOST: usize = 70_000;

/// So many inputs reach every answer of every call, every length that is refused, steps of every row, size
/// and destination, every set of facts, every kind of session, every lane, entry and row at an end or past it,
/// and every version of a journal and number of an entry at an end; fewer may miss some.
const ENOUGH: u64 = 100_000;

const UNDEFINED: u64 = 8;

/// The refusals before a journal is looked at: LENGTH, FILE, PROGRAM, ROOM.
const BEFORE_THE_NUMBERS: [u64; 4] = [1, 2, 3, 4];

/// Whether a test has found a difference: the others need not go on then.
static FOUND: AtomicBool = AtomicBool::new(false);

/// What the calls are lent. The reference works on the bytes here, the engine on its guarded parts.
#[derive(Default)]
struct Parts {
    z: Vec<u8>,
    p: Vec<u8>,
    program: Vec<u8>,
    journal: Vec<u8>,
    out: Vec<u8>,
}

impl Parts {
    /// What a step or a step back writes: both files and the journal.
    fn moved(&self) -> [Vec<u8>; 3] {
        [self.z.clone(), self.p.clone(), self.journal.clone()]
    }
}

struct GuardedParts {
    z: Guarded,
    p: Guarded,
    program: Guarded,
    journal: Guarded,
    out: Guarded,
}

struct Comparison<'a> {
    random: Random,
    guard: Guard,
    parts: Parts,
    engine: GuardedParts,
    tally: &'a mut Tally,
}

impl<'a> Comparison<'a> {
    fn new(seed: u64, guard: Guard, tally: &'a mut Tally) -> Comparison<'a> {
        let guarded = || Guarded::new(MOST, guard);
        Comparison {
            random: Random::new(seed),
            guard,
            parts: Parts::default(),
            engine: GuardedParts {
                z: guarded(),
                p: guarded(),
                program: guarded(),
                journal: guarded(),
                out: guarded(),
            },
            tally,
        }
    }

    fn way(&mut self) -> Way {
        match self.random.below(4) {
            0 | 1 => Way::Safe,
            2 => Way::Boundary,
            _ => Way::Nowhere(self.random.pick(&[0, 1, 4096, usize::MAX, 1 << 63])),
        }
    }

    /// Fails if the answers differ.
    fn same(&mut self, call: Call, engine: Numbers, reference: Numbers, given: &[usize]) {
        if engine != reference {
            let what = format!("engine {:?}, reference {:?}, given {:?}", engine, reference, given);
            self.stop(call, &what);
        }
        self.tally.count(call, reference[0], given.first().copied());
    }

    /// Fails if a lent part of the engine has not the reference's bytes.
    fn agree(&mut self, call: Call, names: &[&'static str]) {
        for &name in names {
            let GuardedParts { z, p, program, journal, out } = &mut self.engine;
            let same = match name {
                "z" => z.holds(&self.parts.z),
                "p" => p.holds(&self.parts.p),
                "program" => program.holds(&self.parts.program),
                "journal" => journal.holds(&self.parts.journal),
                _ => out.holds(&self.parts.out),
            };
            if !same {
                self.stop(call, &format!("the bytes of {} differ", name));
            }
        }
    }

    /// Fails.
    fn stop(&self, call: Call, what: &str) -> ! {
        FOUND.store(true, Ordering::Relaxed);
        let Parts { z, p, program, journal, out } = &self.parts;
        panic!(
            "{:?}, input {}, guard {:?}: {}\n\
             bytes: z {}, p {}, program {}, journal {}\nheader {:02x?}\nout {:?}",
            call,
            self.tally.total(),
            self.guard,
            what,
            z.len(),
            p.len(),
            program.len(),
            journal.len(),
            &journal[..journal.len().min(8)],
            String::from_utf8_lossy(&out[..out.len().min(300)]),
        )
    }

    /// Fails if another test has found a difference.
    fn go_on(&self) {
        assert!(!FOUND.load(Ordering::Relaxed), "another test found a difference");
    }

    /// Counts an answer about a word that the facts were looked at for.
    fn count_facts(&mut self, call: Call, way: Way, facts: u8, word: u32, number: u64) {
        self.tally.count_facts(call, facts, way != Way::Safe, word, number);
    }

    fn decode(&mut self) {
        let way = self.way();
        let word = inputs::word(&mut self.random);
        let facts = inputs::facts(&mut self.random);
        let reference = self.decode_one(way, word, facts);
        self.count_facts(Call::Decode, way, facts, word, reference[0]);
    }

    /// The reference's answer too.
    fn decode_one(&mut self, way: Way, word: u32, facts: u8) -> Numbers {
        let reference = numbers(reference::decode(word, facts_of(facts)));
        let given = [word as usize, facts as usize];
        self.same(Call::Decode, way.decode(word, facts), reference, &given);
        reference
    }

    /// Into the output as it is set up; the reference's answer too.
    fn text_of_one(&mut self, way: Way, word: u32, facts: u8) -> Numbers {
        self.engine.out.set(&self.parts.out);
        let engine = way.text(word, facts, self.engine.out.part());
        let reference = numbers(reference::text(word, facts_of(facts), &mut self.parts.out));
        self.same(Call::Text, engine, reference, &[word as usize, facts as usize]);
        self.agree(Call::Text, &["out"]);
        reference
    }

    /// The text that is set up as the output; the reference's answer too.
    fn assemble_one(&mut self, way: Way, facts: u8) -> Numbers {
        self.engine.out.set(&self.parts.out);
        let engine = way.assemble(self.engine.out.part(), facts);
        let reference = numbers(reference::assemble(&self.parts.out, facts_of(facts)));
        self.same(Call::Assemble, engine, reference, &[facts as usize]);
        self.agree(Call::Assemble, &["out"]);
        reference
    }

    fn text(&mut self) {
        let way = self.way();
        let word = inputs::word(&mut self.random);
        let bytes = match self.random.below(12) {
            0 => self.random.below(32),
            1 => 31,
            2 => 32 + self.random.below(100),
            3 if self.random.one_in(20) => 10_000,
            _ => 32,
        };
        let facts = inputs::facts(&mut self.random);
        inputs::content(&mut self.random, &mut self.parts.out, bytes);
        let reference = self.text_of_one(way, word, facts);
        self.count_facts(Call::Text, way, facts, word, reference[0]);
    }

    fn assemble(&mut self) {
        let way = self.way();
        let facts = inputs::facts(&mut self.random);
        inputs::text(&mut self.random, &mut self.parts.out);
        let reference = self.assemble_one(way, facts);
        if let Ok(word) = reference::assemble(&self.parts.out, Facts::ALL) {
            self.count_facts(Call::Assemble, way, facts, word, reference[0]);
        }
    }

    /// Every word that a row matches: its fields, its text, and the text read back. Every byte of facts has
    /// its turn, and a word that is refused for want of a fact is asked with all facts too.
    fn every_word(&mut self) {
        let (mut accepted, mut wanting, mut undefined) = (0, 0, 0);
        for (number, word) in inputs::every_word_of_a_row().enumerate() {
            self.go_on();
            let way = self.way();
            let facts = (number ^ number >> 8) as u8;
            if self.word_and_text(way, word, facts) {
                accepted += 1;
            } else if self.decode_one(way, word, ALL)[0] == 0 {
                wanting += 1;
                self.word_and_text(way, word, ALL);
                let answer = self.assemble_one(way, facts);
                assert_eq!(answer, numbers(Err::<u32, _>(Refusal::Text)), "a forbidden text");
            } else {
                undefined += 1;
            }
        }
        say(&format!(
            "words of a row: {} accepted, {} of them with further facts alone, {} undefined",
            accepted + wanting,
            wanting,
            undefined
        ));
        assert_eq!(
            (accepted + wanting, wanting, undefined),
            (1_724_432, 428_548, 555_008),
            "the counts worked out from the table: a quarter of the sets has neither of two facts"
        );
    }

    /// A word's fields, its text, and the text read back; whether it is accepted.
    fn word_and_text(&mut self, way: Way, word: u32, facts: u8) -> bool {
        let fields = self.decode_one(way, word, facts);
        self.parts.out.clear();
        self.parts.out.resize(32, 0xEE);
        let text = self.text_of_one(way, word, facts);
        assert_eq!(fields[0], text[0], "a text exactly where there are fields");
        if text[0] == 0 {
            self.parts.out.truncate(text[1] as usize);
            assert_eq!(self.assemble_one(way, facts), numbers(Ok(word)), "the word of its text");
        }
        text[0] == 0
    }

    /// Every name with three vector registers, each with every letter: those of a widening word, and all
    /// that differ from them in letters alone.
    fn every_text_of_three_lanes(&mut self) {
        let mut accepted = 0;
        for text in inputs::every_text_of_three_lanes() {
            self.parts.out = text.into_bytes();
            let way = self.way();
            let reference = self.assemble_one(way, ALL);
            accepted += u64::from(reference[0] == 0);
        }
        assert_eq!(accepted, 16 * 3, "a text for each widening row and size");
    }

    /// Sets up everything that a step is lent.
    fn state(&mut self) -> usize {
        let Comparison { random, parts, .. } = self;
        let k = inputs::length(random);
        inputs::files(random, k, &mut parts.z, &mut parts.p);
        inputs::program(random, &mut parts.program);
        let words = parts.program.len() / 4;
        inputs::journal(random, k, words, &mut parts.journal);
        self.lend();
        k
    }

    /// Lends the engine the parts that a step is lent, as they are set up.
    fn lend(&mut self) {
        self.engine.z.set(&self.parts.z);
        self.engine.p.set(&self.parts.p);
        self.engine.program.set(&self.parts.program);
        self.engine.journal.set(&self.parts.journal);
    }

    /// Counts the numbers of the journal that is set up, for a call whose answer tells that it looked at them.
    fn count_numbers(&mut self, call: &str, k: usize, number: u64) {
        if !BEFORE_THE_NUMBERS.contains(&number) {
            self.tally.edges().count_numbers(call, k, &self.parts.journal);
        }
    }

    fn move_forward(&mut self, way: Way, k: usize, facts: u8) -> u64 {
        let Parts { program, journal, .. } = &self.parts;
        let position = reference::position(k, journal);
        let next = position.and_then(|position| reference::read_word(program, position));
        let version = journal.get(3).copied().unwrap_or(0);
        let numbered = self.parts.journal.clone();
        let engine = way.step(
            k,
            facts,
            self.engine.z.part(),
            self.engine.p.part(),
            self.engine.program.part(),
            self.engine.journal.part(),
        );
        let Parts { z, p, program, journal, .. } = &mut self.parts;
        let reference = numbers(reference::step(k, facts_of(facts), z, p, program, journal));
        self.same(Call::Step, engine, reference, &[k, facts as usize]);
        self.agree(Call::Step, &["z", "p", "program", "journal"]);
        if !BEFORE_THE_NUMBERS.contains(&reference[0]) {
            self.tally.edges().count_numbers("step", k, &numbered);
        }
        if let Ok(next) = next {
            let made = reference::decode(next.word, facts_of(facts));
            if made.map_or(false, |fields| TABLE[fields.row].writes_predicate()) {
                self.tally.edges().count_made(version, reference[0]);
            }
            self.count_facts(Call::Step, way, facts, next.word, reference[0]);
            let of_the_size = || reference::decode(next.word, Facts::ALL).is_err();
            if reference[0] == 0 || reference[0] == UNDEFINED && of_the_size() {
                self.tally.count_word(next.word);
            }
        }
        reference[0]
    }

    fn move_back(&mut self, way: Way, k: usize) -> u64 {
        let engine =
            way.back(k, self.engine.z.part(), self.engine.p.part(), self.engine.journal.part());
        let numbered = self.parts.journal.clone();
        let Parts { z, p, journal, .. } = &mut self.parts;
        let reference = numbers(reference::back(k, z, p, journal));
        self.same(Call::Back, engine, reference, &[k]);
        self.agree(Call::Back, &["z", "p", "journal"]);
        if !BEFORE_THE_NUMBERS.contains(&reference[0]) {
            self.tally.edges().count_numbers("back", k, &numbered);
        }
        if reference[0] == 0 {
            self.count_padding(k, &numbered);
        }
        reference[0]
    }

    /// Counts what stood after the old bytes of the last entry of a journal, if it is a predicate's.
    fn count_padding(&mut self, k: usize, journal: &[u8]) {
        let last = reference::position(k, journal).expect("a well-formed journal") - 1;
        let entry = reference::read_entry(k, journal, last).expect("an entry");
        if entry.target >= 32 {
            let padding = &journal[entry.start..][..16 * k][entry.bytes..];
            self.tally.edges().count_padding(padding.iter().all(|&byte| byte == 0));
        }
    }

    fn tell_position(&mut self, way: Way, k: usize) -> Numbers {
        let engine = way.position(k, self.engine.journal.part());
        let reference = numbers(reference::position(k, &self.parts.journal));
        self.same(Call::Position, engine, reference, &[k]);
        self.agree(Call::Position, &["journal"]);
        self.count_numbers("position", k, reference[0]);
        reference
    }

    fn position(&mut self) {
        let way = self.way();
        let k = inputs::length(&mut self.random);
        let words = self.random.below(257);
        inputs::journal(&mut self.random, k, words, &mut self.parts.journal);
        self.engine.journal.set(&self.parts.journal);
        self.tell_position(way, k);
    }

    fn step(&mut self) {
        let way = self.way();
        let k = self.state();
        let facts = inputs::facts(&mut self.random);
        self.move_forward(way, k, facts);
    }

    fn back(&mut self) {
        let way = self.way();
        let k = self.state();
        self.move_back(way, k);
    }

    /// Moves forward and back from a fresh journal; a back brings the former bytes again, and at the end
    /// the position is the number of steps that were not taken back. The facts are mostly the same.
    fn moves(&mut self) {
        let k = inputs::legal_length(&mut self.random);
        let entry = 1 + 16 * k;
        let Comparison { random, parts, .. } = self;
        inputs::content(random, &mut parts.z, 512 * k);
        inputs::content(random, &mut parts.p, 32 * k);
        let facts = inputs::facts(random);
        let version = random.pick(&[1, 2, 2]);
        parts.program.clear();
        let words = random.pick(&[0, 1, 5, 40, 100, 256, 256]);
        for _ in 0..words {
            let word = match random.below(200) {
                0 => inputs::word(random),
                // A word that makes a predicate would end the steps of a former journal.
                1..=197 if version == 1 => inputs::vector_word(random, facts_of(facts)),
                _ => inputs::accepted_word(random, facts_of(facts)),
            };
            parts.program.extend(word.to_le_bytes());
        }
        let bytes = match random.below(4) {
            0 => 65_536,
            1 => 8 + random.below(4 * entry),
            _ => (8 + random.below(60) * entry + random.below(entry)).min(65_536),
        };
        parts.journal.clear();
        parts.journal.resize(bytes, 0xEE);
        self.lend();
        self.start_journal(k, version);

        // What stood before each accepted step that has not been taken back.
        let mut former: Vec<[Vec<u8>; 3]> = Vec::new();
        let moves = (words + 4).min(self.random.pick(&[30, 60, 300]));
        let backward = self.random.pick(&[2, 3, 3, 20]);
        for _ in 0..moves {
            let way = self.way();
            if self.random.one_in(backward) {
                if self.move_back(way, k) == 0 {
                    let before = former.pop().expect("a back undoes a step");
                    if before != self.parts.moved() {
                        self.stop(Call::Back, "the former bytes did not come again");
                    }
                }
            } else {
                let before = self.parts.moved();
                let others = self.random.one_in(20);
                let facts = if others { inputs::facts(&mut self.random) } else { facts };
                if self.move_forward(way, k, facts) == 0 {
                    former.push(before);
                }
            }
        }
        let way = self.way();
        if self.tell_position(way, k) != numbers(Ok(former.len())) {
            self.stop(Call::Position, "not the steps that were not taken back");
        }
    }

    fn some_files(&mut self) -> usize {
        let k = inputs::length(&mut self.random);
        inputs::files(&mut self.random, k, &mut self.parts.z, &mut self.parts.p);
        self.engine.z.set(&self.parts.z);
        self.engine.p.set(&self.parts.p);
        k
    }

    /// Mostly below the bound, sometimes at it or far above.
    fn mostly_below(&mut self, bound: usize) -> usize {
        match self.random.below(40) {
            0 => bound,
            1 => self.random.pick(&[bound + 1, 255, 256, 1 << 32, 1 << 61, usize::MAX]),
            _ => self.random.below(bound),
        }
    }

    fn register_place(&mut self) {
        let way = self.way();
        let k = self.some_files();
        let predicate = self.random.pick(&[0, 0, 0, 1, 1, 2, 256, 1 << 32, u64::MAX]);
        let index = self.mostly_below(if predicate == 0 { 32 } else { 16 });
        let engine =
            way.register_place(k, self.engine.z.part(), self.engine.p.part(), predicate, index);
        let Parts { z, p, .. } = &self.parts;
        let kind = if predicate == 0 { Kind::Vector } else { Kind::Predicate };
        let reference = numbers(reference::register_place(k, z, p, kind, index));
        self.same(Call::RegisterPlace, engine, reference, &[k, predicate as usize, index]);
        self.agree(Call::RegisterPlace, &["z", "p"]);
    }

    fn panel(&mut self) {
        let way = self.way();
        let k = self.some_files();
        let asked = self.asked(8);
        let bytes = match self.random.below(20) {
            0 => self.random.below(256),
            1 => 255,
            2 => 256 + self.random.below(300),
            _ => 256,
        };
        inputs::content(&mut self.random, &mut self.parts.out, bytes);
        self.engine.out.set(&self.parts.out);
        let engine =
            way.panel(k, self.engine.z.part(), self.engine.p.part(), asked, self.engine.out.part());
        let Parts { z, p, out, .. } = &mut self.parts;
        let reference = numbers(reference::panel(k, z, p, asked, out));
        let given = [k, asked.source, asked.predicate, asked.size];
        self.same(Call::Panel, engine, reference, &given);
        self.agree(Call::Panel, &["z", "p", "out"]);
    }

    fn subtotal(&mut self) {
        let way = self.way();
        let k = self.some_files();
        let asked = self.asked(8);
        let is_signed = self.is_signed();
        let many = if k <= 17 { (16 * k) >> asked.size.min(3) } else { 16 };
        let mut a = self.mostly_below(many + 1);
        let mut b = self.mostly_below(many + 1);
        if a > b && !self.random.one_in(20) {
            std::mem::swap(&mut a, &mut b);
        }
        if self.random.one_in(8) {
            (a, b) = self.random.pick(&[(0, many), (a, a), (b, b)]);
        }
        let engine =
            way.subtotal(k, self.engine.z.part(), self.engine.p.part(), asked, is_signed, a..b);
        let Parts { z, p, .. } = &self.parts;
        let reference = numbers(reference::subtotal(k, z, p, asked, is_signed != 0, a..b));
        let given = [k, asked.source, asked.predicate, asked.size, is_signed as usize, a, b];
        self.same(Call::Subtotal, engine, reference, &given);
        self.agree(Call::Subtotal, &["z", "p"]);
    }

    fn read_word(&mut self) {
        let way = self.way();
        inputs::program(&mut self.random, &mut self.parts.program);
        self.engine.program.set(&self.parts.program);
        let words = self.parts.program.len() / 4;
        let at = self.mostly_below(words + 1);
        let engine = way.read_word(self.engine.program.part(), at);
        let mut reference = numbers(reference::read_word(&self.parts.program, at));
        if reference[0] != 0 && way != Way::Safe {
            reference[2] = at as u64;
        }
        self.same(Call::ReadWord, engine, reference, &[at]);
        self.agree(Call::ReadWord, &["program"]);
    }

    fn read_session(&mut self) {
        let way = self.way();
        inputs::session(&mut self.random, &mut self.parts.out);
        self.engine.out.set(&self.parts.out);
        let engine = way.read_session(self.engine.out.part());
        let reference = numbers(reference::read_session(&self.parts.out));
        let given: Vec<usize> = lengths::of_a_session(&self.parts.out).into_iter().collect();
        self.same(Call::ReadSession, engine, reference, &given);
        self.tally.count_session(&self.parts.out);
        self.agree(Call::ReadSession, &["out"]);
    }

    fn write_line(&mut self) {
        let way = self.way();
        let k = self.some_files();
        inputs::program(&mut self.random, &mut self.parts.program);
        self.engine.program.set(&self.parts.program);
        let words = self.parts.program.len() / 4;
        let position = self.mostly_below(words + 1);
        let told = self.random.one_in(3);
        let number = if told { inputs::answer_number(&mut self.random) } else { 0 };
        let next = reference::read_word(&self.parts.program, position).map_or(0, |next| next.word);
        let facts = match self.random.below(3) {
            0 => inputs::facts_against(&mut self.random, next),
            _ => inputs::facts(&mut self.random),
        };
        let bytes = match self.random.below(12) {
            0 => self.random.below(546),
            1 => 545,
            2 => 546 + self.random.below(100),
            _ => 546,
        };
        inputs::content(&mut self.random, &mut self.parts.out, bytes);
        let reference = self.write_line_of(way, k, facts, position, number);
        if number == 0 {
            self.count_facts(Call::WriteLine, way, facts, next, reference);
        }
    }

    /// The line of a step over the parts that are set up, into the output as it is; the reference's answer number.
    fn write_line_of(
        &mut self,
        way: Way,
        k: usize,
        facts: u8,
        position: usize,
        number: u64,
    ) -> u64 {
        self.engine.out.set(&self.parts.out);
        let engine = way.write_line(
            self.engine.out.part(),
            k,
            facts,
            self.engine.z.part(),
            self.engine.p.part(),
            self.engine.program.part(),
            position,
            number,
        );
        let Parts { z, p, program, out, .. } = &mut self.parts;
        let (named, answer) = (facts_of(facts), Refusal::check(number));
        let line = reference::write_line(out, k, named, z, p, program, position, answer);
        let reference = numbers(line);
        let given = [k, facts as usize, position, number as usize];
        self.same(Call::WriteLine, engine, reference, &given);
        self.agree(Call::WriteLine, &["z", "p", "program", "out"]);
        reference[0]
    }

    /// So many inputs, at least.
    fn run(&mut self, inputs: u64) {
        let until = self.tally.total() + inputs;
        while self.tally.total() < until {
            self.go_on();
            match self.random.below(100) {
                0..=10 => self.decode(),
                11..=20 => self.text(),
                21..=36 => self.assemble(),
                37..=38 => self.position(),
                39..=40 => self.fresh(),
                41..=51 => self.step(),
                52..=57 => self.back(),
                58..=61 => self.register_place(),
                62..=66 => self.panel(),
                67..=72 => self.subtotal(),
                73..=75 => self.read_word(),
                76..=78 => self.read_session(),
                79..=82 => self.write_line(),
                83..=88 => self.read_lane(),
                89..=91 => self.read_entry(),
                92..=93 => self.read_row(),
                94..=95 => self.put_lane(),
                96 => self.put_active(),
                97..=98 => self.write_session(),
                _ if self.random.one_in(50) => self.version(),
                _ => self.moves(),
            }
        }
    }
}

/// Prints a line even where the test passes.
fn say(line: &str) {
    writeln!(std::io::stdout(), "{}", line).expect("a line can be printed");
}

/// The number that a variable has.
fn variable(name: &str, otherwise: u64) -> u64 {
    match std::env::var(name) {
        Ok(value) => value.parse().unwrap_or_else(|_| panic!("{} is no number: {}", name, value)),
        Err(_) => otherwise,
    }
}

#[test]
fn every_word_of_a_row_agrees() {
    let seed = variable("LN_SEED", 1);
    Comparison::new(seed, Guard::After, &mut Tally::default()).every_word();
}

#[test]
fn every_text_of_three_lanes_agrees() {
    let seed = variable("LN_SEED", 1);
    Comparison::new(seed, Guard::After, &mut Tally::default()).every_text_of_three_lanes();
}

#[test]
fn every_made_predicate_agrees() {
    let seed = variable("LN_SEED", 1);
    let many = Comparison::new(seed, Guard::After, &mut Tally::default()).every_made_predicate();
    assert_eq!(many, 5 * (4 * 32 * 16 + 16), "every size, pattern, register and length");
}

#[test]
fn every_text_of_a_predicate_agrees() {
    let seed = variable("LN_SEED", 1);
    let accepted =
        Comparison::new(seed, Guard::After, &mut Tally::default()).every_text_of_a_predicate();
    assert_eq!(accepted, 4 * 32 * 16 + 16, "a text for each size, pattern and register");
}

#[test]
fn inputs_of_every_call_agree() {
    let inputs = variable("LN_INPUTS", 1_000_000);
    let seed = variable("LN_SEED", 1);
    let mut tally = Tally::default();
    for (pass, guard) in [(0, Guard::After), (1, Guard::Before)] {
        let seed = seed.wrapping_mul(2).wrapping_add(pass);
        Comparison::new(seed, guard, &mut tally).run(inputs / 2 + inputs % 2);
    }
    let missing = tally.missing().join(", ");
    say(&format!("\n{}", tally.table()));
    say(&format!("{} inputs compared, 0 differ, seed {}", tally.total(), seed));
    if !missing.is_empty() {
        say(&format!("not reached by these inputs: {}", missing));
        assert!(
            inputs < ENOUGH,
            "so many inputs reach every answer, length, row, set of facts, session, lane, entry and version"
        );
    }
}
