//! Times the engine beside plain Rust, in one process, and prints the ratios.
//!
//! Each row is timed in short rounds, its sides by turns; the quickest round of each counts. Time is
//! the processor's, so that other programs on the machine do not count. A ratio is the engine's time
//! divided by the other side's; the engine is called by the safe functions, and what the boundary
//! costs is its own. `host/run trial` shows what the method itself adds: there the reference stands in
//! for the engine, and its ratios are about 1 but for the shortest calls.

#[path = "../../tests/compare/random.rs"]
#[allow(dead_code)]
mod random;
mod split;
mod typed;

use ghishmadul::{Facts, Lane, Lanes, Predicate, Refusal, Register, Size, Vector, LENGTHS};
use random::Random;
use reference::{Asked, Row, TABLE};
use std::ops::Range;
use std::time::Duration;

const JOURNAL: usize = 65_536;

/// The version of the journals.
const VERSION: u64 = 2;

/// The facts that every call is timed under.
const FACTS: Facts = Facts::ALL;

/// Words of each family and width: the name here, and the word, its registers being 0. Of the widening
/// family there are sums and differences, long and wide, of both signs and both halves; of those that make a
/// predicate some patterns.
const WORDS: [(&str, u32); 32] = [
    ("saddv .b", 0x0400_2000),
    ("saddv .h", 0x0440_2000),
    ("saddv .s", 0x0480_2000),
    ("uaddv .d", 0x04C1_2000),
    ("addqv .b", 0x0405_2000),
    ("addqv .h", 0x0445_2000),
    ("addqv .s", 0x0485_2000),
    ("addqv .d", 0x04C5_2000),
    ("saddlv .16b", 0x4E30_3800),
    ("saddlv .8h", 0x4E70_3800),
    ("saddlv .4s", 0x4EB0_3800),
    ("sadalp .h", 0x4444_A000),
    ("sadalp .s", 0x4484_A000),
    ("sadalp .d", 0x44C4_A000),
    ("saddlb .h", 0x4540_0000),
    ("saddlb .s", 0x4580_0000),
    ("saddlb .d", 0x45C0_0000),
    ("ssublb .h", 0x4540_1000),
    ("ssublb .s", 0x4580_1000),
    ("ssublb .d", 0x45C0_1000),
    ("saddwb .h", 0x4540_4000),
    ("saddwb .s", 0x4580_4000),
    ("saddwb .d", 0x45C0_4000),
    ("usubwt .h", 0x4540_5C00),
    ("usubwt .s", 0x4580_5C00),
    ("usubwt .d", 0x45C0_5C00),
    ("ptrue .b all", 0x2518_E3E0),
    ("ptrue .h all", 0x2558_E3E0),
    ("ptrue .s mul3", 0x2598_E3C0),
    ("ptrue .d pow2", 0x25D8_E000),
    ("ptrue .d vl8", 0x25D8_E100),
    ("pfalse .b", 0x2518_E400),
];

/// A side with a step.
trait Steps {
    fn step(
        k: usize,
        facts: Facts,
        z: &mut [u8],
        p: &mut [u8],
        program: &[u8],
        journal: &mut [u8],
    ) -> Result<(), Refusal>;
}

/// A side with a subtotal.
trait Sums {
    fn subtotal(
        k: usize,
        z: &[u8],
        p: &[u8],
        lanes: Lanes,
        signed: bool,
        range: Range<usize>,
    ) -> Result<u64, Refusal>;
}

/// A side with all calls that are timed.
trait Calls: Steps + Sums {
    fn back(k: usize, z: &mut [u8], p: &mut [u8], journal: &mut [u8]) -> Result<(), Refusal>;
    fn text(word: u32, facts: Facts, out: &mut [u8]) -> Result<usize, Refusal>;
    fn assemble(text: &[u8], facts: Facts) -> Result<u32, Refusal>;
    fn place(k: usize, z: &[u8], p: &[u8], register: Register) -> Result<usize, Refusal>;
    fn panel(k: usize, z: &[u8], p: &[u8], lanes: Lanes, out: &mut [u8]) -> Result<(), Refusal>;
    fn lane(k: usize, z: &[u8], p: &[u8], lanes: Lanes, lane: usize) -> Result<Lane, Refusal>;
}

/// The same lanes by their numbers, as plain Rust is asked for them.
#[inline(always)]
fn asked(Lanes { source, predicate, size }: Lanes) -> Asked {
    Asked { source: source.number(), predicate: predicate.number(), size: size.number() }
}

macro_rules! steps {
    ($side:ident, $calls:ident) => {
        impl Steps for $side {
            fn step(
                k: usize,
                facts: Facts,
                z: &mut [u8],
                p: &mut [u8],
                program: &[u8],
                journal: &mut [u8],
            ) -> Result<(), Refusal> {
                $calls::step(k, facts, z, p, program, journal)
            }
        }
    };
}

/// Sums of plain Rust.
macro_rules! sums {
    ($side:ident, $calls:ident) => {
        impl Sums for $side {
            fn subtotal(
                k: usize,
                z: &[u8],
                p: &[u8],
                lanes: Lanes,
                signed: bool,
                range: Range<usize>,
            ) -> Result<u64, Refusal> {
                $calls::subtotal(k, z, p, asked(lanes), signed, range)
            }
        }
    };
}

/// The linked library.
struct Engine;
steps!(Engine, ghishmadul);

impl Sums for Engine {
    fn subtotal(
        k: usize,
        z: &[u8],
        p: &[u8],
        lanes: Lanes,
        signed: bool,
        range: Range<usize>,
    ) -> Result<u64, Refusal> {
        ghishmadul::subtotal(k, z, p, lanes, signed, range)
    }
}

impl Calls for Engine {
    fn back(k: usize, z: &mut [u8], p: &mut [u8], journal: &mut [u8]) -> Result<(), Refusal> {
        ghishmadul::back(k, z, p, journal)
    }

    fn text(word: u32, facts: Facts, out: &mut [u8]) -> Result<usize, Refusal> {
        ghishmadul::text(word, facts, out)
    }

    fn assemble(text: &[u8], facts: Facts) -> Result<u32, Refusal> {
        Ok(ghishmadul::assemble(text, facts)?)
    }

    fn place(k: usize, z: &[u8], p: &[u8], register: Register) -> Result<usize, Refusal> {
        ghishmadul::register_place(k, z, p, register).map(|place| place.start)
    }

    fn panel(k: usize, z: &[u8], p: &[u8], lanes: Lanes, out: &mut [u8]) -> Result<(), Refusal> {
        ghishmadul::panel(k, z, p, lanes, out)
    }

    fn lane(k: usize, z: &[u8], p: &[u8], lanes: Lanes, lane: usize) -> Result<Lane, Refusal> {
        ghishmadul::read_lane(k, z, p, lanes, true, lane)
    }
}

/// Plain Rust that is written to be read: the reference, but subtotals split as the engine's do.
struct Plain;
steps!(Plain, reference);
sums!(Plain, split);

impl Calls for Plain {
    fn back(k: usize, z: &mut [u8], p: &mut [u8], journal: &mut [u8]) -> Result<(), Refusal> {
        reference::back(k, z, p, journal)
    }

    fn text(word: u32, facts: Facts, out: &mut [u8]) -> Result<usize, Refusal> {
        reference::text(word, facts, out)
    }

    fn assemble(text: &[u8], facts: Facts) -> Result<u32, Refusal> {
        reference::assemble(text, facts)
    }

    fn place(k: usize, z: &[u8], p: &[u8], register: Register) -> Result<usize, Refusal> {
        let (kind, number) = (register.kind(), register.number());
        reference::register_place(k, z, p, kind, number).map(|place| place.start)
    }

    fn panel(k: usize, z: &[u8], p: &[u8], lanes: Lanes, out: &mut [u8]) -> Result<(), Refusal> {
        reference::panel(k, z, p, asked(lanes), out)
    }

    fn lane(k: usize, z: &[u8], p: &[u8], lanes: Lanes, lane: usize) -> Result<Lane, Refusal> {
        reference::read_lane(k, z, p, asked(lanes), true, lane)
    }
}

/// Plain Rust that is written for speed.
struct ByHand;
steps!(ByHand, typed);

/// Subtotals lane after lane.
struct Loop;
sums!(Loop, reference);

/// What is lent, and the words to execute, by turns.
struct State {
    k: usize,
    facts: Facts,
    z: Vec<u8>,
    p: Vec<u8>,
    program: Vec<u8>,
    journal: Vec<u8>,
    words: Vec<u32>,
    texts: Vec<Vec<u8>>,
    /// The size of the lanes that are summed; every size by turns if there is none.
    size: Option<Size>,
    turn: usize,
    sum: u64,
}

impl State {
    /// Noise in the files, half of the lanes active, and a journal of all its room with this count.
    fn new(k: usize, count: usize, words: Vec<u32>) -> State {
        let mut random = Random::new(k as u64);
        let mut state = State {
            k,
            // As a caller has them: not known when this is compiled.
            facts: unsafe { std::ptr::read_volatile(&FACTS) },
            z: vec![0; 512 * k],
            p: vec![0; 32 * k],
            program: vec![0; 1024],
            journal: vec![0; JOURNAL],
            texts: words.iter().map(|&word| text_of(word)).collect(),
            words,
            size: None,
            turn: 0,
            sum: 0,
        };
        random.fill(&mut state.z);
        random.fill(&mut state.p);
        reference::fresh(k, VERSION, &mut state.journal).expect("a legal length");
        state.set_count(count);
        state
    }

    /// Entries past the count are zeros: they stand for steps that found zeros in Z0.
    fn set_count(&mut self, count: usize) {
        self.journal[6..8].copy_from_slice(&(count as u16).to_le_bytes());
    }

    fn turn(&mut self) -> usize {
        self.turn = (self.turn + 1) % self.words.len();
        self.turn
    }

    /// The lanes whose turn it is.
    fn lanes(&mut self) -> Lanes {
        let turn = self.turn();
        Lanes {
            source: Vector::ALL[turn % 32],
            predicate: Predicate::ALL[turn % 8],
            size: self.size.unwrap_or(Size::ALL[turn % 4]),
        }
    }

    /// One step at this count.
    fn step<S: Steps>(&mut self, count: usize) {
        let turn = self.turn();
        let word = self.words[turn];
        self.program[4 * count..4 * count + 4].copy_from_slice(&word.to_le_bytes());
        let State { k, z, p, program, journal, .. } = self;
        S::step(*k, self.facts, z, p, program, journal).expect("a step");
        self.set_count(count);
    }

    /// One back from this count.
    fn back<S: Calls>(&mut self, count: usize) {
        let State { k, z, p, journal, .. } = self;
        S::back(*k, z, p, journal).expect("a back");
        self.set_count(count);
    }

    fn text<S: Calls>(&mut self, _: usize) {
        let turn = self.turn();
        let word = self.words[turn];
        self.sum += S::text(word, self.facts, &mut self.journal[..32]).expect("a text") as u64;
    }

    fn assemble<S: Calls>(&mut self, _: usize) {
        let turn = self.turn();
        self.sum += u64::from(S::assemble(&self.texts[turn], self.facts).expect("a word"));
    }

    fn panel<S: Calls>(&mut self, _: usize) {
        let lanes = self.lanes();
        let State { k, z, p, journal, .. } = self;
        S::panel(*k, z, p, lanes, &mut journal[..256]).expect("a panel");
    }

    /// All lanes of a register.
    fn subtotal<S: Sums>(&mut self, _: usize) {
        let lanes = self.lanes();
        let State { k, z, p, turn, sum, .. } = self;
        let many = ghishmadul::lane_count(*k, lanes.size);
        let total = S::subtotal(*k, z, p, lanes, *turn % 8 < 4, 0..many);
        *sum = sum.wrapping_add(total.expect("a subtotal"));
    }

    /// All lanes of a register, one after the other.
    fn every_lane<S: Calls>(&mut self, _: usize) {
        let lanes = self.lanes();
        let State { k, z, p, sum, .. } = self;
        for number in 0..ghishmadul::lane_count(*k, lanes.size) {
            let lane = S::lane(*k, z, p, lanes, number).expect("a lane");
            *sum = sum.wrapping_add(lane.value ^ u64::from(lane.active));
        }
    }

    /// 48 register places, a panel and 16 subtotals.
    fn redraw<S: Calls>(&mut self, _: usize) {
        let State { k, z, p, .. } = self;
        let vectors = Vector::ALL.into_iter().map(Register::from);
        let predicates = Predicate::ALL.into_iter().map(Register::from);
        let places: usize = vectors
            .chain(predicates)
            .map(|register| S::place(*k, z, p, register).expect("a place"))
            .sum();
        self.sum = self.sum.wrapping_add(places as u64);
        self.panel::<S>(0);
        for _ in 0..16 {
            self.subtotal::<S>(0);
        }
    }
}

fn text_of(word: u32) -> Vec<u8> {
    let mut out = [0; 32];
    let length = reference::text(word, FACTS, &mut out).expect("an accepted word");
    out[..length].to_vec()
}

/// So many accepted words, every row and size by turns.
fn words(many: usize) -> Vec<u32> {
    let mut random = Random::new(1);
    (0..many).map(|at| word_of(&TABLE[at % TABLE.len()], &mut random)).collect()
}

/// An accepted word of a row.
fn word_of(row: &Row, random: &mut Random) -> u32 {
    loop {
        let word = row.value | random.word() & !row.mask;
        if reference::decode(word, FACTS).is_ok() {
            return word;
        }
    }
}

/// The same word with other registers: Z0 the destination, the sources and the predicate by turns; or the predicate
/// that it makes.
fn with_registers(word: u32) -> Vec<u32> {
    let row = TABLE[reference::decode(word, FACTS).expect("an accepted word").row];
    (0..64)
        .map(|turn| {
            let (n, m, g) = (1 + turn % 31, 1 + (turn + 7) % 31, turn % 8);
            match row.writes_predicate() {
                true => word | (turn % 16),
                false => word | (m << 16 | g << 10 | n << 5) & !row.mask,
            }
        })
        .collect()
}

#[repr(C)]
struct Timespec {
    seconds: i64,
    nanoseconds: i64,
}

extern "C" {
    fn clock_gettime(clock: i32, time: *mut Timespec) -> i32;
}

/// The processor's time of this thread.
fn now() -> Duration {
    const THREAD: i32 = 3;
    let mut time = Timespec { seconds: 0, nanoseconds: 0 };
    assert_eq!(unsafe { clock_gettime(THREAD, &mut time) }, 0, "no clock");
    Duration::new(time.seconds as u64, time.nanoseconds as u32)
}

/// One turn of a side.
type Turn = fn(&mut State, usize);

/// How much is timed.
struct Timer {
    rounds: usize,
    round: Duration,
}

impl Timer {
    /// The time of one turn, in nanoseconds, of each side.
    fn time<const SIDES: usize>(
        &self,
        state: &mut State,
        sides: [Turn; SIDES],
        count: usize,
    ) -> [f64; SIDES] {
        // As many turns as a round takes, but every word at least once.
        let mut turns = state.words.len();
        while round(state, sides[0], count, turns) < self.round {
            turns *= 2;
        }
        let mut best = [Duration::MAX; SIDES];
        for _ in 0..self.rounds {
            for (side, best) in sides.into_iter().zip(&mut best) {
                *best = round(state, side, count, turns).min(*best);
            }
        }
        // The answers are used, so that no call is left out.
        unsafe { std::ptr::read_volatile(&state.sum) };
        best.map(|best| best.as_nanos() as f64 / turns as f64)
    }
}

/// The time of so many turns.
fn round(state: &mut State, side: Turn, count: usize, turns: usize) -> Duration {
    state.turn = 0;
    let start = now();
    for _ in 0..turns {
        side(state, count);
    }
    now() - start
}

/// The row that has the greatest ratio.
#[derive(Default)]
struct Slowest {
    ratio: f64,
    row: String,
}

impl Slowest {
    fn see(&mut self, ratio: f64, row: String) {
        if ratio > self.ratio {
            *self = Slowest { ratio, row };
        }
    }

    fn say(&self, of: &str, target: f64) {
        println!("slowest of {}: {} at {:.2}, target {:.2}", of, self.row, self.ratio, target);
    }
}

/// The most count from which a step still has a word and room.
fn nearly_full(k: usize) -> usize {
    ((JOURNAL - 8) / (1 + 16 * k)).min(256) - 1
}

/// Every call beside plain Rust.
fn time_calls(timer: &Timer) {
    println!("every call, beside plain Rust");
    println!(
        "{:10}{:>4}  {:12}{:>12}{:>12}{:>8}",
        "call", "k", "journal", "engine ns", "plain ns", "ratio"
    );
    let mut slowest = Slowest::default();
    let mut row = |state: &mut State, name: &str, journal: &str, sides: [Turn; 2], count: usize| {
        let [engine, plain] = timer.time(state, sides, count);
        let k = if journal == "no" { "-".to_string() } else { state.k.to_string() };
        let journal = if journal == "no" { "-" } else { journal };
        println!(
            "{:10}{:>4}  {:12}{:>12.0}{:>12.0}{:>8.2}",
            name,
            k,
            journal,
            engine,
            plain,
            engine / plain
        );
        slowest.see(engine / plain, format!("{} k {} {}", name, k, journal));
    };
    let any = words(16 * TABLE.len());
    let step: [Turn; 2] = [State::step::<Engine>, State::step::<Plain>];
    let back: [Turn; 2] = [State::back::<Engine>, State::back::<Plain>];
    for k in [1, 4, 16] {
        let full = nearly_full(k);
        row(&mut State::new(k, 0, any.clone()), "step", "empty", step, 0);
        row(&mut State::new(k, full, any.clone()), "step", "nearly full", step, full);
        row(&mut State::new(k, 1, any.clone()), "back", "one entry", back, 1);
        row(&mut State::new(k, full + 1, any.clone()), "back", "full", back, full + 1);
        let state = &mut State::new(k, 0, any.clone());
        row(state, "panel", "-", [State::panel::<Engine>, State::panel::<Plain>], 0);
        row(state, "subtotal", "-", [State::subtotal::<Engine>, State::subtotal::<Plain>], 0);
        row(state, "lanes", "-", [State::every_lane::<Engine>, State::every_lane::<Plain>], 0);
        row(state, "redraw", "-", [State::redraw::<Engine>, State::redraw::<Plain>], 0);
    }
    let state = &mut State::new(1, 0, any);
    row(state, "text", "no", [State::text::<Engine>, State::text::<Plain>], 0);
    row(state, "assemble", "no", [State::assemble::<Engine>, State::assemble::<Plain>], 0);
    for (number, of) in TABLE.iter().enumerate() {
        let mut random = Random::new(number as u64);
        let words = (0..64).map(|_| word_of(of, &mut random)).collect();
        row(&mut State::new(16, 0, words), of.name, "empty", step, 0);
    }
    slowest.say("these", 1.5);
}

/// A step of one word of each family and width, beside plain Rust and beside one written for speed.
fn time_words(timer: &Timer) {
    println!("\na step of one word, journal empty, beside plain Rust and beside a step written for speed");
    println!(
        "{:14}{:>4}{:>12}{:>12}{:>8}{:>12}{:>8}",
        "word", "k", "engine ns", "plain ns", "ratio", "by hand ns", "ratio"
    );
    let (mut segments, mut others) = (Slowest::default(), Slowest::default());
    for (name, word) in WORDS {
        for k in LENGTHS {
            let mut state = State::new(k, 0, with_registers(word));
            let sides: [Turn; 3] =
                [State::step::<Engine>, State::step::<Plain>, State::step::<ByHand>];
            let [engine, plain, by_hand] = timer.time(&mut state, sides, 0);
            println!(
                "{:14}{:>4}{:>12.0}{:>12.0}{:>8.2}{:>12.0}{:>8.2}",
                name,
                k,
                engine,
                plain,
                engine / plain,
                by_hand,
                engine / by_hand
            );
            let slowest = if name.starts_with("addqv") { &mut segments } else { &mut others };
            slowest.see(engine / by_hand, format!("{} k {}", name, k));
        }
    }
    segments.say("addqv's by hand", 3.0);
    others.say("the others by hand", 3.0);
}

/// A subtotal of all lanes, beside the same split and beside a loop in lane order.
fn time_subtotals(timer: &Timer) {
    println!("\na subtotal of all lanes, beside the same split and beside a loop in lane order");
    println!(
        "{:8}{:>4}{:>12}{:>12}{:>8}{:>12}{:>8}",
        "lanes", "k", "engine ns", "split ns", "ratio", "loop ns", "ratio"
    );
    for (size, name) in Size::ALL.into_iter().zip([".b", ".h", ".s", ".d"]) {
        for k in [1, 4, 16] {
            let mut state = State::new(k, 0, words(64));
            state.size = Some(size);
            let sides: [Turn; 3] =
                [State::subtotal::<Engine>, State::subtotal::<Plain>, State::subtotal::<Loop>];
            let [engine, split, by_lane] = timer.time(&mut state, sides, 0);
            println!(
                "{:8}{:>4}{:>12.0}{:>12.0}{:>8.2}{:>12.0}{:>8.2}",
                name,
                k,
                engine,
                split,
                engine / split,
                by_lane,
                engine / by_lane
            );
        }
    }
}

/// What each further segment of 16 bytes, and each further entry, adds to a step: about the same.
fn time_growth(timer: &Timer) {
    let any = words(16 * TABLE.len());
    let engine = |k, count| {
        let mut state = State::new(k, count, any.clone());
        let [engine] = timer.time(&mut state, [State::step::<Engine> as Turn], count);
        engine
    };
    println!("\na step by k, journal empty\n{:>6}{:>12}{:>16}", "k", "engine ns", "ns by segment");
    let first = engine(1, 0);
    println!("{:>6}{:>12.0}{:>16}", 1, first, "-");
    for k in [2, 4, 8, 16] {
        let next = engine(k, 0);
        println!("{:>6}{:>12.0}{:>16.1}", k, next, (next - first) / (k - 1) as f64);
    }
    for k in [1, 16] {
        let head = format!("{:>6}{:>12}{:>16}", "count", "engine ns", "ns by entry");
        println!("\na step by count, k {}\n{}", k, head);
        let first = engine(k, 0);
        println!("{:>6}{:>12.0}{:>16}", 0, first, "-");
        for count in [32, 64, 128, 192, 253] {
            let next = engine(k, count);
            println!("{:>6}{:>12.0}{:>16.2}", count, next, (next - first) / count as f64);
        }
    }
}

fn main() {
    // `cargo bench` says so; whoever else runs this only sees that it runs.
    let timer = if std::env::args().any(|argument| argument == "--bench") {
        Timer { rounds: 60, round: Duration::from_millis(1) }
    } else {
        Timer { rounds: 1, round: Duration::from_micros(1) }
    };
    time_calls(&timer);
    time_words(&timer);
    time_subtotals(&timer);
    time_growth(&timer);
}
