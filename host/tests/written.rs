//! What the header writes by itself, made by the reference on the same numbers: `written.c` prints the same.

use ghishmadul::{Refusal, LENGTHS};
use std::fmt::Write;

const TURNS: usize = 2000;
const MARGIN: usize = 64;

/// The numbers of the rule, and what is counted of the answers and bytes.
struct Trial {
    state: u64,
    sum: u64,
    answers: [u64; 15],
}

impl Trial {
    fn next(&mut self) -> u64 {
        self.state ^= self.state >> 12;
        self.state ^= self.state << 25;
        self.state ^= self.state >> 27;
        self.state.wrapping_mul(0x2545_F491_4F6C_DD1D)
    }

    fn below(&mut self, bound: usize) -> usize {
        (self.next() >> 32) as usize % bound
    }

    fn filled(&mut self, many: usize) -> Vec<u8> {
        (0..many).map(|_| (self.next() >> 56) as u8).collect()
    }

    fn take(&mut self, number: u64) {
        self.sum = (self.sum ^ number).wrapping_mul(0x100_0000_01B3);
    }

    /// Takes bytes into the sum, with the margin that stays after them.
    fn add(&mut self, bytes: &[u8]) {
        bytes.iter().chain(&[0xA5; MARGIN]).for_each(|&byte| self.take(byte.into()));
    }

    fn count(&mut self, answer: Result<usize, Refusal>) {
        let number = answer.err().map_or(0, Refusal::number);
        self.answers[number as usize] += 1;
        self.take(number ^ answer.unwrap_or(0) as u64);
    }

    fn some_length(&mut self) -> usize {
        const OTHERS: [usize; 8] = [0, 3, 12, 15, 17, 32, 257, usize::MAX];
        match self.below(10) {
            0 => OTHERS[self.below(8)],
            _ => LENGTHS[self.below(5)],
        }
    }

    fn slipped(&mut self, bytes: usize) -> usize {
        match self.below(20) {
            0 => bytes - 1,
            1 => bytes + 1,
            _ => bytes,
        }
    }

    fn mostly_below(&mut self, bound: usize) -> usize {
        match self.below(20) {
            0 => bound,
            1 => usize::MAX,
            _ => self.below(bound),
        }
    }

    fn put_lane(&mut self) {
        let k = self.some_length();
        let like = laid_out_for(k);
        let bytes = self.slipped(512 * like);
        let (destination, size) = (self.mostly_below(32), self.mostly_below(4));
        let lane = self.mostly_below((16 * like) >> (size & 3));
        let value = self.next();
        let mut z = self.filled(bytes);
        let answer = reference::put_lane(k, &mut z, destination, size, lane, value);
        self.count(answer.map(|()| 0));
        self.add(&z);
    }

    fn put_active(&mut self) {
        const FLAGS: [u64; 6] = [0, 0, 1, 2, 256, u64::MAX];
        let k = self.some_length();
        let like = laid_out_for(k);
        let bytes = self.slipped(32 * like);
        let (predicate, size) = (self.mostly_below(16), self.mostly_below(4));
        let lane = self.mostly_below((16 * like) >> (size & 3));
        let active = FLAGS[self.below(6)] != 0;
        let mut p = self.filled(bytes);
        let answer = reference::put_active(k, &mut p, predicate, size, lane, active);
        self.count(answer.map(|()| 0));
        self.add(&p);
    }

    fn write_session(&mut self) {
        let k = self.some_length();
        let like = laid_out_for(k);
        let words = self.mostly_below(257);
        let (z_len, p_len) = (self.slipped(512 * like), self.slipped(32 * like));
        let program_len = 4 * (words % 1000) + if self.below(20) == 0 { 2 } else { 0 };
        let out_len = self.slipped(9 + z_len + p_len + program_len);
        let facts = (self.next() >> 56) as u8;
        let [z, p, program, mut out] =
            [z_len, p_len, program_len, out_len].map(|many| self.filled(many));
        let answer = reference::write_session(&mut out, k, facts, &z, &p, &program);
        self.count(answer);
        self.add(&out);
    }
}

fn laid_out_for(k: usize) -> usize {
    if (1..=16).contains(&k) {
        k
    } else {
        1
    }
}

/// The lines of a function, and its answers, which must be those that it can give.
fn lines(name: &str, turn: fn(&mut Trial), refusals: &[u64]) -> String {
    let mut trial = Trial { state: 0x9E37_79B9_7F4A_7C15, sum: 0, answers: [0; 15] };
    let mut lines = String::new();
    for at in 1..=TURNS {
        turn(&mut trial);
        if at % 100 == 0 {
            writeln!(lines, "{} {}: {:016x}", name, at, trial.sum).unwrap();
        }
    }
    write!(lines, "{}", name).unwrap();
    for (number, &count) in trial.answers.iter().enumerate().filter(|(_, &count)| count > 0) {
        let refusal = Refusal::check(number as u64).err();
        write!(lines, " {} {}", refusal.map_or("DONE", Refusal::name), count).unwrap();
    }
    let given = (1..15).filter(|&number| trial.answers[number as usize] > 0);
    assert_eq!(given.collect::<Vec<u64>>(), refusals, "every refusal of {}", name);
    lines + "\n"
}

#[test]
fn the_header_writes_what_the_reference_does() {
    let all = [
        lines("put_lane", Trial::put_lane, &[1, 2, 13]),
        lines("put_active", Trial::put_active, &[1, 2, 13]),
        lines("write_session", Trial::write_session, &[1, 2, 3, 11]),
    ];
    assert_eq!(all.concat(), include_str!("written.expected"));
}
