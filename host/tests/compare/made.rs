//! Words that make a predicate, in journals of both versions: every one of them stepped and taken back, every text that
//! is one or nearly one; and fresh journals of versions that there are and that there are not.

use crate::engine::numbers;
use crate::inputs;
use crate::lengths::LEGAL;
use crate::tally::Call;
use crate::Comparison;
use reference::{ALL, TABLE};

/// What a step of a word that makes a predicate answers: done, JOURNAL, FULL.
const DONE: u64 = 0;
const JOURNAL: u64 = 5;
const FULL: u64 = 9;

/// Versions of a journal, whether there is room for an entry, and the answer.
const CASES: [(u64, bool, u64); 4] =
    [(2, true, DONE), (2, false, FULL), (1, true, JOURNAL), (1, false, JOURNAL)];

impl Comparison<'_> {
    /// Every word of ptrue and pfalse at every length, and so every pattern at every size. Steps that are done
    /// are told by their entry and by their line, and are taken back. How many words and lengths there were.
    pub fn every_made_predicate(&mut self) -> u64 {
        let mut many = 0;
        let made =
            |word: &u32| TABLE.iter().any(|row| row.writes_predicate() && row.matches(*word));
        for word in inputs::every_word_of_a_row().filter(made) {
            for k in LEGAL {
                self.go_on();
                CASES.iter().for_each(|&case| self.made_predicate(k, word, case));
                many += 1;
            }
        }
        many
    }

    fn made_predicate(&mut self, k: usize, word: u32, (version, room, answer): (u64, bool, u64)) {
        let way = self.way();
        let Self { random, parts, .. } = self;
        inputs::content(random, &mut parts.z, 512 * k);
        inputs::content(random, &mut parts.p, 32 * k);
        parts.program = word.to_le_bytes().to_vec();
        let bytes = if room { 1 + 16 * k } else { random.below(1 + 16 * k) };
        inputs::content(random, &mut parts.journal, 8 + bytes);
        parts.journal[..8].copy_from_slice(&[b'L', b'N', b'J', version as u8, 0, k as u8, 0, 0]);
        self.lend();
        let before = (self.parts.z.clone(), self.parts.p.clone());
        assert_eq!(self.move_forward(way, k, ALL), answer, "{:08x} at {} in {}", word, k, version);
        if answer == DONE {
            self.read_entry_at(way, k, 0);
            inputs::content(&mut self.random, &mut self.parts.out, 546);
            self.write_line_of(way, k, ALL, 0, 0);
            self.move_back(way, k);
        }
        if before != (self.parts.z.clone(), self.parts.p.clone()) {
            self.stop(Call::Back, "the former bytes did not come again");
        }
    }

    /// How many texts were accepted.
    pub fn every_text_of_a_predicate(&mut self) -> u64 {
        let mut accepted = 0;
        for text in inputs::every_text_of_a_predicate() {
            self.parts.out = text.into_bytes();
            let way = self.way();
            accepted += u64::from(self.assemble_one(way, ALL)[0] == DONE);
        }
        accepted
    }

    pub fn fresh(&mut self) {
        let k = inputs::length(&mut self.random);
        let version = inputs::version(&mut self.random);
        let bytes = match self.random.below(12) {
            0 => self.random.below(9),
            1 => 65_530 + self.random.below(20),
            2 => self.random.below(65_540),
            _ => 8 + self.random.below(1000),
        };
        inputs::content(&mut self.random, &mut self.parts.journal, bytes);
        // Often over the heading of a journal, whose version does not matter.
        if bytes >= 8 && self.random.one_in(2) {
            let stood = self.random.pick(&[0, 1, 2, 3]);
            self.parts.journal[..6].copy_from_slice(&[b'L', b'N', b'J', stood, 0, k as u8]);
        }
        self.engine.journal.set(&self.parts.journal);
        self.start_journal(k, version);
    }

    /// Makes the journal that is set up a fresh one.
    pub fn start_journal(&mut self, k: usize, version: u64) {
        let way = self.way();
        let engine = way.fresh(k, version, self.engine.journal.part());
        let reference = numbers(reference::fresh(k, version, &mut self.parts.journal));
        self.same(Call::Fresh, engine, reference, &[k, version as usize]);
        self.agree(Call::Fresh, &["journal"]);
        if [DONE, JOURNAL].contains(&reference[0]) {
            self.tally.edges().count_fresh(version);
        }
    }
}
