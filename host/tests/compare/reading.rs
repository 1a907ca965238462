//! Lanes, entries and rows read, and the library's version.

use crate::engine::{numbers, Way};
use crate::inputs;
use crate::tally::Call;
use crate::{Comparison, Parts};
use reference::{Asked, TABLE};

/// The refusals after which a lane or an entry was looked for: done and RANGE.
const LOOKED_FOR: [u64; 2] = [0, 13];

impl Comparison<'_> {
    /// A number that asks for a signed lane, or 0.
    pub fn is_signed(&mut self) -> u64 {
        self.random.pick(&[0, 0, 0, 1, 1, 2, 256, 1 << 32, 1 << 63, u64::MAX])
    }

    /// Any registers and size, mostly those that there are; the predicate mostly below a bound.
    pub fn asked(&mut self, predicates: usize) -> Asked {
        let source = self.mostly_below(32);
        let predicate = self.mostly_below(predicates);
        let size = self.mostly_below(4);
        Asked { source, predicate, size }
    }

    /// A lane's number, mostly of one that there is, and often the last.
    pub fn some_lane(&mut self, k: usize, size: usize) -> usize {
        let many = if k <= 17 { (16 * k) >> size.min(3) } else { 16 };
        match self.random.below(12) {
            0 => many.saturating_sub(1),
            1 => many,
            _ => self.mostly_below(many.max(1)),
        }
    }

    pub fn read_lane(&mut self) {
        let way = self.way();
        let k = self.some_files();
        let asked = self.asked(16);
        let is_signed = self.is_signed();
        let lane = self.some_lane(k, asked.size);
        let engine =
            way.read_lane(k, self.engine.z.part(), self.engine.p.part(), asked, is_signed, lane);
        let Parts { z, p, .. } = &self.parts;
        let reference = numbers(reference::read_lane(k, z, p, asked, is_signed != 0, lane));
        let Asked { source, predicate, size } = asked;
        let given = [k, source, predicate, size, is_signed as usize, lane];
        self.same(Call::ReadLane, engine, reference, &given);
        self.agree(Call::ReadLane, &["z", "p"]);
        let there = source <= 31 && predicate <= 15 && size <= 3;
        if there && LOOKED_FOR.contains(&reference[0]) {
            self.tally.edges().count_lane(k, asked, is_signed, lane);
        }
    }

    pub fn read_entry(&mut self) {
        let way = self.way();
        let k = inputs::length(&mut self.random);
        let words = self.random.below(257);
        inputs::journal(&mut self.random, k, words, &mut self.parts.journal);
        self.engine.journal.set(&self.parts.journal);
        let held = reference::position(k, &self.parts.journal).unwrap_or(words);
        // The room's end too, and what the count would be that a damaged journal has.
        let room = self.parts.journal.len().saturating_sub(8) / (1 + 16 * k.min(16));
        let index = match self.random.below(8) {
            0 => held.saturating_sub(1),
            1 => held,
            2 => self.random.pick(&[room.saturating_sub(1), room, 255, 256, held + 1]),
            _ => self.mostly_below(held.max(1)),
        };
        let reference = self.read_entry_at(way, k, index);
        if LOOKED_FOR.contains(&reference) {
            self.tally.edges().count_entry(index, held);
        }
    }

    /// An entry of the journal that is set up; the reference's answer number.
    pub fn read_entry_at(&mut self, way: Way, k: usize, index: usize) -> u64 {
        let engine = way.read_entry(k, self.engine.journal.part(), index);
        let reference = numbers(reference::read_entry(k, &self.parts.journal, index));
        self.same(Call::ReadEntry, engine, reference, &[k, index]);
        self.agree(Call::ReadEntry, &["journal"]);
        self.count_numbers("entry", k, reference[0]);
        reference[0]
    }

    pub fn read_row(&mut self) {
        let way = self.way();
        let any = self.random.number() as usize;
        let row = match self.random.below(12) {
            0 => self.random.pick(&[255, 256, 256 + 5, 1 << 32, 1 << 63, usize::MAX, any]),
            _ => self.random.below(TABLE.len() + 8),
        };
        let reference = numbers(reference::read_row(row));
        self.same(Call::ReadRow, way.read_row(row), reference, &[row]);
        self.tally.edges().count_row(row);
    }

    /// By the boundary and by the crate, which has the same number for its own.
    pub fn version(&mut self) {
        let engine = unsafe { ghishmadul::boundary::ln_version() };
        let reference = numbers(Ok(reference::VERSION));
        self.same(Call::Version, numbers(Ok(engine)), reference, &[]);
        self.same(Call::Version, numbers(Ok(ghishmadul::version())), reference, &[]);
        self.same(Call::Version, numbers(Ok(ghishmadul::VERSION)), reference, &[]);
    }
}
