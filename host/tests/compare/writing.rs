//! What the crate writes by itself: a lane and its bit put into files, and a session. The header's own are
//! tested in C (`tests/written.c`).

use crate::engine::numbers;
use crate::inputs;
use crate::tally::Call;
use crate::{Comparison, Parts};
use ghishmadul::{Predicate, Size, Vector};
use reference::facts_of;

impl Comparison<'_> {
    pub fn put_lane(&mut self) {
        let (k, size) = (self.some_files(), self.random.pick(&Size::ALL));
        let destination = self.random.pick(&Vector::ALL);
        let lane = self.some_lane(k, size.number());
        let value = self.random.number();
        let engine = ghishmadul::put_lane(k, self.engine.z.part(), destination, size, lane, value);
        let (to, width) = (destination.number(), size.number());
        let reference = reference::put_lane(k, &mut self.parts.z, to, width, lane, value);
        let given = [k, to, width, lane, value as usize];
        self.same(Call::PutLane, numbers(engine), numbers(reference), &given);
        self.agree(Call::PutLane, &["z"]);
    }

    pub fn put_active(&mut self) {
        let (k, size) = (self.some_files(), self.random.pick(&Size::ALL));
        let predicate = self.random.pick(&Predicate::ALL);
        let lane = self.some_lane(k, size.number());
        let on = self.random.one_in(2);
        let engine = ghishmadul::put_active(k, self.engine.p.part(), predicate, size, lane, on);
        let (of, width) = (predicate.number(), size.number());
        let reference = reference::put_active(k, &mut self.parts.p, of, width, lane, on);
        let given = [k, of, width, lane, usize::from(on)];
        self.same(Call::PutActive, numbers(engine), numbers(reference), &given);
        self.agree(Call::PutActive, &["p"]);
    }

    pub fn write_session(&mut self) {
        let k = self.some_files();
        inputs::program(&mut self.random, &mut self.parts.program);
        self.engine.program.set(&self.parts.program);
        let whole = 9 + 544 * k.min(17) + self.parts.program.len();
        let bytes = match self.random.below(8) {
            0 => self.random.below(whole),
            1 => whole - 1,
            2 => whole + self.random.below(100),
            _ => whole,
        };
        inputs::content(&mut self.random, &mut self.parts.out, bytes);
        self.engine.out.set(&self.parts.out);
        let facts = self.random.byte();
        let engine = ghishmadul::write_session(
            self.engine.out.part(),
            k,
            facts_of(facts),
            self.engine.z.part(),
            self.engine.p.part(),
            self.engine.program.part(),
        );
        let Parts { z, p, program, out, .. } = &mut self.parts;
        let reference = numbers(reference::write_session(out, k, facts, z, p, program));
        self.same(Call::WriteSession, numbers(engine), reference, &[k, facts as usize, bytes]);
        self.agree(Call::WriteSession, &["z", "p", "program", "out"]);
        if reference[0] == 0 {
            self.read_back(reference[1] as usize);
        }
    }

    /// What was written is a session to the engine.
    fn read_back(&mut self, bytes: usize) {
        let written = &self.engine.out.part()[..bytes];
        let session = numbers(ghishmadul::read_session(written));
        let reference = numbers(reference::read_session(&self.parts.out[..bytes]));
        if session != reference || reference[0] != 0 {
            self.stop(Call::WriteSession, "what was written is no session");
        }
    }
}
