//! An owner of files, program and journal.

use crate::refusal::known;
use crate::{
    back, decode, fresh, lacking, lanes, panel_rows, position, predicate_file_bytes, put_active,
    put_lane, read_entry, read_lane, read_session, read_word, register, register_place,
    session_bytes, step, subtotal, text_of, vector_bytes, vector_file_bytes, write_line,
    write_session, Entry, Facts, Fields, JournalVersion, Kind, Lane, Lanes, Predicate, Refusal,
    Register, Size, Vector, JOURNAL_HEADER_BYTES, LONGEST_LINE, MOST_JOURNAL_BYTES,
};
use std::ops::Range;

/// A machine with all that the calls are lent: both files, a program, and the journal of its steps, which is of
/// the current version.
///
/// What it owns always fits together: [`Refusal::Length`], [`Refusal::File`], [`Refusal::Program`],
/// [`Refusal::Room`] and [`Refusal::Journal`] come from where a machine is made, if at all. Its facts
/// are given there too and never change, so all steps of its journal have the same.
///
#[doc = concat!("```\n", include_str!("../examples/machine.rs"), "```")]
#[derive(Clone, Debug, PartialEq, Eq)]
pub struct Machine {
    k: usize,
    facts: Facts,
    z: Vec<u8>,
    p: Vec<u8>,
    program: Vec<u8>,
    journal: Vec<u8>,
}

impl Machine {
    /// A core with these facts, registers of zeros, this program, and a journal of the most bytes. That
    /// has room for every step of every program, but at length 16 for 254 alone.
    ///
    /// # Errors
    ///
    /// [`Refusal::Length`], [`Refusal::Program`]. A word that the facts do not accept is refused when it is
    /// stepped.
    pub fn new(k: usize, facts: Facts, words: &[u32]) -> Result<Machine, Refusal> {
        Machine::with_room(k, facts, words, MOST_JOURNAL_BYTES)
    }

    /// The same with a journal of so many bytes; [`journal_bytes`](crate::journal_bytes) tells how many
    /// some entries take.
    ///
    /// # Errors
    ///
    /// [`Refusal::Length`], [`Refusal::Program`], [`Refusal::Room`].
    pub fn with_room(
        k: usize,
        facts: Facts,
        words: &[u32],
        bytes: usize,
    ) -> Result<Machine, Refusal> {
        let program: Vec<u8> = words.iter().flat_map(|word| word.to_le_bytes()).collect();
        // The length first: the files of another one need not fit into memory.
        fresh(k, JournalVersion::Current, &mut [0; 8])?;
        let (z, p) = (vec![0; vector_file_bytes(k)], vec![0; predicate_file_bytes(k)]);
        Machine::started(k, facts, z, p, program, bytes)
    }

    /// The facts, the files and the program of a session, and a journal of the most bytes.
    ///
    /// # Errors
    ///
    /// [`Refusal::Session`].
    pub fn from_session(bytes: &[u8]) -> Result<Machine, Refusal> {
        let session = read_session(bytes)?;
        let z = bytes[session.vectors..session.predicates].to_vec();
        let p = bytes[session.predicates..session.program].to_vec();
        let program = bytes[session.program..].to_vec();
        Machine::started(session.k, session.facts, z, p, program, MOST_JOURNAL_BYTES)
    }

    /// A machine of these parts with a fresh journal.
    fn started(
        k: usize,
        facts: Facts,
        z: Vec<u8>,
        p: Vec<u8>,
        program: Vec<u8>,
        bytes: usize,
    ) -> Result<Machine, Refusal> {
        match read_word(&program, 0) {
            Ok(_) | Err(Refusal::End) => {}
            Err(refusal) => return Err(refusal),
        }
        // One byte too many is refused as any further ones are.
        let mut journal = vec![0; bytes.min(MOST_JOURNAL_BYTES + 1)];
        fresh(k, JournalVersion::Current, &mut journal)?;
        Ok(Machine { k, facts, z, p, program, journal })
    }

    /// The length.
    pub fn k(&self) -> usize {
        self.k
    }

    /// The facts about the core.
    pub fn facts(&self) -> Facts {
        self.facts
    }

    /// The vector file.
    pub fn vectors(&self) -> &[u8] {
        &self.z
    }

    /// The predicate file.
    pub fn predicates(&self) -> &[u8] {
        &self.p
    }

    /// The program's bytes.
    pub fn program(&self) -> &[u8] {
        &self.program
    }

    /// The journal's bytes, which are of the current version: [`JournalVersion::Current`].
    pub fn journal(&self) -> &[u8] {
        &self.journal
    }

    /// How many steps were made and not taken back: the number of the word that the next one executes.
    pub fn position(&self) -> usize {
        known(position(self.k, &self.journal))
    }

    /// How many steps the journal has room for; programs end after 256.
    pub fn room(&self) -> usize {
        (self.journal.len() - JOURNAL_HEADER_BYTES) / (1 + vector_bytes(self.k))
    }

    /// The program's word with this number.
    ///
    /// # Errors
    ///
    /// [`Refusal::End`].
    pub fn word(&self, at: usize) -> Result<u32, Refusal> {
        read_word(&self.program, at).map(|word| word.word)
    }

    /// The text of the program's word with this number.
    ///
    /// # Errors
    ///
    /// [`Refusal::End`], [`Refusal::Unknown`], [`Refusal::Undefined`].
    pub fn text(&self, at: usize) -> Result<String, Refusal> {
        text_of(self.word(at)?, self.facts)
    }

    /// The row and the fields of the program's word with this number; the next step's is at
    /// [`Machine::position`].
    ///
    /// # Errors
    ///
    /// [`Refusal::End`], [`Refusal::Unknown`], [`Refusal::Undefined`].
    pub fn fields(&self, at: usize) -> Result<Fields, Refusal> {
        decode(self.word(at)?, self.facts)
    }

    /// The facts of which one would be enough for the program's word with this number, where the core lacks
    /// it: [`lacking`].
    pub fn lacks(&self, at: usize) -> Option<Facts> {
        lacking(self.word(at).ok()?, self.facts)
    }

    /// Executes the word at the position, and keeps what its destination held.
    ///
    /// # Errors
    ///
    /// [`Refusal::End`], [`Refusal::Unknown`], [`Refusal::Undefined`], [`Refusal::Full`].
    pub fn step(&mut self) -> Result<(), Refusal> {
        step(self.k, self.facts, &mut self.z, &mut self.p, &self.program, &mut self.journal)
    }

    /// Takes the last step back.
    ///
    /// # Errors
    ///
    /// [`Refusal::Empty`].
    pub fn back(&mut self) -> Result<(), Refusal> {
        back(self.k, &mut self.z, &mut self.p, &mut self.journal)
    }

    /// Takes every step back: the position is 0 then, and each register that a step wrote is what it was
    /// before the first of them.
    pub fn reset(&mut self) {
        while self.back().is_ok() {}
    }

    /// The entry of the step with this number, which was made and not taken back: the register that it wrote,
    /// and what that held before.
    ///
    /// # Errors
    ///
    /// [`Refusal::Range`] where there is no such step.
    pub fn entry(&self, index: usize) -> Result<Entry<'_>, Refusal> {
        read_entry(self.k, &self.journal, index)
    }

    /// The last step's entry: what [`Machine::back`] would restore. None before the first step.
    pub fn last_entry(&self) -> Option<Entry<'_>> {
        self.entry(self.position().checked_sub(1)?).ok()
    }

    /// A register's bytes, the lowest first.
    pub fn register(&self, of: impl Into<Register>) -> &[u8] {
        known(register(self.k, &self.z, &self.p, of))
    }

    /// A register's bytes, to be set. The journal knows nothing of it: a step back restores what the
    /// destination held when the step was made.
    pub fn register_mut(&mut self, of: impl Into<Register>) -> &mut [u8] {
        let place = known(register_place(self.k, &self.z, &self.p, of));
        let file = match place.kind {
            Kind::Vector => &mut self.z,
            Kind::Predicate => &mut self.p,
        };
        &mut file[place.start..place.start + place.bytes]
    }

    /// Every lane, lane 0 first, read as signed or unsigned numbers: [`lanes`](crate::lanes()).
    pub fn lanes(
        &self,
        of: Lanes,
        signed: bool,
    ) -> impl DoubleEndedIterator<Item = Lane> + ExactSizeIterator + '_ {
        known(lanes(self.k, &self.z, &self.p, of, signed))
    }

    /// One lane, read as a signed or an unsigned number.
    ///
    /// # Errors
    ///
    /// [`Refusal::Range`] where there is no such lane.
    pub fn lane(&self, of: Lanes, signed: bool, lane: usize) -> Result<Lane, Refusal> {
        read_lane(self.k, &self.z, &self.p, of, signed, lane)
    }

    /// Puts the low bytes of `value` into a lane of a vector register. The journal knows nothing of it.
    ///
    /// # Errors
    ///
    /// [`Refusal::Range`] where there is no such lane.
    pub fn put_lane(
        &mut self,
        destination: Vector,
        size: Size,
        lane: usize,
        value: u64,
    ) -> Result<(), Refusal> {
        put_lane(self.k, &mut self.z, destination, size, lane, value)
    }

    /// Makes a lane active in a predicate register, or inactive: its one bit is set or cleared.
    ///
    /// # Errors
    ///
    /// [`Refusal::Range`] where there is no such lane.
    pub fn put_active(
        &mut self,
        predicate: Predicate,
        size: Size,
        lane: usize,
        active: bool,
    ) -> Result<(), Refusal> {
        put_active(self.k, &mut self.p, predicate, size, lane, active)
    }

    /// The addqv panel: row s is segment s of the source with inactive lanes zeroed.
    ///
    /// # Errors
    ///
    /// [`Refusal::Range`] where the predicate cannot govern.
    pub fn panel(&self, of: Lanes) -> Result<[[u8; 16]; 16], Refusal> {
        panel_rows(self.k, &self.z, &self.p, of)
    }

    /// The sum, modulo 2^64, of the active lanes with the numbers of `range`, each read as a signed or
    /// an unsigned number.
    ///
    /// # Errors
    ///
    /// [`Refusal::Range`] where the predicate cannot govern, or the range ends before its start or above the
    /// number of lanes.
    pub fn subtotal(&self, of: Lanes, signed: bool, range: Range<usize>) -> Result<u64, Refusal> {
        subtotal(self.k, &self.z, &self.p, of, signed, range)
    }

    /// A session of the machine as it stands, to start another from: its facts, files and program. The steps
    /// that were made are not in it.
    pub fn session(&self) -> Vec<u8> {
        let Machine { k, facts, z, p, program, .. } = self;
        let mut out = vec![0; session_bytes(*k, program.len() / 4)];
        known(write_session(&mut out, *k, *facts, z, p, program));
        out
    }

    /// The line of the step at `position` that has just given this answer; it ends in a newline.
    ///
    /// # Errors
    ///
    /// [`Refusal::End`]; [`Refusal::Unknown`] and [`Refusal::Undefined`] where the answer is
    /// done and the word is not accepted.
    pub fn line(&self, position: usize, answer: Result<(), Refusal>) -> Result<String, Refusal> {
        let mut out = [0; LONGEST_LINE];
        let Machine { k, facts, z, p, program, .. } = self;
        let length = write_line(&mut out, *k, *facts, z, p, program, position, answer)?;
        Ok(String::from_utf8_lossy(&out[..length]).into_owned())
    }

    /// Steps to the end of the program or to the first refusal, and gives the lines of these steps.
    /// At the end the position is the number of words; else the last line is the refusal's.
    pub fn walk(&mut self) -> String {
        let mut lines = String::new();
        loop {
            let position = self.position();
            let answer = self.step();
            match self.line(position, answer) {
                Ok(line) => lines += &line,
                // There is no word at this position.
                Err(_) => return lines,
            }
            if answer.is_err() {
                return lines;
            }
        }
    }
}
