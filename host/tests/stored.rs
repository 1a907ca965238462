//! Journals that a library before version 8 wrote, of version 1: this one steps and takes back what they hold, and
//! finds the stored bytes again.
//!
//! For k = 1 and k = 2 the folder `stored` has a session with a word of each of the first 23 rows, and the journal and
//! the vector file that stood after eleven of its steps (half) and after all of them (whole). Library and reference
//! wrote the same bytes then.

use ghishmadul::{Facts, JournalVersion, Refusal};
use std::cmp::Ordering;

/// How many words the sessions have, and after how many the half stands.
const WORDS: usize = 23;
const HALF: usize = 11;

/// What stood at a time: the journal and the vector file.
type Then<'a> = (&'a [u8], &'a [u8]);

/// What was stored of a length.
struct Stored {
    session: &'static [u8],
    half: Then<'static>,
    whole: Then<'static>,
}

macro_rules! stored {
    ($name:literal) => {
        Stored {
            session: include_bytes!(concat!("stored/", $name, ".session")),
            half: (
                include_bytes!(concat!("stored/", $name, ".half.journal")),
                include_bytes!(concat!("stored/", $name, ".half.vectors")),
            ),
            whole: (
                include_bytes!(concat!("stored/", $name, ".whole.journal")),
                include_bytes!(concat!("stored/", $name, ".whole.vectors")),
            ),
        }
    };
}

const STORED: [Stored; 2] = [stored!("k1"), stored!("k2")];

type Step = fn(usize, Facts, &mut [u8], &mut [u8], &[u8], &mut [u8]) -> Result<(), Refusal>;
type Back = fn(usize, &mut [u8], &mut [u8], &mut [u8]) -> Result<(), Refusal>;

/// A machine of a stored session with a journal that is not its own.
struct Moved {
    k: usize,
    z: Vec<u8>,
    p: Vec<u8>,
    program: Vec<u8>,
    journal: Vec<u8>,
    step: Step,
    back: Back,
}

impl Moved {
    /// Moves to a position, by steps or by steps back.
    fn go(&mut self, position: usize) {
        let Moved { k, z, p, program, journal, step, back } = self;
        loop {
            let answer = match ghishmadul::position(*k, journal).expect("a journal").cmp(&position)
            {
                Ordering::Less => step(*k, Facts::ALL, z, p, program, journal),
                Ordering::Equal => return,
                Ordering::Greater => back(*k, z, p, journal),
            };
            assert_eq!(answer, Ok(()));
        }
    }

    /// The journal and the vector file are those that stood then, and the predicate file is what it was.
    fn stands(&self, (journal, vectors): Then<'_>, predicates: &[u8]) {
        assert!(self.journal == journal, "the journal at k = {}", self.k);
        assert!(self.z == vectors, "the vector file at k = {}", self.k);
        assert!(self.p == predicates, "the predicate file at k = {}", self.k);
    }
}

fn moves_find_the_stored_bytes(step: Step, back: Back) {
    for Stored { session, half, whole } in STORED {
        let parts = reference::read_session(session).expect("a session");
        let part = |from: usize, to: usize| &session[from..to];
        let vectors = part(parts.vectors, parts.predicates);
        let predicates = part(parts.predicates, parts.program);
        let mut fresh = vec![0xEE; half.0.len()];
        let former = JournalVersion::Former;
        assert_eq!(ghishmadul::fresh(parts.k, former, &mut fresh), Ok(()));

        // From where the older library stopped: to the end, back to the start, and to where it stopped.
        let mut moved = Moved {
            k: parts.k,
            z: half.1.to_vec(),
            p: predicates.to_vec(),
            program: session[parts.program..].to_vec(),
            journal: half.0.to_vec(),
            step,
            back,
        };
        moved.go(WORDS);
        moved.stands(whole, predicates);
        moved.go(0);
        moved.stands((&fresh, vectors), predicates);
        moved.go(HALF);
        moved.stands(half, predicates);
        moved.go(WORDS);
        moved.stands(whole, predicates);
        moved.go(HALF);
        moved.stands(half, predicates);
    }
}

#[test]
fn the_engine_moves_over_stored_journals() {
    moves_find_the_stored_bytes(ghishmadul::step, ghishmadul::back);
}

#[test]
fn the_reference_moves_over_stored_journals() {
    moves_find_the_stored_bytes(reference::step, reference::back);
}

/// The stored journals are of the former version, and what stands in them is told.
#[test]
fn the_stored_entries_are_told() {
    for Stored { whole: (journal, _), session, .. } in STORED {
        let k = usize::from(session[5]);
        assert_eq!(&journal[..8], [b'L', b'N', b'J', 1, 0, k as u8, WORDS as u8, 0]);
        assert_eq!(ghishmadul::position(k, journal), Ok(WORDS));
        for index in 0..WORDS {
            let entry = ghishmadul::read_entry(k, journal, index).expect("an entry");
            let place = 8 + index * (1 + 16 * k);
            assert_eq!((entry.start, entry.old.len()), (place + 1, 16 * k));
            assert_eq!(entry.target.to_string(), format!("z{}", journal[place]));
        }
    }
}
