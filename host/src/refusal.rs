//! The refusals and their numbers.

use std::fmt;

/// Why a call did nothing. Refusals are tested in the order of their numbers, except that
/// [`Refusal::Out`] is tested before [`Refusal::Unknown`], and that a step's [`Refusal::Journal`] comes once more
/// before [`Refusal::Full`], where it writes a predicate register and the journal is of the former version.
///
/// Later versions may have more, so a `match` needs an arm for the others.
///
/// ```
/// use ghishmadul::{fresh, JournalVersion, Refusal};
///
/// let refusal = fresh(3, JournalVersion::Current, &mut [0; 8]).unwrap_err();
/// assert_eq!(refusal, Refusal::Length);
/// assert_eq!((refusal.number(), refusal.name()), (1, "LENGTH"));
/// assert_eq!(refusal.sentence(), "the length is not 1, 2, 4, 8 or 16");
/// ```
#[derive(Clone, Copy, Debug, PartialEq, Eq, Hash)]
#[non_exhaustive]
pub enum Refusal {
    /// 1: k is not 1, 2, 4, 8 or 16.
    Length,
    /// 2: the vector file has not 512k bytes, or the predicate file not 32k.
    File,
    /// 3: the program is not whole words, or over 256 of them.
    Program,
    /// 4: the journal has under 8 or over 65,536 bytes.
    Room,
    /// 5: the journal is not well formed, or of a version that has no entry for the step; or a fresh one was told
    /// a version that there is not.
    ///
    /// Which of the first two a [`step`](crate::step) has, [`position`](crate::position) tells. If that is `Ok`, the
    /// journal is well formed: the word writes a predicate register, and the journal is of version 1, which has no
    /// number for one. The journal is good, and should be kept: its steps can be taken back.
    Journal,
    /// 6: the place is not below the number of words.
    End,
    /// 7: no row of the table matches the word.
    Unknown,
    /// 8: a row matches; its size is not allowed, or the facts lack what it needs. Which of the two,
    /// [`lacking`](crate::lacking) tells.
    Undefined,
    /// 9: no further entry fits into the journal.
    Full,
    /// 10: back with count 0.
    Empty,
    /// 11: the output is too short.
    Out,
    /// 12: not one of the accepted texts, or one whose word the facts do not accept.
    Text,
    /// 13: a register, predicate, size, lane, range of lanes, entry or row that is not there.
    Range,
    /// 14: not a session.
    Session,
    /// A number that this crate does not know; it is here so that reading an answer cannot fail.
    Unlisted(u64),
}

use Refusal::*;

impl Refusal {
    /// Every refusal with a name, in the order of the numbers.
    pub const ALL: &'static [Refusal] = &[
        Length, File, Program, Room, Journal, End, Unknown, Undefined, Full, Empty, Out, Text,
        Range, Session,
    ];

    /// The number, the name and a sentence.
    fn said(self) -> (u64, &'static str, &'static str) {
        match self {
            Length => (1, "LENGTH", "the length is not 1, 2, 4, 8 or 16"),
            File => {
                (2, "FILE", "the vector file has not 512k bytes, or the predicate file not 32k")
            }
            Program => (3, "PROGRAM", "the program is not whole words, or has over 256 of them"),
            Room => (4, "ROOM", "the journal has under 8 or over 65,536 bytes"),
            Journal => (5, "JOURNAL", "the journal is not well formed, or its version is not one that can do this"),
            End => (6, "END", "the program has no word at this place"),
            Unknown => (7, "UNKNOWN", "no row of the table matches the word"),
            Undefined => (
                8,
                "UNDEFINED",
                "a row matches the word, but the size is not allowed or the facts lack what the row needs",
            ),
            Full => (9, "FULL", "no further entry fits into the journal"),
            Empty => (10, "EMPTY", "the journal holds no step to take back"),
            Out => (11, "OUT", "the output is too short"),
            Text => (12, "TEXT", "no word that these facts accept has this text"),
            Range => (
                13,
                "RANGE",
                "there is no such register, predicate, size, lane, range of lanes, entry or row",
            ),
            Session => (14, "SESSION", "the bytes are not a session"),
            Unlisted(number) => (number, "no answer number", "no answer has this number"),
        }
    }

    /// The refusal's number.
    pub fn number(self) -> u64 {
        self.said().0
    }

    /// The refusal's name, as `include/ln.h` has it: `"LENGTH"` and so on.
    pub fn name(self) -> &'static str {
        self.said().1
    }

    /// What the refusal says, in a sentence.
    pub fn sentence(self) -> &'static str {
        self.said().2
    }

    /// Done for 0, else the refusal with this number.
    ///
    /// # Errors
    ///
    /// The refusal.
    #[inline]
    pub fn check(number: u64) -> Result<(), Refusal> {
        if number == 0 {
            Ok(())
        } else {
            Err(Refusal::with_number(number))
        }
    }

    #[cold]
    fn with_number(number: u64) -> Refusal {
        let listed = Refusal::ALL.iter().find(|refusal| refusal.number() == number);
        listed.copied().unwrap_or(Unlisted(number))
    }
}

impl fmt::Display for Refusal {
    fn fmt(&self, formatter: &mut fmt::Formatter<'_>) -> fmt::Result {
        write!(formatter, "{} (refusal {})", self.sentence(), self.number())
    }
}

impl std::error::Error for Refusal {}

/// What is always so of a library of this crate's version.
pub(crate) fn known<T>(answer: Result<T, Refusal>) -> T {
    answer.expect("the library should be of this crate's version")
}
