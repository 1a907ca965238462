//! Safe Rust over the proved engine of a vector-code viewer: it decodes, names, assembles, executes
//! and un-executes twenty-three of Arm's A64 adding and subtracting instructions, and two that make a
//! predicate.
//!
//! A [`Machine`] owns the registers, a program and the journal that steps back need; most programs
//! want that. The functions beside it are the engine's calls over slices of the caller's.
//!
#![doc = concat!("```\n", include_str!("../examples/first.rs"), "```")]
//!
//! Nothing has to be checked before a call: every call ends for every input, with its answer or with a
//! [`Refusal`], and a refusal changes no byte that was lent. Rows, sizes, registers,
//! patterns and the versions of a journal are types: [`Row`], [`Size`], [`Vector`], [`Predicate`], [`Pattern`],
//! [`JournalVersion`].
//!
//! A length `k` is one of [`LENGTHS`]: 1, 2, 4, 8 or 16. Every other is refused: Arm's manual has powers
//! of two alone, so a layout at another length would fit no chip. The vector file `z` has `512 * k`
//! bytes, 32 registers of `16 * k`; the predicate file `p` has `32 * k` bytes, 16 registers of `2 * k`.
//! Lanes have 1, 2, 4 or 8 bytes. Lane 0 is the least significant and bytes are little-endian everywhere. A
//! lane of `w` bytes with number `e` is active exactly when bit `e * w` of its predicate is set, counted from
//! bit 0 of the first byte; the other bits do not matter. A program is whole 32-bit words, at most 256 of
//! them. The position is the number of steps that were made and not taken back, and so the number of the
//! next word. `include/ln.h` has the layouts of journals and sessions.
//!
//! Which words are accepted depends on the core: its [`Facts`] are given to the calls that decode. A word
//! that the facts do not accept is [`Refusal::Undefined`], and its text [`Refusal::Text`].

#![deny(missing_docs)]

pub mod boundary;
mod facts;
mod journal;
mod machine;
mod pane;
mod patterns;
mod refusal;
mod registers;
mod rows;
mod session;
mod words;

pub use facts::{Facts, NoFact};
pub use journal::{back, fresh, position, read_entry, step, Entry, JournalVersion};
pub use machine::Machine;
pub use pane::{
    lanes, panel, panel_rows, put_active, put_lane, read_lane, register, register_place, subtotal,
    Lane, Lanes, Place,
};
pub use patterns::Pattern;
pub use refusal::Refusal;
pub use registers::{Kind, Predicate, Register, Size, Vector};
pub use rows::{About, Row, Widths};
pub use session::{read_session, read_word, write_line, write_session, Session, Word};
pub use words::{assemble, decode, lacking, text, text_of, Fields, NotAssembled};

/// The version of the library that this crate is for; [`version`] tells that of the one it was linked with.
pub const VERSION: u64 = 8;
/// The least length.
pub const LEAST_K: usize = 1;
/// The most length.
pub const MOST_K: usize = 16;
/// Every length that is accepted: the powers of two from the least to the most.
pub const LENGTHS: [usize; 5] = [LEAST_K, 2, 4, 8, MOST_K];
/// The number of vector registers.
pub const VECTOR_REGISTERS: usize = 32;
/// The number of predicate registers.
pub const PREDICATE_REGISTERS: usize = 16;
/// The most words of a program.
pub const MOST_WORDS: usize = 256;
/// The bytes of a journal before its entries, and the least of a whole journal.
pub const JOURNAL_HEADER_BYTES: usize = 8;
/// The most bytes of a journal.
pub const MOST_JOURNAL_BYTES: usize = 65_536;
/// The least bytes of an output for [`text`].
pub const LEAST_TEXT_OUT: usize = 32;
/// The bytes of the longest line, and the least of an output for [`write_line`].
pub const LONGEST_LINE: usize = 546;
/// The bytes of a panel.
pub const PANEL_BYTES: usize = 256;
/// The newest version of a session.
pub const SESSION_VERSION: usize = 2;
/// The version before it, which is read too: it has no facts and means all of them.
pub const FORMER_SESSION_VERSION: usize = 1;
/// The bytes of a session before its vector file.
pub const SESSION_HEADER_BYTES: usize = 9;
/// Those of a session of the former version.
pub const FORMER_SESSION_HEADER_BYTES: usize = 8;
/// The most bytes of stack that the library's step takes below its caller: measured, not proved.
/// What [`step`] itself adds is the compiler's.
pub const STEP_STACK: usize = 384;

/// The bytes of a vector register; a predicate register has an eighth as many.
///
/// This and the other sizes are for the [`LENGTHS`]. For a `k` that is too large for a number to tell,
/// they give the largest number.
pub const fn vector_bytes(k: usize) -> usize {
    k.saturating_mul(16)
}

/// The bytes of a predicate register.
pub const fn predicate_bytes(k: usize) -> usize {
    k.saturating_mul(2)
}

/// The bytes of the vector file.
pub const fn vector_file_bytes(k: usize) -> usize {
    vector_bytes(k).saturating_mul(VECTOR_REGISTERS)
}

/// The bytes of the predicate file.
pub const fn predicate_file_bytes(k: usize) -> usize {
    predicate_bytes(k).saturating_mul(PREDICATE_REGISTERS)
}

/// The bytes of a journal that has room for so many entries.
pub const fn journal_bytes(k: usize, entries: usize) -> usize {
    vector_bytes(k).saturating_add(1).saturating_mul(entries).saturating_add(JOURNAL_HEADER_BYTES)
}

/// How many lanes of a size a vector register has.
pub const fn lane_count(k: usize, size: Size) -> usize {
    vector_bytes(k) / size.bytes()
}

/// The bytes of a session of the newest version with so many words.
pub const fn session_bytes(k: usize, words: usize) -> usize {
    let files = vector_file_bytes(k).saturating_add(predicate_file_bytes(k));
    words.saturating_mul(4).saturating_add(files).saturating_add(SESSION_HEADER_BYTES)
}

/// The version of the library that the program was linked with: [`VERSION`], if it belongs to this crate.
pub fn version() -> u64 {
    unsafe { boundary::ln_version() }
}
