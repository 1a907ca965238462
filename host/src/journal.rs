//! Steps forward and back over slices, and what a journal holds.

use crate::refusal::known;
use crate::{boundary, Facts, Refusal, Register};

/// The version of a journal: which registers its entries can be of. Every call but [`fresh`] reads it in the
/// journal itself.
///
/// Later versions of the crate may have more, so a `match` needs an arm for the others.
///
/// ```
/// use ghishmadul::{JournalVersion, Refusal};
///
/// assert_eq!(JournalVersion::default(), JournalVersion::Current);
/// assert_eq!(JournalVersion::try_from(1), Ok(JournalVersion::Former));
/// assert_eq!(JournalVersion::try_from(3), Err(Refusal::Journal));
/// assert_eq!(JournalVersion::Current.number(), 2);
/// ```
#[derive(Clone, Copy, Debug, Default, PartialEq, Eq, PartialOrd, Ord, Hash)]
#[non_exhaustive]
pub enum JournalVersion {
    /// Version 1: entries of vectors alone. A library before version 8 reads and writes no other; in it a step
    /// that writes a predicate register is [`Refusal::Journal`].
    Former,
    /// Version 2: entries of vectors and of predicates.
    #[default]
    Current,
}

impl JournalVersion {
    /// Every version, the oldest first.
    pub const ALL: &'static [JournalVersion] = &[JournalVersion::Former, JournalVersion::Current];

    /// The version's number, as a journal has it: 1 or 2.
    pub const fn number(self) -> u64 {
        match self {
            JournalVersion::Former => 1,
            JournalVersion::Current => 2,
        }
    }
}

impl TryFrom<u64> for JournalVersion {
    type Error = Refusal;

    /// # Errors
    ///
    /// [`Refusal::Journal`] where there is no version with this number.
    fn try_from(number: u64) -> Result<JournalVersion, Refusal> {
        let version = JournalVersion::ALL.iter().find(|version| version.number() == number);
        version.copied().ok_or(Refusal::Journal)
    }
}

/// Writes a fresh journal of a version, whatever the bytes were. The example is [`step`]'s.
///
/// # Errors
///
/// [`Refusal::Length`], [`Refusal::Room`].
#[inline]
pub fn fresh(k: usize, version: JournalVersion, journal: &mut [u8]) -> Result<(), Refusal> {
    let version = version.number();
    Refusal::check(unsafe { boundary::ln_fresh(k, version, journal.as_mut_ptr(), journal.len()) })
}

/// Executes the word at the journal's position, and appends the destination's old bytes to the journal. The
/// destination is a vector register, or a predicate register for ptrue and pfalse.
/// The facts should be those of the journal's other steps; a [`Machine`](crate::Machine) has one set of
/// facts for all.
///
/// # Errors
///
/// [`Refusal::Length`], [`Refusal::File`], [`Refusal::Program`], [`Refusal::Room`], [`Refusal::Journal`],
/// [`Refusal::End`], [`Refusal::Unknown`], [`Refusal::Undefined`]; [`Refusal::Journal`] again where the word
/// writes a predicate register and the journal is of the former version, which [`position`] tells from the other
/// cause; [`Refusal::Full`].
///
#[doc = concat!("# Examples\n\n```\n", include_str!("../examples/moves.rs"), "```")]
#[inline]
pub fn step(
    k: usize,
    facts: Facts,
    z: &mut [u8],
    p: &mut [u8],
    program: &[u8],
    journal: &mut [u8],
) -> Result<(), Refusal> {
    Refusal::check(unsafe {
        boundary::ln_step(
            k,
            facts.byte(),
            z.as_mut_ptr(),
            z.len(),
            p.as_mut_ptr(),
            p.len(),
            program.as_ptr(),
            program.len(),
            journal.as_mut_ptr(),
            journal.len(),
        )
    })
}

/// Takes the last step back: the register that it wrote, of either kind, is restored. It needs no facts. The
/// example is [`step`]'s.
///
/// # Errors
///
/// [`Refusal::Length`], [`Refusal::File`], [`Refusal::Room`], [`Refusal::Journal`], [`Refusal::Empty`].
#[inline]
pub fn back(k: usize, z: &mut [u8], p: &mut [u8], journal: &mut [u8]) -> Result<(), Refusal> {
    Refusal::check(unsafe {
        boundary::ln_back(
            k,
            z.as_mut_ptr(),
            z.len(),
            p.as_mut_ptr(),
            p.len(),
            journal.as_mut_ptr(),
            journal.len(),
        )
    })
}

/// The journal's position: how many steps were made and not taken back, and so the number of the word
/// that the next step executes. The example is [`step`]'s.
///
/// # Errors
///
/// [`Refusal::Length`], [`Refusal::Room`], [`Refusal::Journal`].
#[inline]
pub fn position(k: usize, journal: &[u8]) -> Result<usize, Refusal> {
    let answer = unsafe { boundary::ln_position(k, journal.as_ptr(), journal.len()) };
    Refusal::check(answer.number)?;
    Ok(answer.value as usize)
}

/// An entry of a journal: a register, and what it held before the entry's step.
#[derive(Clone, Copy, Debug, PartialEq, Eq)]
pub struct Entry<'a> {
    /// The register that the step wrote.
    pub target: Register,
    /// Where in the journal its old bytes start.
    pub start: usize,
    /// Its old bytes, the part of the journal that holds them: as many as the register has. The zeros after a
    /// predicate's are left out.
    pub old: &'a [u8],
}

/// The entry with this number, 0 being the oldest that the journal holds; the newest is what a step back
/// restores. The example is [`step`]'s.
///
/// # Errors
///
/// [`Refusal::Length`], [`Refusal::Room`], [`Refusal::Journal`], [`Refusal::Range`] where the number is not
/// below that of the entries held.
#[inline]
pub fn read_entry(k: usize, journal: &[u8], index: usize) -> Result<Entry<'_>, Refusal> {
    let entry = unsafe { boundary::ln_read_entry(k, journal.as_ptr(), journal.len(), index) };
    Refusal::check(entry.number)?;
    let (start, bytes) = (entry.start as usize, entry.bytes as usize);
    Ok(Entry {
        target: known(Register::of_entry(entry.target as usize)),
        start,
        old: &journal[start..start + bytes],
    })
}
