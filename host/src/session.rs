//! Programs and sessions read, sessions and lines written.

use crate::{
    boundary, predicate_file_bytes, session_bytes, vector_file_bytes, Facts, Refusal, LENGTHS,
    SESSION_VERSION,
};

/// A word of a program, and the place after it.
#[derive(Clone, Copy, Debug, PartialEq, Eq)]
pub struct Word {
    /// The word.
    pub word: u32,
    /// The place after it.
    pub at: usize,
}

/// The word with number `at` of a program, and the place after it. The example is [`read_session`]'s.
///
/// # Errors
///
/// [`Refusal::Program`], [`Refusal::End`].
#[inline]
pub fn read_word(program: &[u8], at: usize) -> Result<Word, Refusal> {
    let word = unsafe { boundary::ln_read_word(program.as_ptr(), program.len(), at) };
    Refusal::check(word.number)?;
    Ok(Word { word: word.word as u32, at: word.at as usize })
}

/// A session's length and number of words, where its parts start, and the facts of its core.
#[derive(Clone, Copy, Debug, PartialEq, Eq)]
pub struct Session {
    /// The length.
    pub k: usize,
    /// The number of words.
    pub count: usize,
    /// The first byte of the vector file.
    pub vectors: usize,
    /// The first byte of the predicate file.
    pub predicates: usize,
    /// The first byte of the words.
    pub program: usize,
    /// The facts; [`Facts::ALL`] for a session of the former version.
    pub facts: Facts,
}

/// Where the parts of a session stand, and its facts.
///
/// # Errors
///
/// [`Refusal::Session`] where mark, version, k, word count or total length is wrong, or where the facts have a
/// higher bit set.
///
#[doc = concat!("# Examples\n\n```\n", include_str!("../examples/session.rs"), "```")]
#[inline]
pub fn read_session(bytes: &[u8]) -> Result<Session, Refusal> {
    let session = unsafe { boundary::ln_read_session(bytes.as_ptr(), bytes.len()) };
    Refusal::check(session.number)?;
    Ok(Session {
        k: session.k as usize,
        count: session.count as usize,
        vectors: session.vectors as usize,
        predicates: session.predicates as usize,
        program: session.program as usize,
        facts: Facts::from_byte(session.facts as u8),
    })
}

/// Writes a session of the newest version at the front of `out`, and gives its length,
/// [`session_bytes`]; the bytes past it stay. This is plain code, not a proved call. The example is
/// [`read_session`]'s.
///
/// # Errors
///
/// [`Refusal::Length`], [`Refusal::File`], [`Refusal::Program`], [`Refusal::Out`] where `out` has fewer bytes
/// than the session.
pub fn write_session(
    out: &mut [u8],
    k: usize,
    facts: Facts,
    z: &[u8],
    p: &[u8],
    program: &[u8],
) -> Result<usize, Refusal> {
    if !LENGTHS.contains(&k) {
        return Err(Refusal::Length);
    }
    if z.len() != vector_file_bytes(k) || p.len() != predicate_file_bytes(k) {
        return Err(Refusal::File);
    }
    match read_word(program, 0) {
        Ok(_) | Err(Refusal::End) => {}
        Err(refusal) => return Err(refusal),
    }
    let words = program.len() / 4;
    let bytes = session_bytes(k, words);
    let out = out.get_mut(..bytes).ok_or(Refusal::Out)?;
    let [version, above] = (SESSION_VERSION as u16).to_le_bytes();
    let [low, high] = (words as u16).to_le_bytes();
    let header = [b'L', b'N', b'W', version, above, k as u8, low, high, facts.byte()];
    let mut rest = out;
    for part in [&header[..], z, p, program] {
        let (front, after) = rest.split_at_mut(part.len());
        front.copy_from_slice(part);
        rest = after;
    }
    Ok(bytes)
}

/// Writes the line of the step at `position`, which gave this answer and left these files, at the front of
/// `out`, and gives its length. The line ends in a newline; the bytes past it stay.
///
/// # Errors
///
/// [`Refusal::Length`], [`Refusal::File`], [`Refusal::Program`], [`Refusal::End`], [`Refusal::Out`] where
/// `out` has under [`LONGEST_LINE`](crate::LONGEST_LINE) bytes, [`Refusal::Unknown`] and
/// [`Refusal::Undefined`] where the answer is done and these facts do not accept the word.
#[allow(clippy::too_many_arguments)]
#[inline]
pub fn write_line(
    out: &mut [u8],
    k: usize,
    facts: Facts,
    z: &[u8],
    p: &[u8],
    program: &[u8],
    position: usize,
    answer: Result<(), Refusal>,
) -> Result<usize, Refusal> {
    let number = answer.err().map_or(0, Refusal::number);
    let answer = unsafe {
        boundary::ln_write_line(
            out.as_mut_ptr(),
            out.len(),
            k,
            facts.byte(),
            z.as_ptr(),
            z.len(),
            p.as_ptr(),
            p.len(),
            program.as_ptr(),
            program.len(),
            position,
            number,
        )
    };
    Refusal::check(answer.number)?;
    Ok(answer.value as usize)
}
