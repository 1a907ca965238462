//! Words: their fields, their texts and what they lack.

use crate::refusal::known;
use crate::{
    boundary, Facts, Pattern, Predicate, Refusal, Register, Row, Size, Vector, LEAST_TEXT_OUT,
};
use std::fmt;

/// The row and the fields of a word.
#[derive(Clone, Copy, Debug, PartialEq, Eq)]
pub struct Fields {
    /// The row of the table of words.
    pub row: Row,
    /// Bits 23:22.
    pub size: Size,
    /// Bits 9:5, the source, if the row has one.
    pub n: Option<Vector>,
    /// Bits 4:0, the destination: a vector register, or for ptrue and pfalse a predicate register, bits 3:0.
    pub d: Register,
    /// Bits 12:10, the governing predicate, if the row has one.
    pub g: Option<Predicate>,
    /// Bits 20:16, the second source, if the row has one.
    pub m: Option<Vector>,
    /// Bit 30, if the row has it: whether 16 bytes of the source are read, and not 8.
    pub q: Option<bool>,
    /// Bits 9:5 of ptrue: which lanes it makes active.
    pub pattern: Option<Pattern>,
}

/// The row and the fields of a word, on a core with these facts.
///
/// # Errors
///
/// [`Refusal::Unknown`], [`Refusal::Undefined`]; [`lacking`] tells the two causes of the second apart.
///
#[doc = concat!("# Examples\n\n```\n", include_str!("../examples/words.rs"), "```")]
#[inline]
pub fn decode(word: u32, facts: Facts) -> Result<Fields, Refusal> {
    let fields = unsafe { boundary::ln_decode(word, facts.byte()) };
    Refusal::check(fields.number)?;
    let row = known(Row::try_from(fields.row as usize));
    let about = row.about();
    let vector = |number: u64| known(Vector::try_from(number as usize));
    let predicate = |number: u64| known(Predicate::try_from(number as usize));
    let d = match about.writes_predicate {
        true => predicate(fields.d).into(),
        false => vector(fields.d).into(),
    };
    Ok(Fields {
        row,
        size: known(Size::try_from(fields.size as usize)),
        n: about.has_n.then(|| vector(fields.n)),
        d,
        g: about.has_g.then(|| predicate(fields.g)),
        m: about.has_m.then(|| vector(fields.m)),
        q: about.has_q.then_some(fields.q != 0),
        pattern: about.has_pattern.then(|| known(Pattern::try_from(fields.pattern as usize))),
    })
}

/// The facts of which one would be enough for this word, where these facts lack it; none where they accept it,
/// and where no core accepts it.
///
/// A word that is [`Refusal::Undefined`] lacks a fact if this tells some, else its size is not allowed.
///
/// ```
/// use ghishmadul::{decode, lacking, Facts, Refusal};
///
/// // saddlb z3.h, z1.b, z1.b on a core with SVE alone; and at size 0, which no core has.
/// let (word, no_word) = (0x4541_0023, 0x4501_0023);
/// assert_eq!(decode(word, Facts::SVE), Err(Refusal::Undefined));
/// assert_eq!(lacking(word, Facts::SVE).map(|need| need.to_string()), Some("sve2 sme".to_string()));
/// assert_eq!(lacking(word, Facts::SVE2), None);
/// assert_eq!(decode(no_word, Facts::SVE), Err(Refusal::Undefined));
/// assert_eq!(lacking(no_word, Facts::SVE), None);
/// ```
pub fn lacking(word: u32, facts: Facts) -> Option<Facts> {
    let about = decode(word, Facts::ALL).ok()?.row.about();
    (!about.is_met_by(facts)).then_some(about.need)
}

/// Writes a word's text to the start of `out` and answers its length; the bytes past it stay. The example is
/// [`decode`]'s.
///
/// # Errors
///
/// [`Refusal::Out`] where `out` has under 32 bytes, then [`Refusal::Unknown`] and [`Refusal::Undefined`].
#[inline]
pub fn text(word: u32, facts: Facts, out: &mut [u8]) -> Result<usize, Refusal> {
    let answer = unsafe { boundary::ln_text(word, facts.byte(), out.as_mut_ptr(), out.len()) };
    Refusal::check(answer.number)?;
    Ok(answer.value as usize)
}

/// A word's text. The example is [`decode`]'s.
///
/// # Errors
///
/// [`Refusal::Unknown`], [`Refusal::Undefined`].
pub fn text_of(word: u32, facts: Facts) -> Result<String, Refusal> {
    let mut out = [0; LEAST_TEXT_OUT];
    let length = text(word, facts, &mut out)?;
    Ok(String::from_utf8_lossy(&out[..length]).into_owned())
}

/// The word that has this text, exactly as [`text`] writes it: another space, letter case or number
/// with leading zeros is refused. The example is [`decode`]'s.
///
/// # Errors
///
/// [`NotAssembled`], which tells a text that no word has from one whose word these facts do not accept. Both
/// are [`Refusal::Text`], which `?` makes of it.
#[inline]
pub fn assemble(text: impl AsRef<[u8]>, facts: Facts) -> Result<u32, NotAssembled> {
    let text = text.as_ref();
    assembled(text, facts).map_err(|_| not_assembled(text))
}

fn assembled(text: &[u8], facts: Facts) -> Result<u32, Refusal> {
    let answer = unsafe { boundary::ln_assemble(text.as_ptr(), text.len(), facts.byte()) };
    Refusal::check(answer.number)?;
    Ok(answer.value as u32)
}

#[cold]
fn not_assembled(text: &[u8]) -> NotAssembled {
    let word = match assembled(text, Facts::ALL) {
        Ok(word) => word,
        Err(_) => return NotAssembled::NoWord,
    };
    let need = known(decode(word, Facts::ALL)).row.about().need;
    NotAssembled::Lacking { word, need }
}

/// Why a text has no word on a core.
#[derive(Clone, Copy, Debug, PartialEq, Eq)]
pub enum NotAssembled {
    /// No word has the text, whatever the core is.
    NoWord,
    /// A word has the text, and the core lacks it.
    Lacking {
        /// The word.
        word: u32,
        /// The facts of which one is enough for it.
        need: Facts,
    },
}

impl fmt::Display for NotAssembled {
    fn fmt(&self, formatter: &mut fmt::Formatter<'_>) -> fmt::Result {
        match self {
            NotAssembled::NoWord => write!(formatter, "no word has this text"),
            NotAssembled::Lacking { word, need } => {
                write!(formatter, "the word {:08x} has this text, and needs one of: {}", word, need)
            }
        }
    }
}

impl std::error::Error for NotAssembled {}

impl From<NotAssembled> for Refusal {
    fn from(_: NotAssembled) -> Refusal {
        Refusal::Text
    }
}
