//! What is known of a core.

use std::fmt;
use std::str::FromStr;

/// The names of the facts, in the order of their bits.
const NAMES: [&str; 5] = ["sve", "sve2", "sve2p1", "sme", "sme2p1"];

/// What stands for no fact at all.
const NONE: &str = "none";

/// The facts about a core that decide which words it has. None implies another; a row needs
///
/// | rows | one of |
/// |---|---|
/// | saddv, uaddv, ptrue, pfalse | `sve`, `sme` |
/// | addqv | `sve2p1`, `sme2p1` |
/// | saddlv, uaddlv | nothing |
/// | all others | `sve2`, `sme` |
///
/// A word whose row needs what the facts lack is [`Refusal::Undefined`](crate::Refusal::Undefined). The
/// constants are cores that there are; every other set can be written field by field, or read from a text
/// such as `sve sve2`, which is also how facts are shown. The default is [`Facts::NONE`].
///
#[doc = concat!("```\n", include_str!("../examples/cores.rs"), "```")]
#[derive(Clone, Copy, Debug, Default, PartialEq, Eq, Hash)]
pub struct Facts {
    /// The Scalable Vector Extension, SVE.
    pub sve: bool,
    /// Its second version, SVE2.
    pub sve2: bool,
    /// SVE2.1.
    pub sve2p1: bool,
    /// The Scalable Matrix Extension, SME.
    pub sme: bool,
    /// SME2.1.
    pub sme2p1: bool,
}

impl Facts {
    /// None of the five: saddlv and uaddlv alone are accepted.
    pub const NONE: Facts =
        Facts { sve: false, sve2: false, sve2p1: false, sme: false, sme2p1: false };
    /// All five: every word of the table is accepted.
    pub const ALL: Facts = Facts { sve: true, sve2: true, sve2p1: true, sme: true, sme2p1: true };
    /// SVE alone, as the first cores with SVE.
    pub const SVE: Facts = Facts { sve: true, ..Facts::NONE };
    /// SVE and SVE2: a core with SVE2.
    pub const SVE2: Facts = Facts { sve2: true, ..Facts::SVE };
    /// SVE, SVE2 and SVE2.1: a core with SVE2.1.
    pub const SVE2P1: Facts = Facts { sve2p1: true, ..Facts::SVE2 };
    /// SME, and no SVE outside of streaming mode: a core with SME only.
    pub const SME_ONLY: Facts = Facts { sme: true, ..Facts::NONE };
    /// SME and SME2.1, and no SVE outside of streaming mode.
    pub const SME2P1: Facts = Facts { sme2p1: true, ..Facts::SME_ONLY };

    /// The byte of these facts, as the boundary and a session have it: bits 0 to 4 in the order of the
    /// fields.
    #[inline]
    pub const fn byte(self) -> u8 {
        self.sve as u8
            | (self.sve2 as u8) << 1
            | (self.sve2p1 as u8) << 2
            | (self.sme as u8) << 3
            | (self.sme2p1 as u8) << 4
    }

    /// The facts of a byte. Its bits 5, 6 and 7 do not matter; [`read_session`](crate::read_session)
    /// refuses them, and this does not.
    #[inline]
    pub const fn from_byte(byte: u8) -> Facts {
        Facts {
            sve: byte & 1 != 0,
            sve2: byte & 2 != 0,
            sve2p1: byte & 4 != 0,
            sme: byte & 8 != 0,
            sme2p1: byte & 16 != 0,
        }
    }
}

impl fmt::Display for Facts {
    /// The names, one space apart, or `none`.
    fn fmt(&self, formatter: &mut fmt::Formatter<'_>) -> fmt::Result {
        if *self == Facts::NONE {
            return formatter.write_str(NONE);
        }
        let names = (0..).zip(NAMES).filter(|(bit, _)| self.byte() >> bit & 1 == 1);
        let names: Vec<&str> = names.map(|(_, name)| name).collect();
        formatter.write_str(&names.join(" "))
    }
}

impl FromStr for Facts {
    type Err = NoFact;

    /// Reads names with white space or commas between them, in any order and letter case, or `none`.
    ///
    /// # Errors
    ///
    /// [`NoFact`], with the first name that is none of the five.
    fn from_str(text: &str) -> Result<Facts, NoFact> {
        if text.trim().eq_ignore_ascii_case(NONE) {
            return Ok(Facts::NONE);
        }
        let names = text.split(|c: char| c.is_whitespace() || c == ',').filter(|n| !n.is_empty());
        let mut byte = 0;
        for name in names {
            let bit = NAMES.iter().position(|known| name.eq_ignore_ascii_case(known));
            byte |= 1 << bit.ok_or_else(|| NoFact(name.to_string()))?;
        }
        Ok(Facts::from_byte(byte))
    }
}

/// A name that is no fact.
#[derive(Clone, Debug, PartialEq, Eq)]
pub struct NoFact(pub String);

impl fmt::Display for NoFact {
    fn fmt(&self, formatter: &mut fmt::Formatter<'_>) -> fmt::Result {
        write!(formatter, "{:?} is no fact: they are {}", self.0, NAMES.join(", "))
    }
}

impl std::error::Error for NoFact {}
