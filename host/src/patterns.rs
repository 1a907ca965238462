//! The patterns of ptrue, by their names.

use crate::Refusal;
use std::fmt;

/// The patterns in the order of their numbers: what is said of each, its variant and its name.
macro_rules! patterns {
    ($(#[$about:meta])* Pattern; $($(#[$does:meta])* $pattern:ident $name:literal,)*) => {
        $(#[$about])*
        #[derive(Clone, Copy, Debug, PartialEq, Eq, PartialOrd, Ord, Hash)]
        pub enum Pattern {
            $($(#[$does])* $pattern,)*
        }

        impl Pattern {
            /// Every pattern, in the order of the numbers.
            pub const EVERY: [Pattern; 32] = [$(Pattern::$pattern),*];

            /// The pattern as a word's text has it: `vl16`, or `#14` where it has no name.
            pub const fn name(self) -> &'static str {
                match self {
                    $(Pattern::$pattern => $name,)*
                }
            }
        }
    };
}

patterns! {
    /// A pattern of ptrue: how many lanes it makes active, from lane 0 on.
    ///
    /// ```
    /// use ghishmadul::{lane_count, Pattern, Refusal, Size};
    ///
    /// // A vector of 32 bytes has sixteen lanes of two bytes.
    /// let count = lane_count(2, Size::H);
    /// assert_eq!((Pattern::Vl16.lanes(count), Pattern::Vl32.lanes(count)), (16, 0));
    /// assert_eq!((Pattern::Mul3.lanes(count), Pattern::All.lanes(count)), (15, 16));
    /// assert_eq!((Pattern::Vl16.number(), Pattern::Vl16.name()), (9, "vl16"));
    /// assert_eq!(Pattern::try_from(14).map(|pattern| pattern.to_string()), Ok("#14".to_string()));
    /// assert_eq!(Pattern::try_from(32), Err(Refusal::Range));
    /// ```
    ///
    /// A kernel that makes its predicates itself:
    ///
    #[doc = concat!("```\n", include_str!("../examples/kernel.rs"), "```")]
    Pattern;

    /// As many lanes as the largest power of two that is not above their count.
    Pow2 "pow2",
    /// One lane.
    Vl1 "vl1",
    /// Two lanes.
    Vl2 "vl2",
    /// Three lanes.
    Vl3 "vl3",
    /// Four lanes.
    Vl4 "vl4",
    /// Five lanes.
    Vl5 "vl5",
    /// Six lanes.
    Vl6 "vl6",
    /// Seven lanes.
    Vl7 "vl7",
    /// Eight lanes.
    Vl8 "vl8",
    /// Sixteen lanes.
    Vl16 "vl16",
    /// 32 lanes.
    Vl32 "vl32",
    /// 64 lanes.
    Vl64 "vl64",
    /// 128 lanes.
    Vl128 "vl128",
    /// 256 lanes.
    Vl256 "vl256",
    /// No lane; it has no name.
    Unnamed14 "#14",
    /// No lane; it has no name.
    Unnamed15 "#15",
    /// No lane; it has no name.
    Unnamed16 "#16",
    /// No lane; it has no name.
    Unnamed17 "#17",
    /// No lane; it has no name.
    Unnamed18 "#18",
    /// No lane; it has no name.
    Unnamed19 "#19",
    /// No lane; it has no name.
    Unnamed20 "#20",
    /// No lane; it has no name.
    Unnamed21 "#21",
    /// No lane; it has no name.
    Unnamed22 "#22",
    /// No lane; it has no name.
    Unnamed23 "#23",
    /// No lane; it has no name.
    Unnamed24 "#24",
    /// No lane; it has no name.
    Unnamed25 "#25",
    /// No lane; it has no name.
    Unnamed26 "#26",
    /// No lane; it has no name.
    Unnamed27 "#27",
    /// No lane; it has no name.
    Unnamed28 "#28",
    /// The largest multiple of four that is not above the count.
    Mul4 "mul4",
    /// The largest multiple of three that is not above the count.
    Mul3 "mul3",
    /// Every lane.
    All "all",
}

impl Pattern {
    /// The pattern's number, as bits 9:5 of a word have it: 0 to 31.
    pub const fn number(self) -> usize {
        self as usize
    }

    /// How many of so many lanes it makes active; a fixed number above the count makes none active. This is
    /// plain code, not a proved call.
    pub const fn lanes(self, count: usize) -> usize {
        let fixed = match self.number() {
            0 => {
                return if count == 0 { 0 } else { 1 << (usize::BITS - 1 - count.leading_zeros()) }
            }
            number @ 1..=8 => number,
            number @ 9..=13 => 16 << (number - 9),
            29 => return count - count % 4,
            30 => return count - count % 3,
            31 => return count,
            _ => 0,
        };
        if fixed <= count {
            fixed
        } else {
            0
        }
    }
}

impl TryFrom<usize> for Pattern {
    type Error = Refusal;

    /// # Errors
    ///
    /// [`Refusal::Range`] where the number is over 31.
    fn try_from(number: usize) -> Result<Pattern, Refusal> {
        Pattern::EVERY.get(number).copied().ok_or(Refusal::Range)
    }
}

impl fmt::Display for Pattern {
    fn fmt(&self, formatter: &mut fmt::Formatter<'_>) -> fmt::Result {
        formatter.write_str(self.name())
    }
}
