//! The rows of the table of words, and what each is.

use crate::refusal::known;
use crate::{boundary, Facts, Refusal, Size};
use std::fmt;

/// The rows in the table's order: what is said of each, its variant and its name.
macro_rules! rows {
    ($(#[$about:meta])* Row; $($(#[$does:meta])* $row:ident $name:literal,)*) => {
        $(#[$about])*
        #[derive(Clone, Copy, Debug, PartialEq, Eq, PartialOrd, Ord, Hash)]
        #[non_exhaustive]
        pub enum Row {
            $($(#[$does])* $row,)*
        }

        impl Row {
            /// Every row, in the table's order.
            pub const ALL: &'static [Row] = &[$(Row::$row),*];

            /// The row's name, as a word's text begins with it.
            pub const fn name(self) -> &'static str {
                match self {
                    $(Row::$row => $name,)*
                }
            }
        }
    };
}

rows! {
    /// A row of the table of words, by the name of its instruction: s is signed, u unsigned.
    ///
    /// From [`Row::Saddlb`] to [`Row::Usubwt`] a word has no predicate, and each lane e of its destination is two
    /// numbers added (add) or the first less the second (sub). The second is a half-width lane of the second
    /// source: lane 2e (b, bottom) or 2e + 1 (t, top). The first is in a long row (l) the half-width lane of the
    /// first source with that number, and in a wide row (w) its lane e at the full width. [`Row::Ptrue`] and
    /// [`Row::Pfalse`] make a predicate and read no register.
    ///
    /// Later versions may have more, so a `match` needs an arm for the others.
    ///
    #[doc = concat!("```\n", include_str!("../examples/rows.rs"), "```")]
    Row;

    /// The sum of the active lanes, 64 bits.
    Saddv "saddv",
    /// The sum of the active lanes, 64 bits.
    Uaddv "uaddv",
    /// For each place in a segment of 16 bytes, the sum of the active lanes there.
    Addqv "addqv",
    /// The sum of all lanes of the low 8 or 16 bytes, at twice the width.
    Saddlv "saddlv",
    /// The sum of all lanes of the low 8 or 16 bytes, at twice the width.
    Uaddlv "uaddlv",
    /// Each active lane e of the destination gains the half-width lanes 2e and 2e + 1 of the source.
    Sadalp "sadalp",
    /// Each active lane e of the destination gains the half-width lanes 2e and 2e + 1 of the source.
    Uadalp "uadalp",
    /// Long sum of half-width lanes 2e.
    Saddlb "saddlb",
    /// Long sum of half-width lanes 2e + 1.
    Saddlt "saddlt",
    /// Long sum of half-width lanes 2e.
    Uaddlb "uaddlb",
    /// Long sum of half-width lanes 2e + 1.
    Uaddlt "uaddlt",
    /// Long difference of half-width lanes 2e.
    Ssublb "ssublb",
    /// Long difference of half-width lanes 2e + 1.
    Ssublt "ssublt",
    /// Long difference of half-width lanes 2e.
    Usublb "usublb",
    /// Long difference of half-width lanes 2e + 1.
    Usublt "usublt",
    /// Wide sum of lanes e and half-width lanes 2e.
    Saddwb "saddwb",
    /// Wide sum of lanes e and half-width lanes 2e + 1.
    Saddwt "saddwt",
    /// Wide sum of lanes e and half-width lanes 2e.
    Uaddwb "uaddwb",
    /// Wide sum of lanes e and half-width lanes 2e + 1.
    Uaddwt "uaddwt",
    /// Wide difference of lanes e and half-width lanes 2e.
    Ssubwb "ssubwb",
    /// Wide difference of lanes e and half-width lanes 2e + 1.
    Ssubwt "ssubwt",
    /// Wide difference of lanes e and half-width lanes 2e.
    Usubwb "usubwb",
    /// Wide difference of lanes e and half-width lanes 2e + 1.
    Usubwt "usubwt",
    /// A predicate register of the lanes that a pattern makes active; each other bit is cleared.
    Ptrue "ptrue",
    /// A predicate register of which no bit is set.
    Pfalse "pfalse",
}

impl Row {
    /// The row's number, its place in the table: 0 to 24.
    pub const fn number(self) -> usize {
        self as usize
    }

    /// What the row is: its sign, its fields, its need and its widths.
    pub fn about(self) -> About {
        let about = unsafe { boundary::ln_read_row(self.number()) };
        known(Refusal::check(about.number));
        let widths = Size::ALL.map(|size| {
            let of = |bytes: [u64; 4]| Size::of_bytes(bytes[size.number()]);
            Some(Widths { n: of(about.n_bytes), m: of(about.m_bytes), d: of(about.d_bytes)? })
        });
        About {
            signed: about.is_signed != 0,
            has_n: about.has_n != 0,
            has_g: about.has_g != 0,
            has_m: about.has_m != 0,
            has_q: about.has_q != 0,
            has_pattern: about.has_pattern != 0,
            reads_destination: about.reads_destination != 0,
            writes_predicate: about.writes_predicate != 0,
            need: Facts::from_byte(about.need as u8),
            widths,
        }
    }
}

impl TryFrom<usize> for Row {
    type Error = Refusal;

    /// # Errors
    ///
    /// [`Refusal::Range`] where there is no row with this number.
    fn try_from(number: usize) -> Result<Row, Refusal> {
        Row::ALL.get(number).copied().ok_or(Refusal::Range)
    }
}

impl fmt::Display for Row {
    fn fmt(&self, formatter: &mut fmt::Formatter<'_>) -> fmt::Result {
        formatter.write_str(self.name())
    }
}

/// What the words of a row have in common.
#[derive(Clone, Copy, Debug, PartialEq, Eq)]
pub struct About {
    /// Whether lanes are read as signed numbers.
    pub signed: bool,
    /// Whether a word has a source.
    pub has_n: bool,
    /// Whether a word has a governing predicate.
    pub has_g: bool,
    /// Whether a word has a second source.
    pub has_m: bool,
    /// Whether a word has a Q.
    pub has_q: bool,
    /// Whether a word has a pattern.
    pub has_pattern: bool,
    /// Whether what stood in the destination enters into the sum.
    pub reads_destination: bool,
    /// Whether the destination is a predicate register.
    pub writes_predicate: bool,
    /// The facts of which one is enough; [`Facts::NONE`] where the row needs none.
    pub need: Facts,
    /// By the size of a word.
    widths: [Option<Widths>; 4],
}

impl About {
    /// Whether a core with these facts has the row's words.
    pub fn is_met_by(&self, facts: Facts) -> bool {
        self.need == Facts::NONE || facts.byte() & self.need.byte() != 0
    }

    /// The widths of a word's lanes by its size, or none where the row does not allow the size. A size that
    /// it allows with Q alone counts as allowed.
    pub fn widths(&self, size: Size) -> Option<Widths> {
        self.widths[size.number()]
    }
}

/// The widths of the lanes that a word reads and writes.
#[derive(Clone, Copy, Debug, PartialEq, Eq)]
pub struct Widths {
    /// Of the source, if the row has one.
    pub n: Option<Size>,
    /// Of the second source, if the row has one.
    pub m: Option<Size>,
    /// Of the destination; of a predicate register, the lanes that its bits govern.
    pub d: Size,
}
