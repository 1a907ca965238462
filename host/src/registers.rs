//! Sizes of lanes, and registers by their names.

use crate::Refusal;
use std::fmt;

/// The size of a lane, by the letter that a text has for it.
///
/// A number is a size only where it is checked, and every size has its bytes:
///
/// ```
/// use ghishmadul::{Refusal, Size};
///
/// assert_eq!(Size::try_from(1), Ok(Size::H));
/// assert_eq!(Size::try_from(4), Err(Refusal::Range));
/// assert_eq!((Size::S.number(), Size::S.bytes(), Size::S.letter()), (2, 4, 's'));
/// ```
#[derive(Clone, Copy, Debug, PartialEq, Eq, PartialOrd, Ord, Hash)]
pub enum Size {
    /// Lanes of one byte.
    B,
    /// Lanes of two bytes.
    H,
    /// Lanes of four bytes.
    S,
    /// Lanes of eight bytes.
    D,
}

impl Size {
    /// Every size, the smallest first.
    pub const ALL: [Size; 4] = [Size::B, Size::H, Size::S, Size::D];

    /// The size's number, as bits 23:22 of a word have it: 0 to 3.
    pub const fn number(self) -> usize {
        self as usize
    }

    /// How many bytes a lane has.
    pub const fn bytes(self) -> usize {
        1 << self.number()
    }

    /// How many bits a lane has.
    pub const fn bits(self) -> usize {
        8 * self.bytes()
    }

    /// The letter in a word's text: b, h, s or d.
    pub const fn letter(self) -> char {
        ['b', 'h', 's', 'd'][self.number()]
    }

    /// The size of lanes of so many bytes.
    pub(crate) fn of_bytes(bytes: u64) -> Option<Size> {
        Size::ALL.into_iter().find(|size| size.bytes() as u64 == bytes)
    }
}

impl TryFrom<usize> for Size {
    type Error = Refusal;

    /// # Errors
    ///
    /// [`Refusal::Range`] where the number is over 3.
    fn try_from(number: usize) -> Result<Size, Refusal> {
        Size::ALL.get(number).copied().ok_or(Refusal::Range)
    }
}

impl fmt::Display for Size {
    fn fmt(&self, formatter: &mut fmt::Formatter<'_>) -> fmt::Result {
        write!(formatter, "{}", self.letter())
    }
}

/// Registers of one kind: how many, the letter of their names, and the names.
macro_rules! registers {
    ($(#[$about:meta])* $kind:ident, $many:literal, $letter:literal, $($name:ident)*) => {
        $(#[$about])*
        #[derive(Clone, Copy, Debug, PartialEq, Eq, PartialOrd, Ord, Hash)]
        pub enum $kind {
            $(
                #[doc = concat!(stringify!($name), ".")]
                $name,
            )*
        }

        impl $kind {
            /// Every register of the kind, in the order of the numbers.
            pub const ALL: [$kind; $many] = [$($kind::$name),*];

            /// The register's number.
            pub const fn number(self) -> usize {
                self as usize
            }
        }

        impl TryFrom<usize> for $kind {
            type Error = Refusal;

            /// # Errors
            ///
            /// [`Refusal::Range`] where there is no register with this number.
            fn try_from(number: usize) -> Result<$kind, Refusal> {
                $kind::ALL.get(number).copied().ok_or(Refusal::Range)
            }
        }

        impl fmt::Display for $kind {
            fn fmt(&self, formatter: &mut fmt::Formatter<'_>) -> fmt::Result {
                write!(formatter, "{}{}", $letter, self.number())
            }
        }

        impl From<$kind> for Register {
            fn from(register: $kind) -> Register {
                Register::$kind(register)
            }
        }
    };
}

registers! {
    /// A vector register.
    ///
    /// ```
    /// use ghishmadul::{Refusal, Vector};
    ///
    /// assert_eq!(Vector::try_from(7), Ok(Vector::Z7));
    /// assert_eq!(Vector::try_from(32), Err(Refusal::Range));
    /// assert_eq!((Vector::Z7.number(), Vector::Z7.to_string()), (7, "z7".to_string()));
    /// ```
    Vector, 32, "z",
    Z0 Z1 Z2 Z3 Z4 Z5 Z6 Z7 Z8 Z9 Z10 Z11 Z12 Z13 Z14 Z15
    Z16 Z17 Z18 Z19 Z20 Z21 Z22 Z23 Z24 Z25 Z26 Z27 Z28 Z29 Z30 Z31
}

registers! {
    /// A predicate register. P0 to P7 can govern; ptrue and pfalse can write each.
    ///
    /// ```
    /// use ghishmadul::{Predicate, Refusal};
    ///
    /// assert_eq!(Predicate::try_from(15), Ok(Predicate::P15));
    /// assert_eq!(Predicate::try_from(16), Err(Refusal::Range));
    /// assert!(Predicate::P7.can_govern() && !Predicate::P8.can_govern());
    /// ```
    Predicate, 16, "p",
    P0 P1 P2 P3 P4 P5 P6 P7 P8 P9 P10 P11 P12 P13 P14 P15
}

impl Predicate {
    /// Whether it can govern the lanes of a word: P0 to P7.
    pub const fn can_govern(self) -> bool {
        self.number() <= 7
    }
}

/// A register of either kind; a [`Vector`] or a [`Predicate`] is made one by `into`.
#[derive(Clone, Copy, Debug, PartialEq, Eq, Hash)]
pub enum Register {
    /// Z0 to Z31.
    Vector(Vector),
    /// P0 to P15.
    Predicate(Predicate),
}

impl Register {
    /// The file that it stands in.
    pub const fn kind(self) -> Kind {
        match self {
            Register::Vector(_) => Kind::Vector,
            Register::Predicate(_) => Kind::Predicate,
        }
    }

    /// The register that an entry of a journal names by its number.
    pub(crate) fn of_entry(number: usize) -> Result<Register, Refusal> {
        match number.checked_sub(Vector::ALL.len()) {
            None => Vector::try_from(number).map(Register::from),
            Some(number) => Predicate::try_from(number).map(Register::from),
        }
    }

    /// Its number among the registers of its kind.
    pub const fn number(self) -> usize {
        match self {
            Register::Vector(vector) => vector.number(),
            Register::Predicate(predicate) => predicate.number(),
        }
    }
}

impl fmt::Display for Register {
    fn fmt(&self, formatter: &mut fmt::Formatter<'_>) -> fmt::Result {
        match self {
            Register::Vector(vector) => vector.fmt(formatter),
            Register::Predicate(predicate) => predicate.fmt(formatter),
        }
    }
}

/// A vector register or a predicate register.
#[derive(Clone, Copy, Debug, PartialEq, Eq, Hash)]
pub enum Kind {
    /// Z0 to Z31.
    Vector,
    /// P0 to P15.
    Predicate,
}
