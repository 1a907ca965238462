//! The twenty-five words.

use crate::facts::suffice;
use ghishmadul::{Facts, Refusal};

/// The row and the fields of a word, as numbers; a field that the row does not have is 0.
#[derive(Clone, Copy, Debug, PartialEq, Eq)]
pub struct Fields {
    pub row: usize,
    pub size: usize,
    pub n: usize,
    pub d: usize,
    pub g: usize,
    pub m: usize,
    pub q: usize,
    pub pattern: usize,
}

/// What the words of a row have in common.
#[derive(Clone, Copy, PartialEq, Eq)]
pub enum Form {
    /// saddv, uaddv
    Across { signed: bool },
    /// addqv
    Segments,
    /// saddlv, uaddlv
    LongAcross { signed: bool },
    /// sadalp, uadalp
    Pairs { signed: bool },
    /// saddlb to usubwt: a lane is the sum of two numbers, or with `subtract` the first less the second.
    /// For lane e the second is the half-width lane 2e + `top` of the second source; the first is that
    /// lane of the first source, or with `wide` its lane e.
    Widening { signed: bool, top: usize, wide: bool, subtract: bool },
    /// ptrue: a predicate of the lanes that a pattern tells
    Made,
    /// pfalse: a predicate of which no bit is set
    Cleared,
}

/// What stands in the table for a name: a word is of the row if its bits of the mask are the value.
#[derive(Clone, Copy)]
pub struct Row {
    pub name: &'static str,
    pub mask: u32,
    pub value: u32,
    pub(crate) form: Form,
}

const fn row(name: &'static str, mask: u32, value: u32, form: Form) -> Row {
    Row { name, mask, value, form }
}

/// A row of the widening family: s or u, add or sub, l or w, b or t.
const fn widening(name: &'static str, value: u32) -> Row {
    let letters = name.as_bytes();
    let form = Form::Widening {
        signed: letters[0] == b's',
        subtract: letters[1] == b's',
        wide: letters[4] == b'w',
        top: (letters[5] == b't') as usize,
    };
    row(name, 0xFF20_FC00, value, form)
}

pub const TABLE: [Row; 25] = [
    row("saddv", 0xFF3F_E000, 0x0400_2000, Form::Across { signed: true }),
    row("uaddv", 0xFF3F_E000, 0x0401_2000, Form::Across { signed: false }),
    row("addqv", 0xFF3F_E000, 0x0405_2000, Form::Segments),
    row("saddlv", 0xBF3F_FC00, 0x0E30_3800, Form::LongAcross { signed: true }),
    row("uaddlv", 0xBF3F_FC00, 0x2E30_3800, Form::LongAcross { signed: false }),
    row("sadalp", 0xFF3F_E000, 0x4404_A000, Form::Pairs { signed: true }),
    row("uadalp", 0xFF3F_E000, 0x4405_A000, Form::Pairs { signed: false }),
    widening("saddlb", 0x4500_0000),
    widening("saddlt", 0x4500_0400),
    widening("uaddlb", 0x4500_0800),
    widening("uaddlt", 0x4500_0C00),
    widening("ssublb", 0x4500_1000),
    widening("ssublt", 0x4500_1400),
    widening("usublb", 0x4500_1800),
    widening("usublt", 0x4500_1C00),
    widening("saddwb", 0x4500_4000),
    widening("saddwt", 0x4500_4400),
    widening("uaddwb", 0x4500_4800),
    widening("uaddwt", 0x4500_4C00),
    widening("ssubwb", 0x4500_5000),
    widening("ssubwt", 0x4500_5400),
    widening("usubwb", 0x4500_5800),
    widening("usubwt", 0x4500_5C00),
    row("ptrue", 0xFF3F_FC10, 0x2518_E000, Form::Made),
    row("pfalse", 0xFFFF_FFF0, 0x2518_E400, Form::Cleared),
];

impl Row {
    pub fn matches(&self, word: u32) -> bool {
        word & self.mask == self.value
    }

    pub(crate) fn allows(&self, size: usize, q: usize) -> bool {
        match self.form {
            Form::Across { signed: true } => size <= 2,
            Form::Across { signed: false } | Form::Segments | Form::Made => size <= 3,
            Form::LongAcross { .. } => size <= 1 || (size == 2 && q == 1),
            Form::Pairs { .. } | Form::Widening { .. } => (1..=3).contains(&size),
            Form::Cleared => size == 0,
        }
    }

    /// Whether the words of this row write a predicate register, and no vector.
    pub fn writes_predicate(&self) -> bool {
        matches!(self.form, Form::Made | Form::Cleared)
    }

    /// The word of this row whose fields are these.
    pub(crate) fn word(&self, fields: u32) -> u32 {
        self.value | fields
    }
}

pub fn decode(word: u32, facts: Facts) -> Result<Fields, Refusal> {
    let row = TABLE.iter().position(|row| row.matches(word)).ok_or(Refusal::Unknown)?;
    let field = |low: u32, bits: u32| (word >> low) as usize & ((1 << bits) - 1);
    let (size, q) = (field(22, 2), field(30, 1));
    if !TABLE[row].allows(size, q) || !suffice(facts, row) {
        return Err(Refusal::Undefined);
    }
    let mut fields = Fields { row, size, n: 0, d: field(0, 5), g: 0, m: 0, q: 0, pattern: 0 };
    match TABLE[row].form {
        Form::LongAcross { .. } => (fields.n, fields.q) = (field(5, 5), q),
        Form::Widening { .. } => (fields.n, fields.m) = (field(5, 5), field(16, 5)),
        Form::Made => (fields.pattern, fields.d) = (field(5, 5), field(0, 4)),
        Form::Cleared => fields.d = field(0, 4),
        _ => (fields.n, fields.g) = (field(5, 5), field(10, 3)),
    }
    Ok(fields)
}
