//! What a row is.

use crate::facts::need;
use crate::words::{Form, TABLE};
use ghishmadul::Refusal;

/// A row's sign, fields, need and widths. The widths are bytes of a lane by the size of a word, 0 where the
/// size is not allowed.
#[derive(Clone, Copy, Debug, PartialEq, Eq)]
pub struct About {
    pub signed: bool,
    pub has_g: bool,
    pub has_m: bool,
    pub has_q: bool,
    pub reads_destination: bool,
    pub need: u8,
    pub n_bytes: [usize; 4],
    pub m_bytes: [usize; 4],
    pub d_bytes: [usize; 4],
    pub has_n: bool,
    pub has_pattern: bool,
    pub writes_predicate: bool,
}

pub fn read_row(number: usize) -> Result<About, Refusal> {
    let row = TABLE.get(number).ok_or(Refusal::Range)?;
    let mut about = About {
        signed: row.name.starts_with('s'),
        has_g: matches!(row.form, Form::Across { .. } | Form::Segments | Form::Pairs { .. }),
        has_m: matches!(row.form, Form::Widening { .. }),
        has_q: matches!(row.form, Form::LongAcross { .. }),
        reads_destination: matches!(row.form, Form::Pairs { .. }),
        need: need(number),
        n_bytes: [0; 4],
        m_bytes: [0; 4],
        d_bytes: [0; 4],
        has_n: !row.writes_predicate(),
        has_pattern: matches!(row.form, Form::Made),
        writes_predicate: row.writes_predicate(),
    };
    for size in (0..4).filter(|&size| row.allows(size, 0) || row.allows(size, 1)) {
        let [n, m, d] = widths(row.form, 1 << size);
        about.n_bytes[size] = n;
        about.m_bytes[size] = m;
        about.d_bytes[size] = d;
    }
    Ok(about)
}

/// The bytes of a lane of each source and of the destination; 0 for a source that there is not. The lanes of a
/// predicate that a word writes are those that one of its bits governs.
fn widths(form: Form, width: usize) -> [usize; 3] {
    match form {
        Form::Across { .. } => [width, 0, 8],
        Form::Segments => [width, 0, width],
        Form::LongAcross { .. } => [width, 0, 2 * width],
        Form::Pairs { .. } => [width / 2, 0, width],
        Form::Widening { wide: false, .. } => [width / 2, width / 2, width],
        Form::Widening { wide: true, .. } => [width, width / 2, width],
        Form::Made | Form::Cleared => [0, 0, width],
    }
}
