//! The engine's calls once more, in plain Rust and from the paper alone: what the engine is compared
//! with. Nothing here calls the engine; only the shapes of the answers are shared with it.

mod checks;
mod execute;
mod facts;
mod journal;
mod lanes;
mod names;
mod pane;
mod patterns;
mod rows;
mod session;
mod words;

pub use facts::{facts_of, ALL, HIGHER};
pub use journal::{back, fresh, position, read_entry, step, Entry};
pub use names::{assemble, text};
pub use pane::{
    panel, put_active, put_lane, read_lane, read_word, register_place, subtotal, Asked,
};
pub use patterns::{pattern_lanes, pattern_name};
pub use rows::{read_row, About};
pub use session::{line, read_session, walk, write_line, write_session};
pub use words::{decode, Fields, Row, TABLE};

/// The version of the calls.
pub const VERSION: u64 = 8;
