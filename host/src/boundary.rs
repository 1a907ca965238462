//! The engine's boundary, as `include/ln.h` has it: the only place where it is declared to Rust.
//!
//! A part is lent as a pointer and a length; the header says what its caller owes. The safe functions
//! of this crate lend slices; call these only where that does not serve. Facts are a byte here, and its
//! three higher bits do not matter.

/// A number and, if it is 0, a value.
#[repr(C)]
#[derive(Clone, Copy, Debug)]
pub struct Answer {
    /// 0, or the refusal's number.
    pub number: u64,
    /// The value, 0 with a refusal.
    pub value: u64,
}

/// The row and the fields of a word, 0 with a refusal.
#[repr(C)]
#[derive(Clone, Copy, Debug)]
pub struct Fields {
    /// 0, or the refusal's number.
    pub number: u64,
    /// The row of the table of words.
    pub row: u64,
    /// Bits 23:22.
    pub size: u64,
    /// Bits 9:5, the source.
    pub n: u64,
    /// Bits 4:0, the destination; 3:0 where it is a predicate register.
    pub d: u64,
    /// Bits 12:10, the governing predicate.
    pub g: u64,
    /// Bits 20:16, the second source.
    pub m: u64,
    /// Bit 30.
    pub q: u64,
    /// Bits 9:5 of a word that has a pattern and no source.
    pub pattern: u64,
}

/// Where a register's bytes stand, 0 with a refusal.
#[repr(C)]
#[derive(Clone, Copy, Debug)]
pub struct Place {
    /// 0, or the refusal's number.
    pub number: u64,
    /// 1 for the predicate file, 0 for the vector file.
    pub predicate: u64,
    /// The number of its first byte in the file.
    pub start: u64,
    /// How many bytes it has.
    pub bytes: u64,
}

/// A word of a program, and the place after it.
#[repr(C)]
#[derive(Clone, Copy, Debug)]
pub struct Word {
    /// 0, or the refusal's number.
    pub number: u64,
    /// The word, 0 with a refusal.
    pub word: u64,
    /// The place after it; with a refusal the place that was asked for.
    pub at: u64,
}

/// A lane of a vector register, 0 with a refusal.
#[repr(C)]
#[derive(Clone, Copy, Debug)]
pub struct Lane {
    /// 0, or the refusal's number.
    pub number: u64,
    /// The lane at its sign, extended to 64 bits.
    pub value: u64,
    /// 1 where it is active, else 0.
    pub active: u64,
    /// The number of its first byte in the vector file.
    pub start: u64,
    /// The bit of the predicate register that makes it active.
    pub bit: u64,
}

/// An entry of a journal, 0 with a refusal.
#[repr(C)]
#[derive(Clone, Copy, Debug)]
pub struct Entry {
    /// 0, or the refusal's number.
    pub number: u64,
    /// The number of the register that the entry's step wrote: 0 to 31 for Z0 to Z31, 32 to 47 for P0 to P15.
    pub target: u64,
    /// The number of the first of its old bytes in the journal.
    pub start: u64,
    /// How many they are.
    pub bytes: u64,
}

/// What a row is, 0 with a refusal. The three arrays go by the size of a word.
#[repr(C)]
#[derive(Clone, Copy, Debug)]
pub struct About {
    /// 0, or the refusal's number.
    pub number: u64,
    /// 1 where lanes are read as signed numbers, else 0.
    pub is_signed: u64,
    /// 1 where a word has a governing predicate.
    pub has_g: u64,
    /// 1 where a word has a second source.
    pub has_m: u64,
    /// 1 where a word has a Q.
    pub has_q: u64,
    /// 1 where what stood in the destination enters into the sum.
    pub reads_destination: u64,
    /// A byte of facts of which one is enough, 0 where none is needed.
    pub need: u64,
    /// The bytes of a lane of the source, 0 where the size is not allowed and where there is none.
    pub n_bytes: [u64; 4],
    /// The bytes of a lane of the second source, 0 where there is none too.
    pub m_bytes: [u64; 4],
    /// The bytes of a lane of the destination; of a predicate register, of the lanes that its bits govern.
    pub d_bytes: [u64; 4],
    /// 1 where a word has a source, else 0.
    pub has_n: u64,
    /// 1 where a word has a pattern.
    pub has_pattern: u64,
    /// 1 where the destination is a predicate register.
    pub writes_predicate: u64,
}

/// A session's length and number of words, where its parts start, and its facts; 0 with a refusal.
#[repr(C)]
#[derive(Clone, Copy, Debug)]
pub struct Session {
    /// 0, or the refusal's number.
    pub number: u64,
    /// The length.
    pub k: u64,
    /// The number of words.
    pub count: u64,
    /// The first byte of the vector file.
    pub vectors: u64,
    /// The first byte of the predicate file.
    pub predicates: u64,
    /// The first byte of the words.
    pub program: u64,
    /// The facts, all five for the former version.
    pub facts: u64,
}

#[link(name = "ln", kind = "static")]
extern "C" {
    /// The version of the library.
    pub fn ln_version() -> u64;

    /// The row and the fields of a word.
    pub fn ln_decode(word: u32, facts: u8) -> Fields;

    /// Writes a word's text to the start of `out`.
    pub fn ln_text(word: u32, facts: u8, out: *mut u8, out_len: usize) -> Answer;

    /// The word that has this text.
    pub fn ln_assemble(text: *const u8, text_len: usize, facts: u8) -> Answer;

    /// Writes a fresh journal of a version, 1 or 2.
    pub fn ln_fresh(k: usize, version: u64, journal: *mut u8, journal_len: usize) -> u64;

    /// Executes the word at the journal's position.
    pub fn ln_step(
        k: usize,
        facts: u8,
        z: *mut u8,
        z_len: usize,
        p: *mut u8,
        p_len: usize,
        program: *const u8,
        program_len: usize,
        journal: *mut u8,
        journal_len: usize,
    ) -> u64;

    /// Takes the last step back.
    pub fn ln_back(
        k: usize,
        z: *mut u8,
        z_len: usize,
        p: *mut u8,
        p_len: usize,
        journal: *mut u8,
        journal_len: usize,
    ) -> u64;

    /// The journal's position.
    pub fn ln_position(k: usize, journal: *const u8, journal_len: usize) -> Answer;

    /// The entry with number `index` of a journal, 0 being the oldest.
    pub fn ln_read_entry(k: usize, journal: *const u8, journal_len: usize, index: usize) -> Entry;

    /// Where a register's bytes stand; a `predicate` that is not 0 asks for a predicate register.
    pub fn ln_register_place(
        k: usize,
        z: *const u8,
        z_len: usize,
        p: *const u8,
        p_len: usize,
        predicate: u64,
        index: usize,
    ) -> Place;

    /// A lane of a vector register, and whether it is active; `is_signed` is 0 for an unsigned lane.
    pub fn ln_read_lane(
        k: usize,
        z: *const u8,
        z_len: usize,
        p: *const u8,
        p_len: usize,
        source: usize,
        predicate: usize,
        size: usize,
        is_signed: u64,
        lane: usize,
    ) -> Lane;

    /// What a row is.
    pub fn ln_read_row(row: usize) -> About;

    /// Writes the addqv panel to the first 256 bytes of `out`.
    pub fn ln_panel(
        k: usize,
        z: *const u8,
        z_len: usize,
        p: *const u8,
        p_len: usize,
        source: usize,
        governing: usize,
        size: usize,
        out: *mut u8,
        out_len: usize,
    ) -> u64;

    /// The sum of the active lanes from `a` up to but without `b`; `is_signed` is 0 for unsigned lanes.
    pub fn ln_subtotal(
        k: usize,
        z: *const u8,
        z_len: usize,
        p: *const u8,
        p_len: usize,
        source: usize,
        governing: usize,
        size: usize,
        is_signed: u64,
        a: usize,
        b: usize,
    ) -> Answer;

    /// The word with number `at` of a program.
    pub fn ln_read_word(program: *const u8, program_len: usize, at: usize) -> Word;

    /// Where the parts of a session stand.
    pub fn ln_read_session(bytes: *const u8, bytes_len: usize) -> Session;

    /// Writes the line of a step to the start of `out`.
    pub fn ln_write_line(
        out: *mut u8,
        out_len: usize,
        k: usize,
        facts: u8,
        z: *const u8,
        z_len: usize,
        p: *const u8,
        p_len: usize,
        program: *const u8,
        program_len: usize,
        position: usize,
        number: u64,
    ) -> Answer;
}
