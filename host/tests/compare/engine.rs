//! The engine's calls with their answers as plain numbers, by the boundary or by the safe functions;
//! and the reference's answers in the same way.

use ghishmadul::boundary::*;
use ghishmadul::{
    Facts, JournalVersion, Kind, Lanes, Pattern, Predicate, Refusal, Register, Size, Vector,
};
use reference::Asked;
use std::ops::Range;

/// The answer number, then the values; zeros after them.
pub type Numbers = [u64; MOST];

/// Of a row's answer, the longest.
const MOST: usize = 22;

fn all<const MANY: usize>(given: [u64; MANY]) -> Numbers {
    let mut numbers = [0; MOST];
    numbers[..MANY].copy_from_slice(&given);
    numbers
}

/// What a call answers with when it is done.
pub trait Values {
    fn values(&self) -> Numbers;
}

impl Values for () {
    fn values(&self) -> Numbers {
        all([0])
    }
}

impl Values for u64 {
    fn values(&self) -> Numbers {
        all([0, *self])
    }
}

impl Values for u32 {
    fn values(&self) -> Numbers {
        u64::from(*self).values()
    }
}

impl Values for usize {
    fn values(&self) -> Numbers {
        (*self as u64).values()
    }
}

impl Values for reference::Fields {
    fn values(&self) -> Numbers {
        let reference::Fields { row, size, n, d, g, m, q, pattern } = *self;
        let fields = [0, row, size, n, d, g, m, q, pattern];
        all(fields.map(|number| number as u64))
    }
}

impl Values for ghishmadul::Fields {
    /// A field that is there and should not be, or is not and should, has a number that none has.
    fn values(&self) -> Numbers {
        let ghishmadul::Fields { row, size, n, d, g, m, q, pattern } = *self;
        let about = reference::read_row(row.number()).expect("a row");
        let field = |number: Option<usize>, there: bool| match number {
            _ if number.is_some() != there => usize::MAX,
            _ => number.unwrap_or(0),
        };
        reference::Fields {
            row: row.number(),
            size: size.number(),
            n: field(n.map(Vector::number), about.has_n),
            d: match (d.kind() == Kind::Predicate) == about.writes_predicate {
                true => d.number(),
                false => usize::MAX,
            },
            g: field(g.map(Predicate::number), about.has_g),
            m: field(m.map(Vector::number), about.has_m),
            q: field(q.map(usize::from), about.has_q),
            pattern: field(pattern.map(Pattern::number), about.has_pattern),
        }
        .values()
    }
}

impl Values for ghishmadul::Place {
    fn values(&self) -> Numbers {
        let predicate = u64::from(self.kind == Kind::Predicate);
        all([0, predicate, self.start as u64, self.bytes as u64])
    }
}

impl Values for ghishmadul::Lane {
    fn values(&self) -> Numbers {
        let ghishmadul::Lane { value, active, start, bit } = *self;
        assert_eq!(self.signed() as u64, value);
        all([0, value, u64::from(active), start as u64, bit as u64])
    }
}

impl Values for reference::Entry {
    fn values(&self) -> Numbers {
        all([0, self.target as u64, self.start as u64, self.bytes as u64])
    }
}

impl Values for reference::About {
    fn values(&self) -> Numbers {
        let reference::About { signed, has_g, has_m, has_q, reads_destination, .. } = *self;
        let flags = [signed, has_g, has_m, has_q, reads_destination].map(u64::from);
        let bytes = [self.n_bytes, self.m_bytes, self.d_bytes];
        let widths = bytes.map(|widths| widths.map(|bytes| bytes as u64));
        let last = [self.has_n, self.has_pattern, self.writes_predicate].map(u64::from);
        about(flags, self.need.into(), widths, last)
    }
}

/// A row's flags, its need, its widths and its last flags after each other.
fn about(flags: [u64; 5], need: u64, widths: [[u64; 4]; 3], last: [u64; 3]) -> Numbers {
    let mut numbers = [0; MOST];
    numbers[1..6].copy_from_slice(&flags);
    numbers[6] = need;
    numbers[7..19].copy_from_slice(&widths.concat());
    numbers[19..].copy_from_slice(&last);
    numbers
}

impl Values for ghishmadul::About {
    fn values(&self) -> Numbers {
        let ghishmadul::About { signed, has_g, has_m, has_q, reads_destination, need, .. } = *self;
        let flags = [signed, has_g, has_m, has_q, reads_destination].map(u64::from);
        let bytes = |size: Option<Size>| size.map_or(0, |size| size.bytes() as u64);
        let widths = Size::ALL.map(|size| self.widths(size));
        about(
            flags,
            need.byte().into(),
            [
                widths.map(|widths| bytes(widths.and_then(|widths| widths.n))),
                widths.map(|widths| bytes(widths.and_then(|widths| widths.m))),
                widths.map(|widths| bytes(widths.map(|widths| widths.d))),
            ],
            [self.has_n, self.has_pattern, self.writes_predicate].map(u64::from),
        )
    }
}

impl Values for ghishmadul::Word {
    fn values(&self) -> Numbers {
        all([0, u64::from(self.word), self.at as u64])
    }
}

impl Values for ghishmadul::Session {
    fn values(&self) -> Numbers {
        let ghishmadul::Session { k, count, vectors, predicates, program, facts } = *self;
        let Facts { sve, sve2, sve2p1, sme, sme2p1 } = facts;
        let bits = [sme2p1, sme, sve2p1, sve2, sve].map(u64::from);
        let facts = bits.into_iter().fold(0, |facts, bit| facts << 1 | bit);
        all([0, k as u64, count as u64, vectors as u64, predicates as u64, program as u64, facts])
    }
}

pub fn numbers<T: Values>(answer: Result<T, Refusal>) -> Numbers {
    match answer {
        Ok(value) => value.values(),
        Err(refusal) => number(refusal.number()),
    }
}

fn answer(Answer { number, value }: Answer) -> Numbers {
    all([number, value])
}

fn number(number: u64) -> Numbers {
    all([number])
}

/// The lanes that are asked for, where the crate has types for them.
fn typed(Asked { source, predicate, size }: Asked) -> Result<Lanes, Refusal> {
    Ok(Lanes {
        source: Vector::try_from(source)?,
        predicate: Predicate::try_from(predicate)?,
        size: Size::try_from(size)?,
    })
}

/// How the engine is called.
#[derive(Clone, Copy, Debug, PartialEq)]
pub enum Way {
    /// By the safe functions; numbers that no type of the crate holds go by the boundary all the same.
    Safe,
    /// By the boundary.
    Boundary,
    /// By the boundary, and empty parts have a pointer to nowhere.
    Nowhere(usize),
}

impl Way {
    fn of(self, part: &[u8]) -> *const u8 {
        match self {
            Way::Nowhere(place) if part.is_empty() => place as *const u8,
            _ => part.as_ptr(),
        }
    }

    fn of_mut(self, part: &mut [u8]) -> *mut u8 {
        match self {
            Way::Nowhere(place) if part.is_empty() => place as *mut u8,
            _ => part.as_mut_ptr(),
        }
    }

    pub fn decode(self, word: u32, facts: u8) -> Numbers {
        if self == Way::Safe {
            return numbers(ghishmadul::decode(word, Facts::from_byte(facts)));
        }
        let Fields { number, row, size, n, d, g, m, q, pattern } =
            unsafe { ln_decode(word, facts) };
        all([number, row, size, n, d, g, m, q, pattern])
    }

    pub fn text(self, word: u32, facts: u8, out: &mut [u8]) -> Numbers {
        if self == Way::Safe {
            return numbers(ghishmadul::text(word, Facts::from_byte(facts), out));
        }
        answer(unsafe { ln_text(word, facts, self.of_mut(out), out.len()) })
    }

    pub fn assemble(self, text: &[u8], facts: u8) -> Numbers {
        if self == Way::Safe {
            let word = ghishmadul::assemble(text, Facts::from_byte(facts));
            return numbers(word.map_err(Refusal::from));
        }
        answer(unsafe { ln_assemble(self.of(text), text.len(), facts) })
    }

    /// `version`: any number.
    pub fn fresh(self, k: usize, version: u64, journal: &mut [u8]) -> Numbers {
        if let (Way::Safe, Ok(version)) = (self, JournalVersion::try_from(version)) {
            return numbers(ghishmadul::fresh(k, version, journal));
        }
        number(unsafe { ln_fresh(k, version, self.of_mut(journal), journal.len()) })
    }

    pub fn step(
        self,
        k: usize,
        facts: u8,
        z: &mut [u8],
        p: &mut [u8],
        program: &[u8],
        journal: &mut [u8],
    ) -> Numbers {
        if self == Way::Safe {
            let facts = Facts::from_byte(facts);
            return numbers(ghishmadul::step(k, facts, z, p, program, journal));
        }
        number(unsafe {
            ln_step(
                k,
                facts,
                self.of_mut(z),
                z.len(),
                self.of_mut(p),
                p.len(),
                self.of(program),
                program.len(),
                self.of_mut(journal),
                journal.len(),
            )
        })
    }

    pub fn back(self, k: usize, z: &mut [u8], p: &mut [u8], journal: &mut [u8]) -> Numbers {
        if self == Way::Safe {
            return numbers(ghishmadul::back(k, z, p, journal));
        }
        number(unsafe {
            ln_back(
                k,
                self.of_mut(z),
                z.len(),
                self.of_mut(p),
                p.len(),
                self.of_mut(journal),
                journal.len(),
            )
        })
    }

    pub fn position(self, k: usize, journal: &[u8]) -> Numbers {
        if self == Way::Safe {
            return numbers(ghishmadul::position(k, journal));
        }
        answer(unsafe { ln_position(k, self.of(journal), journal.len()) })
    }

    pub fn read_entry(self, k: usize, journal: &[u8], index: usize) -> Numbers {
        if self == Way::Safe {
            return numbers(ghishmadul::read_entry(k, journal, index).map(|entry| {
                let target = match entry.target {
                    Register::Vector(vector) => vector.number(),
                    Register::Predicate(predicate) => 32 + predicate.number(),
                };
                let bytes = entry.old.len();
                assert_eq!(entry.old.as_ptr(), journal[entry.start..].as_ptr(), "not a copy");
                reference::Entry { target, start: entry.start, bytes }
            }));
        }
        let Entry { number, target, start, bytes } =
            unsafe { ln_read_entry(k, self.of(journal), journal.len(), index) };
        all([number, target, start, bytes])
    }

    /// `predicate`: every number but 0 asks for a predicate register.
    pub fn register_place(
        self,
        k: usize,
        z: &[u8],
        p: &[u8],
        predicate: u64,
        index: usize,
    ) -> Numbers {
        let register: Result<Register, Refusal> = match predicate {
            0 => Vector::try_from(index).map(Register::from),
            _ => Predicate::try_from(index).map(Register::from),
        };
        if let (Way::Safe, Ok(register)) = (self, register) {
            return numbers(ghishmadul::register_place(k, z, p, register));
        }
        let Place { number, predicate, start, bytes } = unsafe {
            ln_register_place(k, self.of(z), z.len(), self.of(p), p.len(), predicate, index)
        };
        all([number, predicate, start, bytes])
    }

    /// `is_signed`: every number but 0 asks for a signed lane.
    pub fn read_lane(
        self,
        k: usize,
        z: &[u8],
        p: &[u8],
        asked: Asked,
        is_signed: u64,
        lane: usize,
    ) -> Numbers {
        if let (Way::Safe, Ok(lanes)) = (self, typed(asked)) {
            return numbers(ghishmadul::read_lane(k, z, p, lanes, is_signed != 0, lane));
        }
        let Asked { source, predicate, size } = asked;
        let Lane { number, value, active, start, bit } = unsafe {
            ln_read_lane(
                k,
                self.of(z),
                z.len(),
                self.of(p),
                p.len(),
                source,
                predicate,
                size,
                is_signed,
                lane,
            )
        };
        all([number, value, active, start, bit])
    }

    pub fn read_row(self, row: usize) -> Numbers {
        if let (Way::Safe, Ok(row)) = (self, ghishmadul::Row::try_from(row)) {
            return numbers(Ok(row.about()));
        }
        let told = unsafe { ln_read_row(row) };
        let About { is_signed, has_g, has_m, has_q, reads_destination, need, .. } = told;
        let flags = [is_signed, has_g, has_m, has_q, reads_destination];
        let last = [told.has_n, told.has_pattern, told.writes_predicate];
        let mut numbers = about(flags, need, [told.n_bytes, told.m_bytes, told.d_bytes], last);
        numbers[0] = told.number;
        numbers
    }

    pub fn panel(self, k: usize, z: &[u8], p: &[u8], asked: Asked, out: &mut [u8]) -> Numbers {
        if let (Way::Safe, Ok(lanes)) = (self, typed(asked)) {
            return numbers(ghishmadul::panel(k, z, p, lanes, out));
        }
        let Asked { source, predicate, size } = asked;
        number(unsafe {
            ln_panel(
                k,
                self.of(z),
                z.len(),
                self.of(p),
                p.len(),
                source,
                predicate,
                size,
                self.of_mut(out),
                out.len(),
            )
        })
    }

    /// `is_signed`: every number but 0 asks for signed lanes.
    pub fn subtotal(
        self,
        k: usize,
        z: &[u8],
        p: &[u8],
        asked: Asked,
        is_signed: u64,
        range: Range<usize>,
    ) -> Numbers {
        if let (Way::Safe, Ok(lanes)) = (self, typed(asked)) {
            return numbers(ghishmadul::subtotal(k, z, p, lanes, is_signed != 0, range));
        }
        let Asked { source, predicate, size } = asked;
        answer(unsafe {
            ln_subtotal(
                k,
                self.of(z),
                z.len(),
                self.of(p),
                p.len(),
                source,
                predicate,
                size,
                is_signed,
                range.start,
                range.end,
            )
        })
    }

    /// By the boundary the place comes with a refusal too, unmoved; the safe function gives 0.
    pub fn read_word(self, program: &[u8], at: usize) -> Numbers {
        if self == Way::Safe {
            return numbers(ghishmadul::read_word(program, at));
        }
        let Word { number, word, at } =
            unsafe { ln_read_word(self.of(program), program.len(), at) };
        all([number, word, at])
    }

    pub fn read_session(self, bytes: &[u8]) -> Numbers {
        if self == Way::Safe {
            return numbers(ghishmadul::read_session(bytes));
        }
        let Session { number, k, count, vectors, predicates, program, facts } =
            unsafe { ln_read_session(self.of(bytes), bytes.len()) };
        all([number, k, count, vectors, predicates, program, facts])
    }

    #[allow(clippy::too_many_arguments)]
    pub fn write_line(
        self,
        out: &mut [u8],
        k: usize,
        facts: u8,
        z: &[u8],
        p: &[u8],
        program: &[u8],
        position: usize,
        number: u64,
    ) -> Numbers {
        if self == Way::Safe {
            let (facts, answer) = (Facts::from_byte(facts), Refusal::check(number));
            return numbers(ghishmadul::write_line(out, k, facts, z, p, program, position, answer));
        }
        answer(unsafe {
            ln_write_line(
                self.of_mut(out),
                out.len(),
                k,
                facts,
                self.of(z),
                z.len(),
                self.of(p),
                p.len(),
                self.of(program),
                program.len(),
                position,
                number,
            )
        })
    }
}
