//! Memory to lend that has a page on each side which can be neither read nor written.

use std::ffi::c_void;

extern "C" {
    fn mmap(
        start: *mut c_void,
        length: usize,
        protection: i32,
        flags: i32,
        file: i32,
        offset: i64,
    ) -> *mut c_void;
    fn mprotect(start: *mut c_void, length: usize, protection: i32) -> i32;
}

const PAGE: usize = 4096;
const READ_AND_WRITE: i32 = 1 | 2;
const PRIVATE_AND_ANONYMOUS: i32 = 0x02 | 0x20;

/// The bytes next to a lent part, on its open side, that are watched.
const MARGIN: usize = 64;
const WATCHED: u8 = 0xA5;

/// Where the guarding page stands.
#[derive(Clone, Copy, Debug, PartialEq)]
pub enum Guard {
    After,
    Before,
}

pub struct Guarded {
    start: *mut u8,
    bytes: usize,
    guard: Guard,
    lent: usize,
}

impl Guarded {
    /// Room for parts of at most this many bytes.
    pub fn new(most: usize, guard: Guard) -> Guarded {
        let bytes = (most + MARGIN + PAGE - 1) / PAGE * PAGE;
        unsafe {
            let whole =
                mmap(std::ptr::null_mut(), bytes + 2 * PAGE, 0, PRIVATE_AND_ANONYMOUS, -1, 0);
            assert!(whole as isize != -1, "no memory");
            let start = (whole as *mut u8).add(PAGE);
            assert_eq!(mprotect(start.cast(), bytes, READ_AND_WRITE), 0, "no memory");
            Guarded { start, bytes, guard, lent: 0 }
        }
    }

    /// Sets up a part with this content, right at the guarding page.
    pub fn set(&mut self, content: &[u8]) {
        assert!(content.len() + MARGIN <= self.bytes);
        self.lent = content.len();
        self.margin().fill(WATCHED);
        self.part().copy_from_slice(content);
    }

    /// The part.
    pub fn part(&mut self) -> &mut [u8] {
        let skipped = match self.guard {
            Guard::After => self.bytes - self.lent,
            Guard::Before => 0,
        };
        unsafe { std::slice::from_raw_parts_mut(self.start.add(skipped), self.lent) }
    }

    fn margin(&mut self) -> &mut [u8] {
        let skipped = match self.guard {
            Guard::After => self.bytes - self.lent - MARGIN,
            Guard::Before => self.lent,
        };
        unsafe { std::slice::from_raw_parts_mut(self.start.add(skipped), MARGIN) }
    }

    /// Whether the part holds these bytes and the bytes beside it are untouched.
    pub fn holds(&mut self, content: &[u8]) -> bool {
        self.part() == content && self.margin().iter().all(|&byte| byte == WATCHED)
    }
}
