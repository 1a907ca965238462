//! The facts about a core, and what each row needs of them.

use ghishmadul::Facts;
use Need::*;

/// The byte of all five facts, and the bits above them.
pub const ALL: u8 = 0x1F;
pub const HIGHER: u8 = 0xE0;

/// The facts of a byte, whatever its higher bits are.
pub fn facts_of(byte: u8) -> Facts {
    let has = |bit: u32| byte >> bit & 1 == 1;
    Facts { sve: has(0), sve2: has(1), sve2p1: has(2), sme: has(3), sme2p1: has(4) }
}

/// What a row needs: nothing, or one of two facts.
#[derive(Clone, Copy)]
enum Need {
    Nothing,
    SveOrSme,
    Sve2OrSme,
    Sve2p1OrSme2p1,
}

/// The needs of the rows, in the table's order.
#[rustfmt::skip]
const NEEDS: [Need; 25] = [
    // saddv, uaddv, addqv
    SveOrSme, SveOrSme, Sve2p1OrSme2p1,
    // saddlv, uaddlv
    Nothing, Nothing,
    // sadalp, uadalp
    Sve2OrSme, Sve2OrSme,
    // saddlb, saddlt, uaddlb, uaddlt
    Sve2OrSme, Sve2OrSme, Sve2OrSme, Sve2OrSme,
    // ssublb, ssublt, usublb, usublt
    Sve2OrSme, Sve2OrSme, Sve2OrSme, Sve2OrSme,
    // saddwb, saddwt, uaddwb, uaddwt
    Sve2OrSme, Sve2OrSme, Sve2OrSme, Sve2OrSme,
    // ssubwb, ssubwt, usubwb, usubwt
    Sve2OrSme, Sve2OrSme, Sve2OrSme, Sve2OrSme,
    // ptrue, pfalse
    SveOrSme, SveOrSme,
];

/// Whether a core with these facts has the words of a row.
pub fn suffice(facts: Facts, row: usize) -> bool {
    match NEEDS[row] {
        Nothing => true,
        SveOrSme => facts.sve || facts.sme,
        Sve2OrSme => facts.sve2 || facts.sme,
        Sve2p1OrSme2p1 => facts.sve2p1 || facts.sme2p1,
    }
}

/// The byte of the facts of which a row needs one; 0 where it needs none.
pub fn need(row: usize) -> u8 {
    match NEEDS[row] {
        Nothing => 0,
        SveOrSme => 0b01001,
        Sve2OrSme => 0b01010,
        Sve2p1OrSme2p1 => 0b10100,
    }
}
