"""The facts about a core: for each of their 32 sets and each row, walk steps a word where the facts have what its row needs, and refuses it
with 8 elsewhere; bin/ says the same. 7, and 8 for a size that is not allowed, do not depend on facts."""
import random
import struct

from sessions import layout, readable, words

from .common import expect, walk
from .words import TABLE, allowed, left, text

FACTS = ("SVE", "SVE2", "SVE2p1", "SME", "SME2p1")  # in the order of their bits


def need(name):
    """The facts of which a row needs one; there are none where it needs nothing."""
    if name in ("saddv", "uaddv", "ptrue", "pfalse"):
        return "SVE", "SME"
    if name == "addqv":
        return "SVE2p1", "SME2p1"
    return () if name in ("saddlv", "uaddlv") else ("SVE2", "SME")


def bits(names):
    return sum(1 << FACTS.index(name) for name in names)


def have(facts, name):
    return not need(name) or facts & bits(need(name)) != 0


def any_of(dice, row, fits=True):
    """Any word of a row at a size that is allowed, or at one that is not; None where the row allows all."""
    name, mask, value, sizes = row
    while fits or len(sizes) < 4:
        word = value | dice.getrandbits(32) & ~mask
        if allowed(name, sizes, word) == fits:
            return word
    return None


def answered(word, facts):
    """The number that bin/ has for a word on a core of these facts."""
    return words.decoded(word)[0] or (8 if words.lacking(word, facts) else 0)


def session(facts, program):
    """A session of version 2 and k = 1 with all registers zero."""
    return b"LNW" + struct.pack("<HBHB", 2, 1, len(program), facts) + bytes(544) + struct.pack("<%dI" % len(program), *program)


def check():
    dice = random.Random(6)
    expect(words.FACTS == FACTS and words.EVERY_FACT == 31, "the facts are", words.FACTS)
    expect([(row.name, row.need) for row in words.ROWS] == [(row[0], bits(need(row[0]))) for row in TABLE], "a row's need differs")
    for facts in range(32):
        rows_checked(dice, facts)
        refused(dice, facts)
    shown()


def rows_checked(dice, facts):
    """A word of each row: those that the core has are stepped in one walk, each other one is refused in its own."""
    program = [(row[0], any_of(dice, row)) for row in TABLE]
    stepped = [(name, word) for name, word in program if have(facts, name)]
    lines = ["%d 0 %s %s\n" % (place, text(name, word), left(word, name)) for place, (name, word) in enumerate(stepped)]
    expect(walk(session(facts, [word for _, word in stepped])) == "".join(lines), "walk refuses what a core has with the facts", str(facts))
    for name, word in program:
        number = 0 if have(facts, name) else 8
        expect(answered(word, facts) == number, "with the facts", str(facts), "bin/ does not answer", hex(word), "with", str(number))
        expect(words.named(word) == text(name, word) and words.assembled(text(name, word)) == word, hex(word), "reads otherwise")
        if number:
            expect(walk(session(facts, [word])) == "0 8 %08x\n" % word, "with the facts", str(facts), "walk does not refuse", hex(word))


def refused(dice, facts):
    """Words that every core refuses: of some row with a size that is not allowed, and of none."""
    row = dice.choice([row for row in TABLE if len(row[3]) < 4])
    for word, number in ((any_of(dice, row, False), 8), (any_of(dice, row) ^ 1 << 27, 7)):
        expect(answered(word, facts) == number, "with the facts", str(facts), "bin/ does not answer", hex(word), "with", str(number))
        expect(walk(session(facts, [word])) == "0 %d %08x\n" % (number, word), "with the facts", str(facts), "walk answers otherwise:", hex(word))


# a word, its line on a core that has it, its row, and what the line ends with on any other core
SHOWN = [
    (0x04002020, "saddv d0, p0, z1.b", "saddv", "  # saddv needs SVE or SME: walk refuses it with 8 UNDEFINED"),
    (0x4444A423, "sadalp z3.h, p1/m, z1.b", "sadalp", "  # sadalp needs SVE2 or SME: walk refuses it with 8 UNDEFINED"),
    (0x04052020, "addqv v0.16b, p0, z1.b", "addqv", "  # addqv needs SVE2p1 or SME2p1: walk refuses it with 8 UNDEFINED"),
    (0x45C45C63, "usubwt z3.d, z3.d, z4.s", "usubwt", "  # usubwt needs SVE2 or SME: walk refuses it with 8 UNDEFINED"),
    (0x2E303822, "uaddlv h2, v1.8b", "uaddlv", None),
    (0x2558E123, "ptrue p3.h, vl16", "ptrue", "  # ptrue needs SVE or SME: walk refuses it with 8 UNDEFINED"),
    (0x2518E40F, "pfalse p15.b", "pfalse", "  # pfalse needs SVE or SME: walk refuses it with 8 UNDEFINED"),
    (0x04C02020, ".inst 0x04c02020  # 8 UNDEFINED", "saddv", ", and saddv needs SVE or SME"),
    (0x0EB03822, ".inst 0x0eb03822  # 8 UNDEFINED", "saddlv", None),
    (0xD65F03C0, ".inst 0xd65f03c0  # 7 UNKNOWN", "saddlv", None),
]


def shown():
    """A session's text says which core it is for and which words that core has not; version 1 has no line of facts and every word."""
    for facts in (None, *range(32)):
        known = 31 if facts is None else facts
        lines = ["k 1"] if facts is None else ["k 1", " ".join(["facts"] + [name.lower() for name in FACTS if facts & bits([name])])]
        lines += ["program"] + [line if have(known, name) else line + more for _, line, name, more in SHOWN]
        one = layout.Session(1, [bytes(16)] * 32, [bytes(2)] * 16, [word for word, *_ in SHOWN], facts)
        expect(readable.text_of(one) == "\n".join(lines + [""]), "with the facts", str(facts), "a session is shown as", readable.text_of(one))
        expect(readable.session_of(readable.text_of(one).encode()) == one, "the text does not mean its session")
