"""Predicates that a program makes: ptrue and pfalse in every spelling that is taken and no other, what the proved program leaves for every pattern, size and
length, later words governed by it, and its lanes read back from the drawing; then wrong drawings, which must be found, and wrong lines."""
import random
from itertools import product

from sessions import drawing, layout, readable, saying

from .common import expect, make, run, show, walk
from .lanes import holds, predicate, read_back, register
from .patterns import NAMES, made, pfalse, ptrue
from .round_trip import any_word

PROGRAM = "k 1\nprogram\n"
T = "bhsd"


def check():
    spellings()
    no_spellings()
    disassembled()
    every_pattern()
    governing()
    from_zeros()
    short()
    slips()
    wrong_lines()


def spellings():
    """Every spelling of a word is taken and is the word, and the word is shown in one of them."""
    for size, pattern, d in product(range(4), range(32), (0, 3, 10, 15)):
        name, word = NAMES[pattern], ptrue(d, size, pattern)
        numbers = ["%d" % pattern, "0x%x" % pattern, "0X%X" % pattern, "0x%02x" % pattern, "0x%04X" % pattern]
        patterns = [name, name.upper(), name.capitalize(), *numbers, *("#" + number for number in numbers)]
        texts = ["ptrue p%d.%s, %s" % (d, T[size], spelled) for spelled in patterns]
        texts += ["PTRUE\tP%d.%s,%s" % (d, T[size].upper(), name), "  ptrue  p%d . %s  ,  %s  " % (d, T[size], name)]
        texts += ["ptrue p%d.%s,%d # %s" % (d, T[size], pattern, name), "0: %08x ptrue p%d.%s, %d" % (word, d, T[size], pattern)]
        if name == "all":
            texts += ["ptrue p%d.%s" % (d, T[size]), "PTRUE P%d.%s // every lane" % (d, T[size].upper())]
        spelled_alike(texts, word, "ptrue p%d.%s, %s" % (d, T[size], name))
    for d in range(16):
        spelled_alike(["pfalse p%d.b" % d, "PFALSE P%d.B" % d, " pfalse\tp%d . b ; none" % d], pfalse(d), "pfalse p%d.b" % d)


def spelled_alike(texts, word, shown):
    """The texts make one word, which is shown as one of them."""
    session = readable.session_of((PROGRAM + "\n".join(texts)).encode())
    expect(session.words == [word] * len(texts), texts, "do not all make", hex(word))
    expect(readable.text_of(session._replace(words=[word])) == PROGRAM + shown + "\n", hex(word), "is not shown as", shown)


# numbers that are no pattern's or are spelled in a way that is not taken, each with '#' and without
NO_NUMBERS = [
    "-1", "+1", "014", "00", "00x1", "1f", "1fh", "0b11", "0o17", "0x", "0x1g", "1.0", "1e1", "1_0", "1+1", "15-1", "(1)", "1 4", "0x 1",
    "9" * 33, "9" * 50, "9" * 5000, "0x" + "f" * 33, "0x" + "f" * 50,
]
OVER_31 = ["32", "33", "255", "9" * 32, "0x20", "0x0020", "0xff", "0x" + "f" * 32]

# operands that are not taken
NO_PTRUE = [
    "", "p0", "p16.b", "p31.b", "p00.b", "p01.h", "p0.q", "p0.x", "p0.", "p0b", "p0/m", "p0/z", "z0.b", "v0.16b", "d0", "pn8.b", "p0.b,", ", all", "p0.b all",
    "p0.b, all,", "p0.b, all, all", "p0.b, p1.b", "p0.b, mul #4", "p0.b, all, mul #1",
    *("p0.b, " + pattern for pattern in (
        *(sign + number for sign in ("", "#") for number in NO_NUMBERS), "#", "##1", "# 1", "1#", "#all", "#vl1", "#pow2", "vl", "vl0", "vl01", "vl9", "vl10",
        "vl15", "vl17", "vl512", "vl2048", "pow", "pow1", "pow4", "mul", "mul1", "mul2", "mul5", "any", "none", "alls", "a")),
]
NO_PFALSE = ["", "p0", "p0.h", "p0.s", "p0.d", "p16.b", "p00.b", "p0.b, all", "p0.b,", "p0/m", "z0.b", "p0.b, #31", "p0.b, 31", "pn0.b"]


def no_spellings():
    """What is not taken is refused, with its line and a plain reason of one line that says what there is; a number over 31 as it was written."""
    for name, operands in [("ptrue", text) for text in NO_PTRUE] + [("pfalse", text) for text in NO_PFALSE]:
        text = PROGRAM + name + " " + operands
        try:
            readable.session_of(text.encode())
            expect(False, text[:60], "is taken")
        except saying.Bad as bad:
            expect(bad.line == 3 and len(str(bad)) < 400 and str(bad).isprintable(), text[:60], "is refused as", str(bad))
            expect(any(part in str(bad) for part in (name + " pD.b", "p0 to p15", "leading zero")), text[:60], "is refused as", str(bad))
    make("-", stdin=(PROGRAM + "ptrue p16.b").encode()).expect(3, "line 3: a predicate is p0 to p15, not 'p16'", out=b"")
    for number in OVER_31:
        for written in (number, "#" + number):
            make("-", stdin=(PROGRAM + "ptrue p0.b, " + written).encode()).expect(3, "line 3: a pattern is 0 to 31, or a name, not '%s'\n" % written, out=b"")
    make("-", stdin=(PROGRAM + "pfalse p0.h").encode()).expect(3, "line 3: 'pfalse p0.h' is none of the forms of pfalse", "pfalse pD.b", out=b"")
    make("-", stdin=(PROGRAM + "ptruep0.b").encode()).expect(3, "line 3: a space is missing after ptrue: write 'ptrue p0.b'", out=b"")
    make("-", stdin=b"k 1\nptrue p0.b").expect(3, "line 2: the words stand after a line 'program'", out=b"")


def disassembled():
    """A disassembler's lines: the pattern left out, in hex or without '#' beside its word; another instruction of the name counts by its word alone."""
    listing = ("   0:\t2518e3e0 \tptrue\tp0.b\n   4:\t2558e1c1 \tptrue\tp1.h, #0xe\n   8: c2 e1 98 25  \tptrue\tp2.s, #14\n   c:\t2518e403 \tpfalse\tp3.b\n"
               "  10:\t25d8e003 \tptrue\tp3.d, pow2\n  14:\tptrue\tp4.b, vl3\n  18:\t25207810 \tptrue\tpn8.b\n"
               "  1c:\t2518e1c0 \tptrue\tp0.b, 14\n  20: c0 e1 18 25  \tptrue\tp0.b, 0xe\n  24:\tptrue\tp0.b, 0x0e\n")
    session = make("-", stdin=(PROGRAM + listing).encode()).expect(0).out
    shown = "ptrue p0.b, all\nptrue p1.h, #14\nptrue p2.s, #14\npfalse p3.b\nptrue p3.d, pow2\nptrue p4.b, vl3\n.inst 0x25207810  # 7 UNKNOWN\n"
    shown += "ptrue p0.b, #14\n" * 3
    show("-", stdin=session).expect(0, out=(PROGRAM + shown).encode())
    for line, reads in (("0: 2518e3e0 ptrue p0.b, vl8", "reads 'ptrue p0.b, all'"), ("0: 2518e3e0 pfalse p0.b", "reads 'ptrue p0.b, all'"),
                        ("0: 2518e3f0 ptrue p0.b", "is not accepted"), ("0: 2518e1c0 ptrue p0.b, 15", "reads 'ptrue p0.b, #14'")):
        make("-", stdin=(PROGRAM + line).encode()).expect(3, reads, out=b"")


def every_pattern():
    """Every pattern at every size and length, and pfalse, over any predicates: walk leaves what the paper says, and it is drawn so."""
    dice = random.Random(8)
    for k in layout.LENGTHS:
        program = [ptrue(dice.randrange(16), size, pattern) for size, pattern in product(range(4), range(32))]
        program += [pfalse(d) for d in range(16)] + [ptrue(d, d % 4, 31) for d in range(16)]
        dice.shuffle(program)
        session = layout.Session(k, [bytes(16 * k)] * 32, [predicate(dice, 2 * k) for _ in range(16)], program)
        lines = walk(layout.packed(session))
        for line, word in zip(lines.split("\n"), program):
            expect(line.endswith(" %0*x" % (4 * k, made(word, k))), "walk leaves otherwise, with k =", str(k), ":", line)
        for kind in drawing.KINDS:
            expect(read_back(session, lines, drawing.drawn(session, lines.encode(), kind), kind) == len(program), "steps are missing")


def governing():
    """Programs in which made predicates govern later words, whose lanes are drawn as the program left them."""
    dice = random.Random(9)
    for k, _ in product(layout.LENGTHS, range(8)):
        makes = [ptrue(dice.randrange(8), dice.randrange(4), dice.choice((0, 3, 8, 9, 10, 14, 29, 30, 31))) for _ in range(30)]
        program = makes + [pfalse(dice.randrange(8)) for _ in range(4)] + [any_word(dice) for _ in range(40)]
        dice.shuffle(program)
        session = layout.Session(k, [register(dice, 16 * k, False) for _ in range(32)], [predicate(dice, 2 * k) for _ in range(16)], program)
        lines = walk(layout.packed(session))
        expect(read_back(session, lines, drawing.drawn(session, lines.encode(), "own"), "own") == len(program), "steps are missing")


def from_zeros():
    """A session that starts with 'ptrue p0.b, all' and no predicate set: its line has every bit, and the sums are those of all lanes at every size."""
    for k in layout.LENGTHS:
        text = "k %d\nz1.b %s\nprogram\nptrue p0.b, all\n" % (k, " ".join(str(lane % 100 - 50) for lane in range(16 * k)))
        text += "".join("saddv d%d, p0, z1.%s\n" % (size + 2, T[size]) for size in range(3))
        data, wanted = readable.session_of(text.encode()).vectors[1], ["0 0 ptrue p0.b, all " + "f" * 4 * k]
        for size in range(3):
            total = sum(int.from_bytes(data[at:at + (1 << size)], "little", signed=True) for at in range(0, 16 * k, 1 << size))
            wanted.append("%d 0 saddv d%d, p0, z1.%s %0*x" % (size + 1, size + 2, T[size], 32 * k, total % (1 << 64)))
        run("-", stdin=text.encode()).expect(0, out=("\n".join(wanted) + "\n").encode())
    text = b"k 1\nz1.b 1 2 3 4 5 6 7 8 9 10 11 12 13 14 15 16\nprogram\nptrue p0.b, all\nsaddv d0, p0, z1.b\n"
    run("-", stdin=text).expect(0, out=b"0 0 ptrue p0.b, all ffff\n1 0 saddv d0, p0, z1.b 00000000000000000000000000000088\n")
    refused = run("-", stdin=b"facts sve2 sve2p1 sme2p1\n" + text)
    refused.expect(3, "word 0, 2518e3e0, is refused with 8 UNDEFINED: ptrue needs SVE or SME, and the session's facts have neither", out=b"0 8 2518e3e0\n")


def short():
    """At k = 16 a predicate that was all zeros or all ones is told in few lines, whatever is made of it."""
    for byte, word in product((0, 0xFF), [ptrue(0, size, pattern) for size in range(4) for pattern in range(32)] + [pfalse(0)]):
        session = layout.Session(16, [bytes(256)] * 32, [bytes([byte]) * 32] * 16, [word])
        lines = walk(layout.packed(session))
        shown = drawing.drawn(session, lines.encode(), "own")
        expect(read_back(session, lines, shown, "own") == 1 and shown.count("\n") <= 16, "many lines are drawn of little:", shown)


# a predicate of zeros and one with every bit, made anew
STORY = b"k 2\nz1.h 5 6 7\np1.b all\nprogram\nptrue p0.b, vl3\nptrue p1.h, mul3\nptrue p0.d, vl8\nsaddv d0, p1, z1.h\npfalse p1.b\nptrue p0.s, all\n"


def slips():
    """Drawings that are wrong in one place, each of which is found."""
    session = readable.session_of(STORY)
    lines = walk(layout.packed(session))
    shown = drawing.drawn(session, lines.encode(), "own")
    expect(read_back(session, lines, shown, "own") == 6, "steps are missing")
    for old, new in (
        ("after    1   1   1   0", "after    1   1   0   0"), ("after    1   1   1   0", "after    1   1   1   1"), ("before   0   0", "before   0   1"),
        ("vl3 of 32 lanes: 3", "vl3 of 32 lanes: 4"), ("vl3 of 32 lanes", "vl3 of 16 lanes"), ("vl3 of 32 lanes", "vl4 of 32 lanes"),
        ("p0.b lanes 16 to 31 stay 0", "p0.b lanes 16 to 31 stay 1"), ("p0.b lanes 16 to 31 stay 0", "p0.b lanes 16 to 30 stay 0"),
        ("p0.b lanes 16 to 31", "p1.b lanes 16 to 31"), ("mul3 of 16 lanes: 15, the largest multiple of 3", "mul3 of 16 lanes: 15, the largest multiple of 4"),
        ("16 bits of p1", "15 bits of p1"), ("  16 bits of p1, of no lane of p1.h, were set and are cleared.\n", ""),
        ("Bits 1 and 2 of p0", "Bits 1 and 3 of p0"), ("Bits 1 and 2 of p0", "Bits 1 to 3 of p0"), ("none, for there are not 8", "4"),
        ("none, for there are not 8", "none"), ("15 of 16 lanes of z1.h are active: lane 15 is off", "All 16 lanes of z1.h are active"),
        ("pfalse: none of 32 lanes", "pfalse: none of 16 lanes"), ("p0.s  lane", "p1.s  lane"), ("p1.h  lane     0   1", "p1.h  lane     1   0"),
        (" In a predicate: 1 active, 0\nnot; lane e of w bytes has bit e*w.", ""),
    ):
        expect(shown.count(old) >= 1, old, "is not in the drawing", shown)
        expect(not holds(session, lines, shown.replace(old, new, 1)), new, "in place of", old, "is not found")


def wrong_lines():
    """A line whose predicate is not the one that the word makes, or has another number of digits, is refused."""
    session = readable.session_of(b"k 1\nprogram\nptrue p0.h, vl3\npfalse p1.b\n")
    first, second = "0 0 ptrue p0.h, vl3 0015\n", "1 0 pfalse p1.b 0000\n"
    expect(walk(layout.packed(session)) == first + second, "walk prints otherwise")
    expect(drawing.drawn(session, (first + second).encode(), "own").count("\n\n") == 2, "the lines are drawn otherwise")
    for old, new in (("0015", "0055"), ("0015", "0005"), ("0015", "0017"), ("0015", "8015"), ("0015", "015"), ("0015", "00015"), ("0015", "0" * 28 + "0015"),
                     ("vl3", "#3"), ("vl3", "vl4"), ("p0.h", "p1.h"), ("p1.b 0000", "p1.b 0001"), ("p1.b 0000", "p1.b 000"), ("0 pfalse", "5 pfalse")):
        try:
            drawing.drawn(session, (first + second).replace(old, new, 1).encode(), "own")
            expect(False, new, "in place of", old, "is drawn")
        except saying.Bad as bad:
            expect("of the walk" in str(bad), "it is refused as", str(bad))
