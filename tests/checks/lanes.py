"""The lanes that are drawn, read back from the drawing of every row of the table, at every size and length, of every kind, with full and with
sparse registers, with the destination among the sources and without: they are the registers of the proved program's walk to the byte,
each lane is marked as it enters, each sum stands beneath the lanes that it is of and is marked exactly where it came round. Then wrong drawings,
which must be found, and lines that are not the session's, which must be refused."""
import os
import random
import re
import tempfile
from itertools import product

from sessions import drawing, layout, readable, words

from .common import Failed, Ran, expect, place, read, run, walk
from .drawn import makes_predicate, steps_of
from .made import MadeReading, number_of
from .meant import meant_by
from .reading import SEEN, Reading
from .round_trip import shapes


def check():
    SEEN.clear()
    dice = random.Random(5)
    for k, sparse, pattern in product(layout.LENGTHS, (False, True), PATTERNS):
        session = layout.Session(k, [register(dice, 16 * k, sparse) for _ in range(32)], [predicate(dice, 2 * k) for _ in range(16)],
                                 [word(dice, shape, pattern) for shape in shapes(words.EVERY_FACT)])
        lines = walk(layout.packed(session))
        for kind in drawing.KINDS:
            expect(read_back(session, lines, drawing.drawn(session, lines.encode(), kind), kind) == len(session.words), "steps are missing")
    for family in ("addv", "addqv", "addlv", "adalp", "addl", "subl", "addw", "subw"):
        expect(SEEN[family, True] and SEEN[family, False], "no sum, or every sum, of", family, "came round")
    examples()
    kinds()
    short()
    slips()
    refused_lines()


PATTERNS = ("dnm", "ddm", "dnd", "dnn", "ddd")  # which of the numbers d, n and m are one


def word(dice, shape, pattern):
    """A word of a shape with any numbers, those equal that the pattern has equal."""
    value, fields = shape
    numbers = dict(zip("dnm", dice.sample(range(32), 3)))
    for field in fields:
        shift, most = words.FIELDS[field]
        value |= (numbers[pattern["dnm".index(field)]] if field in "dnm" else dice.randint(0, most)) << shift
    return value


def register(dice, size, sparse):
    """A register with at most three lanes that are not zero, or a full one; with the largest and the smallest numbers among them."""
    ends = b"\xff" * 8, b"\xff" * 7 + b"\x7f", b"\0" * 7 + b"\x80", b"\xff\x7f\0\x80" * 2
    full = b"".join(dice.choice((dice.randbytes(8), *ends)) for _ in range(size // 8))
    if not sparse:
        return full
    data = bytearray(size)
    for _ in range(dice.randrange(4)):
        width = dice.choice((1, 2, 4, 8))
        at = dice.randrange(size // width) * width
        data[at:at + width] = full[at:at + width]
    return bytes(data)


def predicate(dice, size):
    """A predicate with every bit, none, one missing, some stretches or any bits."""
    every = (1 << 8 * size) - 1
    first, last = sorted(dice.randrange(8 * size) for _ in range(2))
    bits = dice.choice((every, 0, every ^ 1 << first, every ^ (1 << last) - (1 << first), dice.getrandbits(8 * size), dice.getrandbits(8 * size)))
    return bits.to_bytes(size, "little")


def read_back(session, lines, shown, kind):
    """Reads a drawing and holds it to the session and walk's lines; how many steps it has."""
    steps, refused = steps_of(shown)
    lines, vectors, predicates = lines.split("\n")[:-1], list(session.vectors), list(session.predicates)
    if refused is not None:
        expect(lines.pop() == refused, "the refused line is drawn otherwise:", refused)
    expect([step.title for step in steps] == [line.rsplit(" ", 1)[0] for line in lines], "the steps that are drawn differ from walk's")
    for step, line in zip(steps, lines):
        after = bytes.fromhex(line.rsplit(" ", 1)[1])[::-1]
        try:
            (read_predicate if makes_predicate(step) else read_vector)(step, vectors, predicates, after, kind)
        except Failed as reason:
            raise Failed("%s, as %s with k = %d: %s" % (step.title, kind, session.k, reason))
    return len(steps)


def read_vector(step, vectors, predicates, after, kind):
    """Reads a step that leaves these bytes in a vector register, and puts them among the vectors."""
    as_signed = kind == "signed" or kind != "unsigned" and step.title.split(" ")[2][0] == "s"
    meant = meant_by(step.title, len(after), predicates, as_signed)
    Reading(step, meant, vectors, after, kind, as_signed).check()
    vectors[meant.d] = after


def read_predicate(step, _, predicates, after, __):
    """Reads a step that leaves these bytes in a predicate register, and puts them among the predicates."""
    number = number_of(step.title)
    MadeReading(step, predicates[number], after).check()
    predicates[number] = after


def examples():
    """Every example, as run draws it and of every kind."""
    for name in sorted(os.listdir(place("examples"))):
        if not name.endswith((".txt", ".session")):
            continue
        data = read("examples", name)
        session = readable.session_of(data) if name.endswith(".txt") else layout.unpacked(data)
        lines = walk(layout.packed(session))
        for kind in drawing.KINDS:
            expect(read_back(session, lines, drawing.drawn(session, lines.encode(), kind), kind), "no step is drawn of", name)
        drawn = run("--lanes", place("examples", name))
        expect(drawn.out.decode() == drawing.drawn(session, lines.encode(), "own") and drawn.status in (0, 3), "run draws otherwise", name)


def kinds():
    """The kinds of numbers, as run is asked for them."""
    text = b"k 1\nz1.b -1 -1\np0.b all\nprogram\nsaddv d0, p0, z1.b\n"
    for option, value, total in (("", "  -1  -1   0", "-2"), ("=signed", "  -1  -1   0", "-2"), ("=hex", "  ff  ff  00", "fffffffffffffffe"),
                                 ("=unsigned", " 255  255    0", "18446744073709551614*")):
        drawn = run("--lanes" + option, "-", stdin=text).expect(0).out.decode()
        expect("value %s " % value in drawn and "sum of all 16 lanes: %s\n" % total in drawn, option, "is drawn as", drawn)


# sixteen channels of a byte, of which 7 is off, added up and kept in totals
STORY = b"""k 1
z1.b 12 11 13 12 14 10 12 127 -4 -3 -5 -4 -2 -6 -4 -3
z2.h 0 0 0 32760
z3.b -1 5
p0.b 1 1 1 1 1 1 1 0 1 1 1 1 1 1 1 1
p1.h 1 0 1 1
program
saddv d0, p0, z1.b
addqv v4.16b, p0, z1.b
sadalp z2.h, p1/m, z1.b
usublb z5.h, z3.b, z1.b
uaddlv h6, v1.8b
"""


def slips():
    """Drawings that are wrong in one place: a reader who trusts the picture would be misled, and the reader here finds each."""
    session = readable.session_of(STORY)
    lines = walk(layout.packed(session))
    shown = drawing.drawn(session, lines.encode(), "own")
    read_back(session, lines, shown, "own")
    head, saddv, addqv, sadalp, usublb, uaddlv = shown.split("\n\n")
    for step, old, new in (
        (saddv, " 0   1   2   3   4   5   6   7   8   9  10  11  12  13  14  15", " 1   2   3   4   5   6   7   8   9  10  11  12  13  14  15  16"),
        (saddv, "+ off   +", "+   + off"), (saddv, "+ off   +", "+   +   +"), (saddv, "lane 7 is off", "lane 8 is off"),
        (saddv, "15 of 16", "16 of 16"), (saddv, "  12 127  -4", " 127  12  -4"), (saddv, "active lanes: 53", "active lanes: 54"),
        (saddv, "after   53   0", "after    0  53"), (saddv, "lane     0   1   2", "lane    0   1    2"), (saddv, "as Arm counts", "as we count"),
        (addqv, "sum     12  11", "sum     11  12"), (addqv, "sum     12", "sum    12 "), (addqv, "  12   0 252", "   0  12 252"),
        (addqv, "\n1 0", "1 0"),
        (sadalp, "kept", "   0"), (sadalp, "32760 |", "32759 |"), (sadalp, "-32637*|", "-32637 |"), (sadalp, "-32637*|", " 32637*|"),
        (sadalp, "modulo 65536 (2^16)", "modulo 256 (2^8)"), (sadalp, "off and kept", "off"),
        (sadalp, "| off off |   +   + |", "|   +   + | off off |"), (sadalp, "|       0 |       1 |", "|       1 |       0 |"),
        (sadalp, "|       0 |       1 |", "|     0 |         1 |"), (usublb, "|   0   1 |   2   3 |", "|   0   1 |   3   2 |"),
        (usublb, "   -   . |", "   .   - |"), (usublb, "   243 |", "   244 |"), (usublb, "   243 |", "   243*|"),
        (usublb, "the even lanes", "the odd lanes"), (uaddlv, "lanes 8 to 15", "lanes 9 to 15"), (uaddlv, "+   +\n", "+   .\n"),
        (uaddlv, "z6.h", "z7.h"),
    ):
        at = shown.index(old, 0 if old in head else shown.index(step) - 1)
        wrong = shown[:at] + new + shown[at + len(old):]
        expect(not holds(session, lines, wrong), new, "in place of", old, "is not found in", step)


def holds(session, lines, shown):
    """Whether a drawing is that of the walk."""
    try:
        read_back(session, lines, shown, "own")
        return True
    except (Failed, ValueError, LookupError):
        return False


def short():
    """At k = 16 a step of vectors that are zero but for a lane or two is told in few lines, whichever lanes are off."""
    dice = random.Random(6)
    for shape in shapes(words.EVERY_FACT):
        if "made" in shape[1]:
            continue
        for lane in (None, 0, 77, 255):
            vectors = [bytes(256)] * 32
            if lane is not None:
                vectors[1] = vectors[2] = bytes(lane) + b"\x7f" + bytes(255 - lane)
            value, fields = shape
            number = value | sum({"d": 0, "n": 1, "m": 2, "g": 0}[field] << words.FIELDS[field][0] for field in fields)
            session = layout.Session(16, vectors, [predicate(dice, 32)] * 16, [number])
            lines = walk(layout.packed(session))
            shown = drawing.drawn(session, lines.encode(), "own")
            expect(read_back(session, lines, shown, "own") == 1, "no step is drawn")
            sentences = max(12, shown.count("of these") * 24)  # any lanes may be off, and are listed
            expect(shown.count("\n") < sentences + (10 if lane is not None else 0), "many lines are drawn of little:", shown)


def refused_lines():
    """What show-lanes refuses as lines of a session: in one sentence, without letters that a terminal would obey, and with status 3."""
    session = readable.session_of(b"k 1\nfacts sve\nz1.b 1 2\np0.b all\nprogram\nsaddv d0, p0, z1.b\nuaddv d3, p0, z1.b\nsadalp z3.h, p0/m, z1.b\n")
    lines = walk(layout.packed(session)).encode()
    first, second, third = lines.splitlines(True)
    expect(third == b"2 8 4444a023\n", "walk ends otherwise:", third)
    with tempfile.TemporaryDirectory() as room:
        paths = [os.path.join(room, name) for name in ("session", "lines")]

        def shown(data, kind="own", given=session):
            for path, written in zip(paths, (layout.packed(given), data)):
                with open(path, "wb") as file:
                    file.write(written)
            return Ran(["python3", place("bin/show-lanes"), kind, *paths])

        for kind in drawing.KINDS:
            shown(lines, kind).expect(0, out=drawing.drawn(session, lines, kind).encode())
        shown(b"14\n").expect(0, out=b"14\n")
        shown(b"0 8 04002020\n", given=session._replace(facts=0)).expect(0, out=b"0 8 04002020\n")
        shown(b"", given=session._replace(words=[])).expect(0, out=b"")
        every = session._replace(facts=31)
        for data, given in [(data, session) for data in not_its_own(first, second, third)] + [(lines, every), (lines, session._replace(words=[]))]:
            said = shown(data, given=given).expect(3, "show-lanes: " + paths[0] + ": ", out=b"").err
            expect(re.fullmatch("[ -~]*\n", said), "it is refused in other than one plain line:", said)
        shown(lines, "octal").expect(2, "give own, signed, unsigned or hex", out=b"")
        Ran(["python3", place("bin/show-lanes"), "own", paths[1], paths[1]]).expect(3, "it does not begin with the mark LNW", out=b"")
        Ran(["python3", place("bin/show-lanes"), "own", paths[0], os.path.join(room, "none")]).expect(1, "No such file", out=b"")
    shown = Ran(["python3", place("bin/show-lanes"), "--help"]).expect(0)
    expect(b"Exit status: 0" in shown.out and not shown.err, "--help")


def not_its_own(first, second, third):
    """Lines that are not walk's for the session of these three."""
    lines, rest = first + second + third, second + third
    return [
        b"", b"\n", b"anything\n", b"\x1b[2J\x07\n", b"\xff\xfe\x85\n", first + b"\x1b]0;title\x07\n" + third, first.replace(b"\n", b"\x0b") + rest,
        first, first + second, third, second + first + third, first + first + third, lines + third, lines + b"\n", lines[:-1],
        first[:-1] + b"\r\n" + rest, first[:-1] + b" \n" + rest, b" " + lines, b"0" + lines, first.upper() + rest,
        first.replace(b"0 0", b"0 1") + rest, first.replace(b"z1.b", b"z2.b") + rest, first.replace(b" 00", b" 0") + rest,
        first.replace(b" 00", b" 000") + rest, first.replace(b" 00", b" 01") + rest, first.replace(b" 00", b" 0x") + rest,
        first.replace(b" 00", b" +0") + rest, first.replace(b"03\n", b"04\n") + rest,
        first + second + b"2 7 4444a023\n", first + second + b"2 9 4444a023\n", first + second + b"2 8 4444a024\n",
        first + second + b"2 8 4444A023\n",
        first + second + b"2 0 sadalp z3.h, p0/m, z1.b " + b"0" * 28 + b"0006\n", first + b"1 8 04012023\n", b"14", b"14\n14\n", first + b"14\n",
    ]
