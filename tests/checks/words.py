"""The words of bin/ against the proved engine.

`accepted` lists every accepted word with its text, written anew from the paper's table. For each of the 1,724,432: walk, the proved program,
steps it and prints this text; bin/ assembles the text to the word, and names the word by the text. Words that are refused, for each row
and size with the fields at their ends: bin/ and walk give the same number. So bin/'s assembler is held to the proved engine's answers
over all accepted words; that it accepts no other text is held by `sound`, over texts with a change at any place, and by `three_registers`,
over every choice of letters."""
import multiprocessing
import random
import struct
from itertools import product

from sessions import saying, words

from . import common
from .common import expect, walk
from .patterns import NAMES, made, makes

WORDS, UNDEFINED = 1724432, 555008


def widening():
    """The widening words, from the first of each four: bit 11 makes the first letter u, bit 10 the last t."""
    for name, value in (("saddlb", 0x45000000), ("ssublb", 0x45001000), ("saddwb", 0x45004000), ("ssubwb", 0x45005000)):
        for u, t in product((0, 1), repeat=2):
            yield "su"[u] + name[1:-1] + "bt"[t], 0xFF20FC00, value | u << 11 | t << 10, (1, 2, 3)


# name, mask, value, sizes allowed: the paper's table
TABLE = [
    ("saddv", 0xFF3FE000, 0x04002000, (0, 1, 2)),
    ("uaddv", 0xFF3FE000, 0x04012000, (0, 1, 2, 3)),
    ("addqv", 0xFF3FE000, 0x04052000, (0, 1, 2, 3)),
    ("saddlv", 0xBF3FFC00, 0x0E303800, (0, 1, 2)),
    ("uaddlv", 0xBF3FFC00, 0x2E303800, (0, 1, 2)),
    ("sadalp", 0xFF3FE000, 0x4404A000, (1, 2, 3)),
    ("uadalp", 0xFF3FE000, 0x4405A000, (1, 2, 3)),
    *widening(),
    ("ptrue", 0xFF3FFC10, 0x2518E000, (0, 1, 2, 3)),
    ("pfalse", 0xFFFFFFF0, 0x2518E400, (0,)),
]
T = "bhsd"


def text(name, word):
    """The paper's text of an accepted word: 'How a word reads', form by form."""
    size, d, n, g, m, q = word >> 22 & 3, word & 31, word >> 5 & 31, word >> 10 & 7, word >> 16 & 31, word >> 30 & 1
    if name in ("saddv", "uaddv"):
        return "%s d%d, p%d, z%d.%s" % (name, d, g, n, T[size])
    if name == "addqv":
        return "addqv v%d.%s, p%d, z%d.%s" % (d, ("16b", "8h", "4s", "2d")[size], g, n, T[size])
    if name in ("saddlv", "uaddlv"):
        return "%s %s%d, v%d.%s" % (name, "hsd"[size], d, n, (("8b", "4h", None), ("16b", "8h", "4s"))[q][size])
    if name in ("sadalp", "uadalp"):
        return "%s z%d.%s, p%d/m, z%d.%s" % (name, d, T[size], g, n, T[size - 1])
    if makes(name):
        return "ptrue p%d.%s, %s" % (d, T[size], NAMES[n]) if name == "ptrue" else "pfalse p%d.b" % d
    first = T[size] if name[4] == "w" else T[size - 1]
    return "%s z%d.%s, z%d.%s, z%d.%s" % (name, d, T[size], n, first, m, T[size - 1])


def matching(mask, value):
    """Every word with word AND mask = value."""
    free = [bit for bit in range(32) if not mask >> bit & 1]
    low = [bit for bit in free if bit < 16]
    high = [bit for bit in free if bit >= 16]
    lows = [sum(1 << bit for bit, on in zip(low, bits) if on) for bits in product((0, 1), repeat=len(low))]
    for bits in product((0, 1), repeat=len(high)):
        first = value | sum(1 << bit for bit, on in zip(high, bits) if on)
        for rest in lows:
            yield first | rest


def allowed(name, sizes, word):
    """Whether the word's size is allowed, with Q where the row has it."""
    size = word >> 22 & 3
    return size in sizes and not (name in ("saddlv", "uaddlv") and size == 2 and not word >> 30 & 1)


def session(program):
    """A session of k = 1 with all registers zero."""
    return b"LNW" + struct.pack("<HBH", 1, 1, len(program)) + bytes(544) + struct.pack("<%dI" % len(program), *program)


def left(word, reads):
    """The register that a word leaves at k = 1 where every vector is zero, as walk prints it."""
    return "%04x" % made(word, 1) if makes(reads.split(" ")[0]) else "0" * 32


def stepped(batch):
    """The proved program steps each word and prints its text."""
    lines = walk(session([word for word, _ in batch])).split("\n")
    expect(lines[-1] == "" and len(lines) == len(batch) + 1, "walk ends after", lines[-2:])
    for place, (line, (word, reads)) in enumerate(zip(lines, batch)):
        expect(line == "%d 0 %s %s" % (place, reads, left(word, reads)), line, "for the word", hex(word))


def row_checked(row):
    """Every word of a row: how many are accepted and undefined, some of those accepted, and how many checks held."""
    name, mask, value, sizes = row
    accepted, undefined, batch, some = 0, 0, [], []
    common.held = 0
    for word in matching(mask, value):
        if not allowed(name, sizes, word):
            undefined += 1
            continue
        accepted += 1
        reads = text(name, word)
        expect(words.assembled(reads) == word, reads, "is not assembled to", hex(word))
        expect(words.named(word) == reads, hex(word), "is not named", reads)
        batch.append((word, reads))
        if len(batch) == 256:
            stepped(batch)
            some.append(batch[accepted // 256 % 256])
            batch = []
    if batch:
        stepped(batch)
    return accepted, undefined, some, common.held


def check():
    accepted, undefined, some = 0, 0, []
    with multiprocessing.Pool() as pool:
        for done, not_allowed, chosen, held in pool.imap(row_checked, TABLE):
            accepted, undefined, some = accepted + done, undefined + not_allowed, some + chosen
            common.held += held
    expect((accepted, undefined) == (WORDS, UNDEFINED), "accepted and undefined words are counted as", str((accepted, undefined)))
    refused()
    sound(some)
    three_registers()


def refused():
    """Words that are refused: the same number from bin/ and from walk."""
    some = []
    for name, mask, value, sizes in TABLE:
        fields = ~mask & 0x3F3FFFFF  # all free bits but size and Q
        for size, q in product(range(4), (0, 1)):
            word = value | size << 22 | (q << 30 & ~mask)
            if not allowed(name, sizes, word):
                some += [word, word | fields]
        for bit in range(32):
            if mask >> bit & 1:
                some.append(value ^ 1 << bit | sizes[-1] << 22)  # a neighbour of the row
    dice = random.Random(1)
    some += [dice.getrandbits(32) for _ in range(200)] + [0, 0xFFFFFFFF]
    for word in dict.fromkeys(some):
        number, _ = words.decoded(word)
        line = walk(session([word])).split(" ")
        expect(line[:2] == ["0", str(number)], hex(word), "is answered with", line, "and in bin/ with", str(number))


def sound(some):
    """A text that is assembled is, in the paper's spacing, case and spelling, the text of its word."""
    dice = random.Random(2)
    letters = "abdghlmpqstuvwxz0123456789 ,./#"
    for _, reads in some:
        for _ in range(12):
            at, kind = dice.randrange(len(reads)), dice.randrange(3)
            changed = reads[:at] + dice.choice(letters) * (kind > 0) + reads[at + (kind < 2):]
            try:
                word = words.assembled(changed)
            except saying.Bad:
                expect(words.exact(changed) != reads, changed, "is refused")
                continue
            expect(words.named(word) == words.exact(changed), changed, "is assembled to", hex(word))


def three_registers():
    """Of the texts with three vector registers, those are accepted whose letters fit: H is half of T, and zN has T in a wide form alone."""
    for name, _, value, _ in TABLE:
        for d, n, m in product("bhsdq", repeat=3):
            reads = "%s z31.%s, z0.%s, z7.%s" % (name, d, n, m)
            fits = value >> 24 == 0x45 and d + m in ("hb", "sh", "ds") and n == (d if name[4] == "w" else m)
            try:
                words.assembled(reads)
                expect(fits, reads, "is assembled")
            except saying.Bad:
                expect(not fits, reads, "is refused")
