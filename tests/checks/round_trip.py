"""A session's text means the session again, and a file that is no session is refused as walk refuses it."""
import functools
import random
import struct

from sessions import layout, readable, saying, words

from .common import expect, make, read, show, walk


def any_session(dice, length=None, facts=None):
    """A session with some registers zero, some short, some full; accepted words and others; of version 2 where facts are given."""
    k = length or dice.choice(layout.LENGTHS)

    def register(size):
        kind = dice.randrange(4)
        if kind == 0:
            return bytes(size)
        if kind == 1:
            return dice.randbytes(dice.randrange(size)).ljust(size, b"\0")
        return bytes([dice.choice((0, 0xFF, 0x55, 0x11, 1))]) * size if kind == 2 else dice.randbytes(size)

    program = [any_word(dice) if dice.randrange(30) else dice.getrandbits(32) for _ in range(dice.randrange(40))]
    return layout.Session(k, [register(16 * k) for _ in range(32)], [register(2 * k) for _ in range(16)], program, facts)


@functools.lru_cache(None)
def shapes(facts):
    """The words that a core of these facts accepts, with zeros for their fields."""
    return [(word, fields) for word, fields in words.SHAPES.values() if not words.lacking(word, facts)]


def any_word(dice, facts=words.EVERY_FACT):
    """A word that a core of these facts accepts, every row and size alike."""
    word, fields = dice.choice(shapes(facts))
    for field in fields:
        shift, most = words.FIELDS[field]
        word |= dice.randint(0, most) << shift
    return word


def check():
    dice = random.Random(4)
    for number in range(600):
        session = any_session(dice, facts=[None, *range(32)][number % 33])
        text = readable.text_of(session)
        expect(("facts" in text) == (session.facts is not None), "a line of facts is shown in version 2 alone:", text)
        expect(readable.session_of(text.encode()) == session, "the text does not mean its session:", text)
        expect(layout.unpacked(layout.packed(session)) == session, "a session's bytes do not give it back")
    for name in ("paper.session", "paper-2.session"):
        paper = read("examples", name)
        text = show("-", stdin=paper).expect(0).out
        make("-", stdin=text).expect(0, out=paper)
        no_sessions(paper, dice)
    show("-", stdin=read("examples/paper.session")[:-1]).expect(3, "it has 567 bytes, and with k = 1 and 4 words it would have 568", out=b"")
    show("-", stdin=paper[:-1]).expect(3, "it has 568 bytes, and with k = 1 and 4 words in version 2 it would have 569", out=b"")
    show("-", stdin=paper[:8]).expect(3, "it has 8 bytes, and the head alone has 9 in version 2", out=b"")
    show("-", stdin=paper[:3]).expect(3, "it has 3 bytes, and the head alone has 8, or 9 in version 2", out=b"")
    lengths()
    heads()


def refused(data):
    """Why bin/ finds no session in the bytes; nothing where they are one. walk prints 14 exactly where there is a reason."""
    try:
        layout.unpacked(data)
        reason = ""
    except saying.Bad as bad:
        reason = str(bad)
    expect((walk(data) == "14\n") == bool(reason), "walk and bin/ differ on", data[:12], "of", str(len(data)), reason)
    return reason


def lengths():
    """Of all that a byte can say, five are lengths."""
    taken = [k for k in range(256) if not refused(b"LNW" + struct.pack("<HBH", 1, k, 0) + bytes(544 * k))]
    expect(taken == [1, 2, 4, 8, 16], "the lengths that are taken are", taken)


def heads():
    """Of the versions two are taken, each with its own head, and of the facts bytes those without a higher bit."""
    for version in (0, 1, 2, 3, 0x101, 0x102, 0x200, 0xFFFF):
        for size in (8, 9):
            data = b"LNW" + struct.pack("<HBH", version, 1, 0) + bytes(size - 8 + 544)
            reason = refused(data)
            expect(bool(reason) == ((version, size) not in ((1, 8), (2, 9))), "a head of", str(size), "bytes in version", str(version), reason)
            expect(version in (1, 2) or "its version is %d, not 1 or 2" % version in reason, reason)
    second = b"LNW" + struct.pack("<HBH", 2, 1, 0)
    taken = [facts for facts in (*range(33), 63, 64, 95, 128, 159, 224, 255) if not refused(second + bytes([facts]) + bytes(544))]
    expect(taken == list(range(32)), "the facts that are taken are", taken)
    for facts, bits in ((0x20, "bit 5"), (0x5F, "bit 6"), (0xA0, "bit 5 and bit 7"), (0xFF, "bit 5 and bit 6 and bit 7")):
        reason = refused(second + bytes([facts]) + bytes(544))
        expect("its facts byte has %s set, and only bits 0 to 4 are facts" % bits in reason, reason)


def no_sessions(paper, dice):
    """walk prints 14 exactly where bin/ finds no session."""
    wrong = [paper[:i] for i in (0, 1, 3, 7, 8, 9, 10, len(paper) - 1)] + [paper + b"\0", b"LNX" + paper[3:], b"LNW" + struct.pack("<HBH", 1, 1, 0) + bytes(544)]
    for place in range(9):
        for _ in range(20):
            wrong.append(paper[:place] + dice.randbytes(1) + paper[place + 1:])
    for data in wrong:
        refused(data)
