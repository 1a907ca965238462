"""The script run: sessions told by their mark, statuses, refusals by name and reason, links, folders and outputs of every kind."""
import os
import random
import struct
import tempfile

from . import facts, words
from .checkout import Checkout
from .common import Ran, expect, place, read, run, walk

PAPER = ("examples", "paper.session")
TEXT = b"k 1\nz1.b 1 2\np0.b all\nprogram\nsaddv d0, p0, z1.b\n"
LINE = b"0 0 saddv d0, p0, z1.b 00000000000000000000000000000003\n"


def check():
    with tempfile.TemporaryDirectory() as room:
        told_by_mark(room)
        refusals()
        longest()
        names(room)
        outputs()
        links(room)
        explained(Checkout(room).built(), os.path.join(room, "facts.session"))


def told_by_mark(room):
    """A session and a text are told apart by their first bytes, whatever the name and from standard input too."""
    session = read(*PAPER)
    for name, data, status, out in (("a.txt", session, 3, read("examples/paper.expected")), ("b", TEXT, 0, LINE), ("c.session", TEXT, 0, LINE)):
        path = os.path.join(room, name)
        with open(path, "wb") as file:
            file.write(data)
        run(path).expect(status, out=out)
        said = run("-", stdin=data).expect(status, out=out)
        expect(said.err == "" or status == 3, "a walk to its end says something:", said.err)
    run("-", stdin=b"k 1\nprogram\n").expect(0, "nothing to walk", out=b"")
    run("-", stdin=TEXT + b"nonsense\n").expect(3, "run: standard input: line 6: 'nonsense'", "as text for one it is refused", out=b"")
    run("-", stdin=b"").expect(3, "line 1: the text ends", out=b"")
    run("-", stdin=bytes(range(256))).expect(3, "NUL", out=b"")


def head(version, k, count):
    return b"LNW" + struct.pack("<HBH", version, k, count)


def refusals():
    """Each refusal that a walk can show, with its name beside its number."""
    run("-", stdin=TEXT + b".inst 0x04c02020\n").expect(3, "word 1, 04c02020, is refused with 8 UNDEFINED", out=LINE + b"1 8 04c02020\n")
    run("-", stdin=TEXT + b".inst 0xd65f03c0\n").expect(3, "word 1, d65f03c0, is refused with 7 UNKNOWN", out=LINE + b"1 7 d65f03c0\n")
    full = run("-", stdin=b"k 16\nprogram\n" + b"saddv d0, p0, z1.b\n" * 256)
    full.expect(3, "word 254, 04002020, is refused with 9 FULL", "holds 254 entries at k = 16")
    expect(full.out.count(b"\n") == 255 and full.out.endswith(b"\n254 9 04002020\n"), "the walk at k = 16 ends otherwise")
    whole = run("-", stdin=b"k 8\nprogram\n" + b"saddv d0, p0, z1.b\n" * 256).expect(0)
    expect(whole.out.count(b"\n") == 256, "the walk at k = 8 has not 256 lines")
    for data, reason in (
        (b"LNW", "the file has 3 bytes, and a session's head has 8, or 9 in version 2"),
        (b"LNW\n", "the file has 4 bytes"),
        (head(3, 1, 0) + bytes(545), "the version is 3, not 1 or 2"),
        (head(2, 1, 0) + b"\x20" + bytes(544), "the facts byte has bit 5 set, and only bits 0 to 4 are facts"),
        (head(1, 0, 0), "the length k is 0"),
        (head(1, 3, 0) + bytes(544 * 3), "the length k is 3, not 1, 2, 4, 8 or 16"),
        (head(1, 17, 0), "the length k is 17"),
        (head(1, 1, 257) + bytes(544 + 4 * 257), "257 words"),
        (head(1, 1, 0) + bytes(543), "551 bytes, and with k = 1 and 0 words it would have 552"),
        (head(1, 1, 0) + bytes(545), "553 bytes"),
    ):
        run("-", stdin=data).expect(3, "14 SESSION: ", reason, out=b"14\n")
        run("--lanes", "-", stdin=data).expect(3, "14 SESSION: ", out=b"14\n")


def longest():
    """The longest session is walked, and with any byte more it is none: walk sees that there is more than the longest."""
    session = head(2, 16, 256) + b"\x1f" + bytes(8192 + 512) + struct.pack("<I", 0x04002020) * 256
    expect(len(session) == 9 + 8192 + 512 + 1024, "the longest session has", str(len(session)), "bytes")
    lines = walk(session)
    expect(lines.count("\n") == 255 and lines.endswith("\n254 9 04002020\n"), "the longest session ends otherwise:", lines[-200:])
    run("-", stdin=session).expect(3, "word 254, 04002020, is refused with 9 FULL", out=lines.encode())
    for more in (1, 2, len(session)):
        said = walk(session + bytes(more))
        expect(said == "14\n", "with", str(more), "bytes more walk writes", said[:200])
    run("-", stdin=session + bytes(1)).expect(3, "14 SESSION: ", "9738 bytes", out=b"14\n")


def names(room):
    """Names that are no file, and wrong command lines."""
    nowhere = os.path.join(room, "nowhere")
    os.symlink(os.path.join(room, "gone"), nowhere)
    for name, reason in (("", "empty"), (room, "is a folder"), (os.path.join(room, "none"), "there is no file"), (nowhere, "a link to nothing"),
                         ("a\nb\x1b[2J", "there is no file a?b?[2J")):
        run(name).expect(1, reason, out=b"")
    run("--", "--lanes").expect(1, "there is no file --lanes", out=b"")
    run("/dev/zero").expect(3, "more than 1048576 bytes", out=b"")
    run("a", "b").expect(2, "one file at most", out=b"")
    run("--nothing").expect(2, "no such option", out=b"")
    run("--lanes=octal").expect(2, "signed, unsigned or hex", out=b"")
    Ran(["bash", "-c", 'bash "$1" - <&-', "bash", place("run")]).expect(1, "standard input could not be read")
    helped = run("--help").expect(0)
    expect(b"Exit status: 0" in helped.out and b"some minutes" in helped.out and b"'facts sve sve2'" in helped.out and not helped.err, "--help")


def outputs():
    """Standard output that cannot be written is said, and the refusal with it."""
    with open("/dev/full", "wb") as full:
        run(stdout=full).expect(1, "could not be written to its end", "No space left", "8 UNDEFINED")
        run("--lanes", stdout=full).expect(1, "could not be written", "No space left")
        run("--help", stdout=full).expect(1)
    Ran(["bash", "-c", 'bash "$1" >&-', "bash", place("run")]).expect(1, "standard output is closed")
    ends, into = os.pipe()
    os.close(ends)
    run(stdout=into).expect(1, "could not be written to its end")
    os.close(into)


def links(room):
    """Called through a link, and from another folder."""
    link, second = os.path.join(room, "walker"), os.path.join(room, "second")
    os.symlink(place("run"), link)
    os.symlink("walker", second)
    for path in (link, second):
        Ran(["bash", path], cwd="/").expect(3, "8 UNDEFINED", out=read("examples/paper.expected"))
        Ran([path], cwd="/").expect(3, "8 UNDEFINED", out=read("examples/paper.expected"))


def explained(checkout, path):
    """The reasons of refusals, in a copy that has walk and neither rt nor python3."""
    def walked(data, **more):
        with open(path, "wb") as file:
            file.write(data)
        return checkout.run("", path, PATH=checkout.bare, **more)

    reasons(walked)
    no_session(walked)
    asked(checkout, walked)


SIZE = "it is one of the twenty-five instructions, with a size that is not allowed"


def reasons(walked):
    """Why a word is answered with 8: its size, on every core, or else a fact that the core has not, for a word of each row. python3 is not needed."""
    dice = random.Random(7)
    for row in words.TABLE:
        name, need = row[0], facts.need(row[0])
        fits, wrong = facts.any_of(dice, row), facts.any_of(dice, row, False) if name in ("saddv", "saddlv", "sadalp", "usubwt") else None
        lacks = "%s needs %s, and the session's facts have neither" % (name, " or ".join(need))
        others = 31 - facts.bits(need)  # all facts but those needed
        for core, word, reason in (
            (others, need and fits, lacks),
            (others, wrong, SIZE),
            (facts.bits(need[:1]), wrong, SIZE),
            (facts.bits(need[1:]), wrong, SIZE),
        ):
            if word:
                lines = b"0 0 uaddlv h2, v1.8b %s\n1 8 %08x\n" % (b"0" * 32, word)
                said = walked(facts.session(core, [0x2E303822, word])).expect(3, out=lines).err
                expect(said == "run: word 1, %08x, is refused with 8 UNDEFINED: %s; the walk ends there\n" % (word, reason), said)


# a stand-in for walk, to which one instruction needs whatever facts are in the byte $NEED
WALKS = """#!/bin/sh
facts=$(head -c 9 | tail -c 1 | od -An -tu1)
if [ $((facts & NEED)) = "$EQUAL" ]; then echo 0 8 04002020; else echo 0 0 strange z0.h 0000; fi
"""


def asked(checkout, walked):
    """What a word needs is what walk says, whatever that is: run has no table of its own."""
    checkout.write("crates/walk/out/walk", WALKS, 0o755)
    os.remove(checkout.at("target/run.stamp"))
    for need, said in (("2", "strange needs SVE2, and the session's facts do not have it"),
                       ("17", "strange needs SVE or SME2p1, and the session's facts have neither"),
                       ("14", "strange needs SVE2 or SVE2p1 or SME, and the session's facts have none of them")):
        walked(facts.session(0, [0x04002020]), NEED=need, EQUAL="0").expect(3, "8 UNDEFINED: %s; the walk ends there" % said)


def no_session(walked):
    """Why a file of version 2, or of none, is no session."""
    for data, reason in (
        (head(0, 1, 0) + bytes(544), "the version is 0, not 1 or 2"),
        (head(0x102, 1, 0) + bytes(545), "the version is 258, not 1 or 2"),
        (head(2, 1, 0), "the file has 8 bytes, and a session's head has 9 in version 2"),
        (head(2, 1, 0) + bytes(544), "the file has 552 bytes, and with k = 1 and 0 words in version 2 it would have 553"),
        (head(2, 5, 0) + bytes(1 + 544 * 5), "the length k is 5, not 1, 2, 4, 8 or 16"),
        (head(2, 1, 257) + bytes(1 + 544 + 4 * 257), "the program has 257 words, and 256 are the most"),
        (head(2, 1, 0) + b"\xbf" + bytes(544), "the facts byte has bit 5 and bit 7 set, and only bits 0 to 4 are facts"),
        (head(2, 1, 0) + b"\xff" + bytes(544), "the facts byte has bit 5 and bit 6 and bit 7 set, and only bits 0 to 4 are facts"),
    ):
        said = walked(data).expect(3, out=b"14\n").err
        expect(said == "run: 14 SESSION: %s\n" % reason, said)
