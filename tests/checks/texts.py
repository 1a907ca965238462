"""Readable text: what is accepted means what it should, what is refused has its line and a reason, and nothing else happens for any input."""
import random

from sessions import layout, readable, saying

from .common import expect

HEAD = "k 2\n"
PROGRAM = "k 1\nprogram\n"

# texts that must mean the same session
SAME = [
    ("k 1\nz1.h 1 -1 0x8000\nprogram\n", "k 1\nz1 01 00 ff ff 00 80\nprogram\n"),
    ("k 1\nZ1.H 1 -0x1 32768\nPROGRAM", "k 1\nz1.h 1 65535 -32768\nprogram\n"),
    (HEAD + "p0.h 1 1 0 1\nprogram\n", HEAD + "p0 45\nprogram\n"),
    (HEAD + "p0.b 1 1 0 1\nprogram\n", HEAD + "p0 0b\nprogram\n"),
    (HEAD + "p0.b all\nprogram\n", HEAD + "p0 ff ff ff ff\nprogram\n"),
    (HEAD + "p0.h all\nprogram\n", HEAD + "p0 55 55 55 55\nprogram\n"),
    (HEAD + "p0.s all\nprogram\n", HEAD + "p0 11 11 11 11\nprogram\n"),
    (HEAD + "p0.d all\nprogram\n", HEAD + "p0 01 01 01 01\nprogram\n"),
    (HEAD + "p0.d 0 0 0 1\nprogram\n", HEAD + "p0 00 00 00 01\nprogram\n"),
    (HEAD + "p0.s none\nprogram\n", HEAD + "program\n"),
    (PROGRAM + "SADDV D0,P0,Z1.B\n", PROGRAM + "saddv d0, p0, z1.b\n"),
    (PROGRAM + "  saddv\td0 ,p0,  z1 . b \n", PROGRAM + "saddv d0, p0, z1.b\n"),
    (PROGRAM + "sadalp z3.h,p1 / m,z1.b\n", PROGRAM + "sadalp z3.h, p1/m, z1.b\n"),
    (PROGRAM + "SSUBLB Z0.H,Z1.B , Z2.B\nusubwt\tz3.d,z3.d,z4.s\n", PROGRAM + ".inst 0x45421020\n.inst 0x45c45c63\n"),
    (PROGRAM + "ptrue p3.h\nPTRUE\tP3.H , ALL # every lane\nptrue p3.h,#31\nptrue p3.h, #0x1f\nptrue p3.h,31\nptrue p3.h, 0X1F # all\n",
     PROGRAM + ".inst 0x2558e3e3\n" * 6),
    (PROGRAM + "ptrue p0.s, #14 # no lane\nPFalse p3 .b\n", PROGRAM + ".inst 0x2598e1c0\n.inst 0x2518e403\n"),
    (PROGRAM + ".inst 0x04002020\n", PROGRAM + "saddv d0, p0, z1.b\n"),
    (PROGRAM + ".inst 0x4002020\n.word 04C02020\n", PROGRAM + ".word 0x04002020\n.inst 04c02020\n"),
    # a disassembler's lines: GNU's, LLVM's with the word, LLVM's with the bytes in memory
    (PROGRAM + "   0:\t04002020 \tsaddv\td0, p0, z1.b\n", PROGRAM + "saddv d0, p0, z1.b\n"),
    (PROGRAM + "       0: 04002020     \tsaddv\td0, p0, z1.b\n", PROGRAM + "saddv d0, p0, z1.b\n"),
    (PROGRAM + "       0: 20 20 00 04  \tsaddv\td0, p0, z1.b\n", PROGRAM + "saddv d0, p0, z1.b\n"),
    (PROGRAM + "   0:\tsaddv\td0, p0, z1.b\n", PROGRAM + "saddv d0, p0, z1.b\n"),
    (PROGRAM + "   4:\t45834441 \tsaddwt\tz1.s, z2.s, z3.h\n   8: 41 50 c3 45\tssubwb\tz1.d, z2.d, z3.s\n",
     PROGRAM + "saddwt z1.s, z2.s, z3.h\nssubwb z1.d, z2.d, z3.s\n"),
    (PROGRAM + "      14: 20 20 05 04  \t<unknown>\n  18: d65f03c0\tret\n", PROGRAM + "addqv v0.16b, p0, z1.b\n.inst 0xd65f03c0\n"),
    (PROGRAM + "a.o:\tfile format elf64-littleaarch64\n\nDisassembly of section .text:\n\n0000000000000000 <kernel>:\n  0: 04002020\n",
     PROGRAM + "saddv d0, p0, z1.b\n"),
    # facts: in any order and case, before or after the length and the registers; texts and listings name a word whatever the facts are
    ("facts SME sve\nk 1\nprogram\n", "K 1\nFacts\tsve  sme # a core\nprogram\n"),
    ("k 1\nz1.b 1\nfacts sme2p1 SVE2p1 sve2\nprogram\n", "k 1\nfacts sve2 sve2p1 sme2p1\nz1.b 1\nprogram\n"),
    ("facts\n" + PROGRAM + "saddv d0, p0, z1.b\n 4: 04052020 addqv v0.16b, p0, z1.b\n 8: sadalp z3.h, p1/m, z1.b\n",
     "facts // none\n" + PROGRAM + ".inst 0x04002020\n.inst 0x04052020\n.inst 0x4444a423\n"),
    # comments
    ("# one\nk 1 # two\n  #3 at the start\nz1.b 1 2 // 3\nprogram;\nsaddv d0, p0, z1.b ; four\n", "k 1\nz1.b 1 2\nprogram\nsaddv d0, p0, z1.b\n"),
    ("// \u00b2 and \u0663 in a comment\nk 1\nprogram\n", "k 1\nprogram\n"),
    # a byte-order mark, line ends of three kinds, none at the end
    ("\ufeffk 1\r\nz1.b 1\r\nprogram\r\n", "k 1\nz1.b 1\nprogram"),
    ("k 1\rz1.b 1\rprogram\r", "k 1\nz1.b 1\nprogram"),
]

# a text, the line that is refused, and part of the reason
REFUSED = [
    ("", 1, "no line gives the length"),
    ("# nothing\n\n", 2, "no line gives the length"),
    ("k 1\n", 1, "no line 'program'"),
    ("k 1\nz1.b 1\n\n", 3, "no line 'program'"),
    ("k \u00b2\n", 1, "U+00B2"),
    ("k " + "1" * 5000 + "\n", 1, "a length is 1, 2, 4, 8 or 16"),
    ("k 0", 1, "a length is 1, 2, 4, 8 or 16"),
    ("k 3", 1, "a length is 1, 2, 4, 8 or 16, as 'k 1', not '3'"),
    ("k 12", 1, "a length is 1, 2, 4, 8 or 16"),
    ("k 17", 1, "a length is 1, 2, 4, 8 or 16"),
    ("k 32", 1, "a length is 1, 2, 4, 8 or 16"),
    ("k 04", 1, "a length is 1, 2, 4, 8 or 16"),
    ("k 0x1", 1, "a length is 1, 2, 4, 8 or 16"),
    ("k", 1, "a length is 1, 2, 4, 8 or 16"),
    ("k 1 2", 1, "a length is 1, 2, 4, 8 or 16"),
    ("k1", 1, "a space stands after k"),
    ("k 1\nk 1", 2, "given twice"),
    ("facts sve3\nk 1", 1, "'sve3' is no fact: they are sve, sve2, sve2p1, sme, sme2p1, and 'facts' alone is a core with none of them"),
    ("k 1\nfacts sve neon", 2, "'neon' is no fact"),
    ("facts none", 1, "'facts' alone is a core with none"),
    ("facts sve, sve2", 1, "names stand apart by spaces, without commas"),
    ("facts sve #2", 1, "'#2' is no fact"),
    ("facts " + "1" * 5000, 1, "(cut) is no fact"),
    ("k 1\nfacts sve sme SVE", 2, "the fact sve is given twice"),
    ("facts sve\nk 1\nfacts sve2", 3, "the facts are given twice"),
    ("facts\nfacts\nk 1", 2, "the facts are given twice"),
    ("facts: sve", 1, "(facts are given as 'facts sve sve2')"),
    ("fact sve", 1, "(facts are given as 'facts sve sve2')"),
    ("facts sve", 1, "no line gives the length"),
    ("facts sve\nprogram", 2, "the length stands first"),
    (PROGRAM + "facts sve", 3, "'facts' stands after 'program', and only words do: the length, the facts and the registers stand before it"),
    ("facts\n" + PROGRAM + "0: 04002020 saddv d1, p0, z1.b", 4, "reads 'saddv d0, p0, z1.b'"),
    ("program", 1, "the length stands first"),
    ("z1.b 1", 1, "the length stands first"),
    ("k 1\nprogram x", 2, "stands alone"),
    ("k 1\nprogram:", 2, "stands alone"),
    ("k 1\nsaddv d0, p0, z1.b", 2, "after a line 'program'"),
    ("k 1\n.inst 0x04002020", 2, "after a line 'program'"),
    ("k 1\nz1", 2, "no values"),
    ("k 1\nz32.b 1", 2, "z0 to z31"),
    ("k 1\nz01.b 1", 2, "z0 to z31"),
    ("k 1\nz" + "9" * 5000 + ".b 1", 2, "z0 to z31"),
    ("k 1\np16 ff", 2, "p0 to p15"),
    ("k 1\nz1.q 1", 2, "b, h, s or d"),
    ("k 1\nz1.b 1\nz1.h 1", 3, "given twice"),
    ("k 1\nv1.b 1", 2, "give z"),
    ("k 1\nz1: 01", 2, "a space stands between"),
    ("k 1\nz1.b 256", 2, "-128 to 255"),
    ("k 1\nz1.b -129", 2, "-128 to 255"),
    ("k 1\nz1.d 18446744073709551616", 2, "64 bits"),
    ("k 1\nz1.d " + "1" * 5000, 2, "(cut) is no number"),
    ("k 1\nz1.b 0o17", 2, "'0o17' is no number"),
    ("k 1\nz1.b 0b11", 2, "'0b11' is no number"),
    ("k 1\nz1.b 017", 2, "leading zeros"),
    ("k 1\nz1.h 1_000", 2, "'1_000' is no number"),
    ("k 1\nz1.h 1, 2", 2, "without commas"),
    ("k 1\nz1.h 1 2 #3", 2, "a space before it and no digit after it"),
    ("k 1\nz1.h \u0663", 2, "U+0663"),
    ("k 1\nz1.h 1\u00a02", 2, "U+00A0"),
    ("k 1\nz1.h 1\u001b[2J", 2, "U+001B"),
    ("k 1\nz1.h +1", 2, "is no number"),
    ("k 1\nz1.h --1", 2, "is no number"),
    ("k 1\nz1.h 1 2 3 4 5 6 7 8 9", 2, "there are 8"),
    ("k 1\nz1 " + "00 " * 17, 2, "there are 16"),
    ("k 1\nz1 0x01", 2, "without 0x"),
    ("k 1\nz1 100", 2, "two hex digits"),
    ("k 1\np0.h 1 1 2", 2, "neither 0 nor 1"),
    ("k 1\np0.h 11", 2, "neither 0 nor 1"),
    ("k 1\np0.h all 1", 2, "neither 0 nor 1"),
    ("k 1\np0.d 1 1 1", 2, "there are 2"),
    ("k 1\np0 ff ff ff", 2, "there are 2"),
    (PROGRAM + "z1.b 1", 3, "the registers stand before it"),
    (PROGRAM + "program", 3, "the registers stand before it"),
    (PROGRAM + "saddv d0, p0, z1.d", 3, "saddv dD, pG, zN.b; saddv dD, pG, zN.h; saddv dD, pG, zN.s"),
    (PROGRAM + "saddlb z0.b, z1.b, z1.b", 3, "saddlb zD.h, zN.b, zM.b"),
    (PROGRAM + "ssublb z0.h, z1.h, z1.b", 3, "ssublb (zN and zM have half the width of zD): ssublb zD.h, zN.b, zM.b; ssublb zD.s, zN.h, zM.h"),
    (PROGRAM + "saddwb z0.h, z1.b, z1.b", 3, "saddwb (zN has the width of zD, and zM half of it): saddwb zD.h, zN.h, zM.b"),
    (PROGRAM + "usubwt z0.h, z1.h, z1.h", 3, "usubwt (zN has the width of zD, and zM half of it): usubwt zD.h, zN.h, zM.b"),
    (PROGRAM + "saddwb z0.b, z1.b, z1.b", 3, "saddwb zD.h, zN.h, zM.b; saddwb zD.s, zN.s, zM.h; saddwb zD.d, zN.d, zM.s"),
    (PROGRAM + "ssubwb z0.h, z1.h", 3, "ssubwb zD.h, zN.h, zM.b"),
    (PROGRAM + "ssublbz0.h, z1.b, z2.b", 3, "write 'ssublb z0.h, z1.b, z2.b'"),
    (PROGRAM + "usublb z0.h, z1.b, z32.b", 3, "0 to 31"),
    (PROGRAM + "ssubv d0, p0, z1.b", 3, "'ssubv d0, p0, z1.b' is no instruction here"),
    (PROGRAM + "0: 45421020 saddlb z0.h, z1.b, z2.b", 3, "reads 'ssublb z0.h, z1.b, z2.b'"),
    (PROGRAM + "0: 45021020 ssublb z0.h, z1.b, z2.b", 3, "is not accepted"),
    (PROGRAM + "uaddlv d0, v1.2s", 3, "uaddlv dD, vN.4s"),
    (PROGRAM + "sadalp z0.h, p0/z, z1.b", 3, "sadalp zD.h, pG/m, zN.b"),
    (PROGRAM + "saddvd0, p0, z1.b", 3, "write 'saddv d0, p0, z1.b'"),
    (PROGRAM + "saddv d0, p8, z1.b", 3, "p0 to p7"),
    (PROGRAM + "saddv d32, p0, z1.b", 3, "0 to 31"),
    (PROGRAM + "saddv d00, p0, z1.b", 3, "leading zero"),
    (PROGRAM + "saddv d0, p0, z" + "1" * 5000 + ".b", 3, "0 to 31"),
    (PROGRAM + "saddv", 3, "none of the forms"),
    (PROGRAM + "saddv d#, p#, z#.b", 3, "none of the forms"),
    (PROGRAM + "ptrue p16.b", 3, "a predicate is p0 to p15, not 'p16'"),
    (PROGRAM + "ptrue p0.b, #32", 3, "a pattern is 0 to 31, or a name, not '#32'"),
    (PROGRAM + "ptrue p0.b, 0x20", 3, "a pattern is 0 to 31, or a name, not '0x20'"),
    (PROGRAM + "ptrue p0.b, 031", 3, "in decimal without leading zeros or in hex; where there is none it is all): ptrue pD.b, pattern; ptrue pD.h, pattern"),
    (PROGRAM + "ptrue p0.b, # every lane", 3, "'ptrue p0.b,' is none of the forms of ptrue"),
    (PROGRAM + "pfalse p0.h", 3, "pfalse (it clears every bit, and is written with .b): pfalse pD.b"),
    (PROGRAM + "ret", 3, "the names are saddv, uaddv, addqv"),
    (PROGRAM + "04c02020", 3, ".inst 0x04c02020"),
    (PROGRAM + ".inst", 3, "takes one word"),
    (PROGRAM + ".inst 0x123456789", 3, "takes one word"),
    (PROGRAM + ".word 12", 3, "takes one word"),
    (PROGRAM + ".inst 0x1, 0x2", 3, "takes one word"),
    (PROGRAM + ".text", 3, ".inst and .word are"),
    (PROGRAM + "kernel:", 3, "is a label"),
    (PROGRAM + "0: 04002020 saddv d1, p0, z1.b", 3, "reads 'saddv d0, p0, z1.b'"),
    (PROGRAM + "0: ret", 3, "'ret' is no instruction here"),
    (PROGRAM + "0: 04c02020 saddv d0, p0, z1.b", 3, "is not accepted"),
    (PROGRAM + "saddv d0, p0, z1.b\n" * 257, 259, "at most 256"),
    (PROGRAM + "x" * 5000, 3, "(cut)"),
]

BYTES_REFUSED = [
    (b"k 1\nz1.b \xff\n", 2, "byte 6 of the line, ff, is not UTF-8"),
    (b"k 1\n# caf\xe9\nprogram\n", 2, "not UTF-8"),
    (b"k 1\nprogram\0\n", 2, "NUL"),
    (b"\0" * 100, 1, "NUL"),
    ("k 1\nprogram\n".encode("utf-16"), 1, "UTF-16"),
    (b"LNW\1\0\1\0\0", None, "session already"),
]


# the line of facts in a text, and the head that it makes: version 1 without the line, version 2 and a byte with it
HEADS = [
    ("", b"LNW\1\0\1\1\0"),
    ("facts\n", b"LNW\2\0\1\1\0\0"),
    ("facts sve\n", b"LNW\2\0\1\1\0\1"),
    ("facts sve2\n", b"LNW\2\0\1\1\0\2"),
    ("facts sve2p1\n", b"LNW\2\0\1\1\0\4"),
    ("facts sme\n", b"LNW\2\0\1\1\0\10"),
    ("facts sme2p1\n", b"LNW\2\0\1\1\0\20"),
    ("facts sve sve2 sve2p1 sme sme2p1\n", b"LNW\2\0\1\1\0\37"),
]


def meaning(text):
    return layout.packed(readable.session_of(text if isinstance(text, bytes) else text.encode()))


def check():
    for one, other in SAME:
        try:
            expect(meaning(one) == meaning(other), one, "does not mean", other)
        except saying.Bad as reason:
            expect(False, one, "is refused:", str(reason))
    for line, head in HEADS:
        made = meaning(line + PROGRAM + "saddv d0, p0, z1.b\n")
        expect(made == head + bytes(544) + b"\x20\x20\0\4", line, "makes", made[:9])
    for text, line, reason in REFUSED + BYTES_REFUSED:
        refused(text, line, reason)
    expect(readable.plain(b"name z0.h, #14 # rest") == "name z0.h, #14", "a comment's sign cuts the operand #14")
    fuzzed()


def refused(text, line, reason):
    try:
        meaning(text)
    except saying.Bad as bad:
        expect(bad.line == line, text[:60], "is refused at line", str(bad.line), "and not", str(line))
        expect(reason in str(bad), text[:60], "is refused as", str(bad))
        expect(len(str(bad)) < 400 and str(bad).isprintable() and str(bad).isascii(), "a reason is long, or not plain:", str(bad))
        return
    expect(False, text[:60], "is not refused")


PIECES = [
    "k", "k 1", "k 16", "facts", "facts sve sme2p1", "sve2", "z1", "z1.h", "z31.d", "p0", "p0.h", "p15.b", "all", "none", "program", "saddv", "d0", "p0,", "z1.b",
    ",", "/m", ".inst", ".word", "0x04002020", "04c02020", "0:", "20 20 00 04", "saddv d0, p0, z1.b", "sadalp z3.h, p1/m, z1.b", "uaddlv h2, v1.8b",
    "ssublb z0.h, z1.b, z2.b", "saddwb", "ptrue", "ptrue p0.b,", "pfalse p3.b", "vl16", "#31", "31", "#0x1f", "-1", "0x", "-", "#", "#1", "//", ";", "\n", "\n", "\n",
    " ", "\t", "\r", "\0", "\x1b", "\u00b2", "\u0663", "\ufeff", "9" * 50, "<a>:", "...", "(", "\\", "%s", "{d}", "z1.", "p.", ".",
]


def fuzzed():
    """Texts made of pieces, and of any bytes: each is a session that walk would read, or is refused with a line."""
    dice = random.Random(3)
    for number in range(20000):
        pieces = [dice.choice(PIECES) + dice.choice(("", " ")) for _ in range(dice.randrange(1, 30))]
        data = ("k %d\n" % dice.randrange(1, 17) * dice.randrange(2) + "program\n" * dice.randrange(2) + "".join(pieces)).encode("utf-8")
        if number % 4 == 0:
            data = bytes(dice.choice((dice.getrandbits(8), byte)) for byte in data)
        try:
            session = readable.session_of(data)
        except saying.Bad as bad:
            expect(bad.line is not None or data.startswith(b"LNW"), data, "is refused without a line")
            continue
        expect(layout.unpacked(layout.packed(session)) == session, data, "makes no session")
