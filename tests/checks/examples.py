"""Every example has its expected lines, and some their lanes; run prints just those."""
import os
import re
import textwrap

from .common import expect, make, place, read, run

REFUSED = {
    "paper": "8 UNDEFINED: it is one of the twenty-five instructions, with a size that is not allowed",
    "refused": "7 UNKNOWN",
    "board": "8 UNDEFINED: sadalp needs SVE2 or SME, and the session's facts have neither",
    "sme": "8 UNDEFINED: addqv needs SVE2p1 or SME2p1, and the session's facts have neither",
}


def check():
    names = sorted(name[:-4] for name in os.listdir(place("examples")) if name.endswith(".txt"))
    expect(set(names) >= {"strain-gauges", "columns", "accumulate", "differential", "compiled", "switched-off", *REFUSED}, "examples are missing:", names)
    for name in names:
        text, status = place("examples", name + ".txt"), 3 if name in REFUSED else 0
        run(text).expect(status, REFUSED.get(name, ""), out=read("examples", name + ".expected"))
    for name in sorted(os.listdir(place("examples"))):
        if name.endswith(".lanes"):
            run("--lanes", place("examples", name[:-6] + ".txt")).expect(0, out=read("examples", name))
    made = make(place("examples/paper.txt")).expect(0, out=read("examples/paper.session"))
    expect(made.out == read("crates/walk/stdin"), "the session that ships is not the one that walk's crate is run with")
    expect(read("examples/paper.expected") == read("crates/walk/stdout"), "paper.expected is not what walk's crate is held to")
    run().expect(3, "8 UNDEFINED", out=read("examples/paper.expected"))
    in_version_2()
    readme()


def in_version_2():
    """The paper's session in version 2: with all five facts it is walked as in version 1, and with none its first word is refused."""
    paper = read("examples/paper.session")
    none, every = (b"LNW\2\0" + paper[5:8] + bytes([facts]) + paper[8:] for facts in (0, 31))
    expect(read("examples/paper-2.session") == every, "paper-2.session is not the paper's in version 2")
    with_facts = read("examples/paper.txt").replace(b"k 1\n", b"k 1\nfacts sve sve2 sve2p1 sme sme2p1\n")
    make("-", stdin=with_facts).expect(0, out=every)
    run(place("examples/paper-2.session")).expect(3, REFUSED["paper"], out=read("examples/paper.expected"))
    run("-", stdin=none).expect(3, "word 0, 04002020, is refused with 8 UNDEFINED: saddv needs SVE or SME", out=b"0 8 04002020\n")
    run("--lanes", place("examples/paper-2.session")).expect(3, out=run("--lanes").out)


def readme():
    """What README.md shows is what run prints."""
    blocks = [textwrap.dedent(block) for block in re.findall(r"(?:^    .*\n)+", read("README.md").decode().split("## Link it")[0], re.MULTILINE)]
    lines, step, made = [block for block in blocks if block.startswith("0 0 ")]
    (kernel, makes), [head] = ([block for block in blocks if block.startswith(start)] for start in ("k ", "Lanes count"))
    expect(lines.encode() == read("examples/paper.expected"), "README.md shows other lines than those of the session that ships")
    run("--lanes", "-", stdin=kernel.encode()).expect(0, out=(head + "\n" + step).encode())
    drawn = run("--lanes", "-", stdin=makes.encode()).expect(0).out.decode()
    expect("\n\n" + made + "\n1 0 " in drawn, "README.md shows another predicate than the one that is drawn:", drawn)
