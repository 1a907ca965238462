#!/usr/bin/env python3
"""Counts the places of docs/DESIGN-PASS.md in the sources of a commit.

    tools/places.py [COMMIT]        a line for each kind of place: its number, and what it is; without COMMIT what is checked out last
    tools/places.py COMMIT KIND     the places themselves

A kind is a point of the page and a letter, as 1a. Every kind but 2 is a pattern over the lines of crates/*/src (proofs/ for 8), and the list KINDS
below says which; 2 groups functions whose text is the same once numbers, constants, types and names are put aside.
"""
import re
import subprocess
import sys

KINDS = {
    "1a": ("records with an answer's number beside its values", "src", r"^ *pub number: u(8|64),"),
    "1b": ("functions that answer a byte, a refusal's number among them", "src", r"-> u8$"),
    "1c": ("a refusal by its number", "src", r"\brefusal::[A-Z]+\b"),
    "1d": ("own enums that a result or an option is", "src", r"\benum (Decoded|Outcome|Found|Maybe)\b"),
    "1e": ("counts, zeros and empty parts that say there is none", "src", r"^// .*(or the number of .* where|; 0 past|; 0 where there is none|0 with a refusal|with a refusal nothing|zeros and none)"),
    "3": ("loops that count by hand", "src", r"^ *while "),
    "4a": ("library arithmetic by its long name", "src", r"std::num::wrapping_"),
    "4b": ("a flag turned into a number, or a number cut at 0, by hand", "src", r"\{ 1 \} else \{ 0 \}|\{ 0 \} else \{ .* - .* \}"),
    "4c": ("structs taken apart to be copied or changed in a field", "src", r"^ *[a-z_]+: (f|made|parameters|self)\.[a-z_]+,$"),
    "5a": ("contracts that say of a length that it is at most the most", "src", r"k ≤ most_length"),
    "5b": ("signatures with a length and both files", "src", r"\bk: usize, z: &|^ +z: &('a )?(mut )?\[u8\],$"),
    "5c": ("signatures with a length and facts", "src", r"\bk: usize, facts: Facts|^ +facts: Facts,$"),
    "6": ("an output with the place in it beside it", "src", r"out: &mut \[u8\], at: usize|^ +at: usize,$"),
    "7": ("a match on a width or a switch on what to run", "src", r"match w \{|direction == BACK"),
    "8a": ("proofs that walk the code by hand", "proofs", None),
    "8b": ("files of answers and invariants", "proofs", None),
}


def git(*args):
    return subprocess.run(["git", *args], check=True, capture_output=True, text=True).stdout


def files(commit):
    return [f for f in git("ls-tree", "-r", "--name-only", commit, "crates").split("\n") if f]


def places(commit, kind):
    what, where, pattern = KINDS[kind]
    if kind == "8a":
        return [f for f in files(commit) if re.search(r"/proofs/.+/Proof\.antt$", f)]
    if kind == "8b":
        return [f for f in files(commit) if re.search(r"/proofs/.+/(Answers|Invariants)\.antt$", f)]
    found = []
    for f in files(commit):
        if re.match(r"crates/[a-z_]+/%s/.*\.rt$" % where, f):
            for n, line in enumerate(git("show", f"{commit}:{f}").split("\n"), 1):
                if re.search(pattern, line):
                    found.append(f"{f}:{n}: {line.strip()}")
    return found


def functions(text):
    for m in re.finditer(r"^( *)(?:pub(?:\(crate\))? )?(?:extern \"C\" )?fn (\w+)(.*?)\n\1\}", text, re.M | re.S):
        yield m.group(2), m.group(3)


def twins(commit):
    groups = {}
    for f in files(commit):
        if re.match(r"crates/[a-z_]+/src/.*\.rt$", f) and not f.endswith("/held.rt"):
            for name, body in functions(git("show", f"{commit}:{f}")):
                code = re.sub(r"^    (requires|ensures).*?(?=^\S|^    (?:requires|ensures)|^\{)", "", body, flags=re.M | re.S)
                shape = re.sub(r"\b(0x)?[0-9][0-9a-zA-Z_]*\b|\b[A-Za-z_]\w*\b|b?\"[^\"]*\"|b?'[^']*'", "x", code)
                shape = re.sub(r"\s+", "", shape)
                if len(shape) > 60:
                    groups.setdefault(shape, []).append(f"{f.split('/')[1]}::{name}")
    return [", ".join(g) for g in groups.values() if len(g) > 1]


def main():
    commit = sys.argv[1] if len(sys.argv) > 1 else "HEAD"
    if len(sys.argv) > 2:
        print("\n".join(twins(commit) if sys.argv[2] == "2" else places(commit, sys.argv[2])))
        return
    for kind in sorted([*KINDS, "2"]):
        if kind == "2":
            t = twins(commit)
            print(f"2  {len(t):4}  groups of functions of one shape")
        else:
            print(f"{kind:3}{len(places(commit, kind)):4}  {KINDS[kind][0]}")


main()
