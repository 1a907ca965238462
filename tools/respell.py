#!/usr/bin/env python3
"""Respells the repository's own definitions and lemmas in snake case, in crates/, in must-fail edits and in the pages.

usage: python3 tools/respell.py      at the top of the repository, once, after the toolchain's own script has turned the crates

    numberAt -> number_at      entry-placed -> entry_placed      clear-part-spec -> clear_part_spec

A name is one that a file of specs/ or proofs/ defines. Types, modules, functions of src/, exported names and strings keep theirs. Two names
that would fall together in one file are told, and nothing is written.
"""

import glob
import os
import re
import sys

NAME = r"[^\s(){}.;,@\"«»\[\]\\`]+"
TOKEN = re.compile(NAME)
DEFINED = re.compile(r"^\s*(?:(?:abbrev|unfoldable|pub)\s+)*(" + NAME + r")\s+:\s", re.M)
CAMEL = re.compile(r"^[a-z][a-z0-9]*[A-Z]")
DASHED = re.compile(r"^[a-z0-9_']+(-[a-z0-9_']+)+$")
# Names of goals and steps that Rattle makes, which a proof of a function may give to its own answers.
MADE = re.compile(r"^(returns|loop|cast|add|sub|mul|shl|shr|overflow|slice|shared|part|bounds|same|shape|[a-z_]+-requires|if|in|then|else|invariant|decreases|match|arm)\b.*-|.*-(requires|init|preserved|smaller|holds|again)(-\d+)?$")


def read(path):
    with open(path, encoding="utf-8") as file:
        return file.read()


def write(path, text):
    with open(path, "w", encoding="utf-8") as file:
        file.write(text)


def is_of_function(path):
    """Whether a file is a function's own proof: nobody else names what it defines."""
    return path.endswith(("/Proof.antt", "/Answers.antt", "/Invariants.antt")) and os.path.dirname(path).rsplit("/", 1)[-1] != "proofs"


def snake(name):
    spaced = re.sub(r"(?<=[a-z0-9])([A-Z])", lambda m: "_" + m.group(1).lower(), name) if CAMEL.match(name) else name
    return spaced.replace("-", "_")


# Fields of a record whose values get their names.
FIELDS = {"reads_destination", "writes_predicate"}
# Lemmas that already have, in snake case, the name that a definition gets.
LEMMAS = {it: it + "_lem" for it in ("size_in", "step_by", "wrapped_sum", "laid_out")}


def names_of(root):
    """The names that are respelled: those everywhere, and by file those that a function's own proof defines."""
    shared, own = {}, {}
    defined = {snake(it) for path in glob.glob(f"{root}/crates/*/specs/**/*.antt", recursive=True) for it in DEFINED.findall(read(path)) if not DASHED.match(it)}
    defined |= {snake(it) for path in glob.glob(f"{root}/crates/*/proofs/**/*.antt", recursive=True) for it in DEFINED.findall(read(path)) if CAMEL.match(it)}
    for path in sorted(glob.glob(f"{root}/crates/*/specs/**/*.antt", recursive=True) + glob.glob(f"{root}/crates/*/proofs/**/*.antt", recursive=True)):
        for name in DEFINED.findall(read(path)):
            spec = name.endswith("-spec")
            if CAMEL.match(name) and re.match(r"^[A-Za-z0-9_'-]+$", name):
                shared[name] = snake(name)
            elif DASHED.match(name) and is_of_function(path):
                if spec or not MADE.match(name):
                    own.setdefault(path, {})[name] = snake(name) + "_lem" * (snake(name) in defined)
            elif DASHED.match(name):
                shared[name] = snake(name) + "_lem" * (snake(name) in defined)
    return shared, own


def respell(text, names, after_dot):
    def turn(match):
        word = match.group(0)
        if word not in names:
            return word
        before = text[match.start() - 1] if match.start() else " "
        if before == "." and not after_dot and ("-" in word or word in LEMMAS):
            return word
        if word in LEMMAS and "--" in text[text.rfind("\n", 0, match.start()) + 1 : match.start()]:
            return word
        return names[word]

    return TOKEN.sub(turn, text)


def quoted(text, names):
    return re.sub(r"`[^`\n]+`", lambda m: respell(m.group(0), names, True), text)


def main():
    root = "."
    shared, own = names_of(root)
    files = sorted(glob.glob("crates/**/*.antt", recursive=True) + glob.glob("crates/**/*.rt", recursive=True) + glob.glob("crates/*/must-fail/*.edit"))
    files = [it for it in files if "/out/" not in it]
    fallen, turned = [], {}
    for path in files:
        text = read(path)
        names = dict(shared)
        names.update(own.get("./" + path, {}))
        if path.endswith(".rt"):
            names = {old: new for old, new in names.items() if "-" not in old}
        if path.endswith(".antt"):
            names.update(LEMMAS)
        code = re.sub(r"--.*", "", text)
        bare = {it.group(0) for it in TOKEN.finditer(code) if code[it.start() - 1 : it.start()] != "."}
        for old in sorted(bare & set(names)):
            if names[old] in bare - set(LEMMAS) - FIELDS and not path.endswith((".rt", ".edit")):
                fallen.append(f"{path}: {old} falls together with {names[old]}")
        turned[path] = respell(text, names, False)
    seen = {}
    for old, new in shared.items():
        seen.setdefault(new, set()).add(old)
    for new, olds in seen.items():
        if len(olds) > 1:
            fallen.append(f"{sorted(olds)} all become {new}")
    if fallen:
        print("\n".join(fallen))
        if "--anyway" not in sys.argv:
            return 1
    for path, text in turned.items():
        if text != read(path):
            write(path, text)
    for path in sorted(glob.glob("*.md") + glob.glob("docs/**/*.md", recursive=True) + glob.glob("host/**/*.md", recursive=True)):
        text = read(path)
        if quoted(text, shared) != text:
            write(path, quoted(text, shared))
    print(f"respell: {len(shared)} names")
    return 0


sys.exit(main())
