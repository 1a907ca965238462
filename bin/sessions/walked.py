"""The lines that walk printed for a session, each held to the session's word at its place."""
import re

from . import layout, words
from .saying import Bad, echo

NO_SESSION = b"14\n"  # what walk prints for a file that is no session


def walked(session, output):
    """For each line the register that the step left, lowest byte first, and None for a refused word, which is the last."""
    *lines, rest = output.decode("ascii", "replace").split("\n")
    if rest:
        raise Bad("the walk's last line, %s, does not end in a newline" % echo(rest))
    left = []
    for place, line in enumerate(lines):
        if place == len(session.words) or left and left[-1] is None:
            raise Bad("line %d of the walk, %s, is one too many: the walk ends before it" % (place + 1, echo(line)))
        left.append(left_by(session, place, line))
    if len(left) < len(session.words) and None not in left:
        raise Bad("the walk has no line for word %d" % len(left))
    return left


def left_by(session, place, line):
    """The register in one line, or None where the line says that the word is refused."""
    word, number = session.words[place], answer(session, place)
    if number:
        wanted = "%d %d %08x" % (place, number, word)
        found = line == wanted
    else:
        digits = 2 * (layout.predicate_bytes if words.makes_predicate(words.decoded(word)[1]) else layout.vector_bytes)(session.k)
        start = "%d 0 %s " % (place, words.named(word))
        wanted = "%sand %d hex digits" % (start, digits)
        found = line.startswith(start) and re.fullmatch("[0-9a-f]{%d}" % digits, line[len(start):])
    if not found:
        raise Bad("line %d of the walk is %s, and for word %d walk prints %s" % (place + 1, echo(line), place, wanted))
    return None if number else bytes.fromhex(line[len(start):])[::-1]


def answer(session, place):
    """The number that walk answers a word with: 7 or 8 where it is refused, 9 where the journal is full, and 0 elsewhere."""
    number, word = words.decoded(session.words[place])[0], session.words[place]
    if number or words.lacking(word, layout.facts_of(session)):
        return number or 8
    return 9 if place >= layout.entries(session.k) else 0
