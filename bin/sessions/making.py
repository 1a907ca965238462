"""A predicate that a step makes: how many lanes its pattern makes active, each lane's bit before and after, and what is cleared besides."""
from collections import namedtuple
from itertools import groupby

from . import patterns, phrases, words
from .lanes import active, predicate_of
from .shapes import LEAST, MOST_LANES
from .tables import columns, listed, runs, sentence

BITS = "In a predicate: 1 active, 0 not; lane e of w bytes has bit e*w."  # the mark that a drawing has, and what is said of it

# A step that makes a predicate: the word's parts, the register's name at the word's width, for each lane whether it is active before and after,
# and the bits that were set before and are of no lane.
Made = namedtuple("Made", "parts name before after others")


def left_by(parts, size):
    """The bytes that a word leaves in the predicate that it makes, of `size` bytes."""
    width, count = 1 << parts.size, 8 * size >> parts.size
    return predicate_of([lane < number_active(parts, count) for lane in range(count)], width, size)


def number_active(parts, count):
    """How many of `count` lanes a word makes active."""
    return patterns.active(parts.pattern, count) if parts.row.form == words.PTRUE else 0


def made_of(parts, before):
    """The step of a word that makes a predicate, from what its register held before."""
    width = 1 << parts.size
    others = [bit for bit, is_set in enumerate(active(before, 1)) if is_set and bit % width]
    return Made(parts, "p%d.%s" % (parts.d, words.letter(width)), active(before, width), active(left_by(parts, len(before)), width), others)


def made_drawn(made):
    """The lines of such a step, beneath the one that names its word."""
    return [line for said in about(made) for line in sentence(said)] + lanes_drawn(made)


def about(made):
    """The sentences on such a step: the number of lanes and how it came, and the bits of no lane that were set."""
    if made.parts.row.form == words.PTRUE:
        said = [reckoned(made.parts.pattern, len(made.after))]
    else:
        said = ["pfalse: none of %d lanes, and none at any other size." % len(made.after)]
    return said + ([others_cleared(made)] if made.others else [])


def reckoned(pattern, count):
    """A pattern's number of lanes and how it came, as 'vl16 of 8 lanes: none, for there are not 16.'"""
    number = patterns.active(pattern, count)
    said = "%s of %d lanes: %s" % (patterns.named(pattern), count, number or "none")
    if pattern in patterns.FIXED:
        reason = "" if number else ", for there are not %d" % patterns.FIXED[pattern]
    elif pattern in LARGEST:
        kind = LARGEST[pattern]
        reason = ", the largest %s up to %d" % (kind, count) if number else ", for no %s above 0 is up to %d" % (kind, count)
    else:
        reason = "" if pattern == patterns.ALL else ", as of every number of lanes"
    return said + reason + "."


LARGEST = {patterns.POW2: "power of two", patterns.MUL4: "multiple of 4", patterns.MUL3: "multiple of 3"}


def others_cleared(made):
    """What is said of bits that were set and are of no lane: which they are where those are few, and how many elsewhere."""
    count, few = len(made.others), len(runs(made.others)) <= phrases.FEW
    which = ("Bit " if count == 1 else "Bits ") + listed(made.others) if few else "%d bits" % count
    return "%s of p%d, of no lane of %s, %s set and %s cleared." % (
        which, made.parts.d, made.name, *(("was", "is") if count == 1 else ("were", "are")))


def lanes_drawn(made):
    """The lanes row by row. Rows of lanes that stay 0 are named, and so are those whose lanes are all alike and as in the row before."""
    count, pairs, out = len(made.after), list(zip(made.before, made.after)), []
    each = min(MOST_LANES, count)
    for alike, group in groupby(range(0, count, each), lambda start: one_of(pairs[start:start + each])):
        starts = list(group)
        drawn = len(starts) if alike is None else int(any(alike))
        for start in starts[:drawn]:
            rows = [(word, ["01"[on] for on in lanes[start:start + each]]) for word, lanes in (("before", made.before), ("after", made.after))]
            out += columns(made.name, range(start, start + each), rows, LEAST, "")
        if drawn < len(starts):
            out += sentence(phrases.stretch(made.name, range(starts[drawn], starts[-1] + each)) + ALIKE[alike])
    return out


def one_of(pairs):
    """What some lanes are before and after where they are all alike, and None elsewhere."""
    return pairs[0] if len(set(pairs)) == 1 else None


ALIKE = {(False, False): " stay 0.", (True, True): " stay 1.", (False, True): ": 0 before, 1 after.", (True, False): ": 1 before, 0 after."}
