"""What a step adds up: its sources' lanes, each with a mark for how it enters, and for each lane of the destination the exact sum."""
from collections import namedtuple

from . import words
from .lanes import active, lanes_of, signed

ADDED, TAKEN, OFF, UNUSED = "+", "-", "off", "."

# A source's name, the bytes of a lane, its lanes, and a mark for each; of a register's lanes those that the word can read.
Source = namedtuple("Source", "name width lanes marks")

# A step: the word's parts, whether its lanes are shown as signed numbers, its sources, for each governed lane whether it is active (None where
# no predicate governs), the destination's name and the bytes of a lane, its lanes before and after, for each the exact sum, and what it
# gained. A sum is an integer of any size; it and a gain are None where the lane is kept. Gains are None where a word's sum does not begin with
# what the destination held.
Step = namedtuple("Step", "parts as_signed sources governed name width before after sums gains")


def step_of(parts, vectors, predicates, after, as_signed):
    """The step that leaves the bytes `after` in its destination. Lanes as wide as their sum, of which the low digits alone matter, are read
    at the sign that is asked for; narrower ones at the word's own."""
    governed = active(predicates[parts.g], 1 << parts.size) if is_governed(parts) else None
    sources, width, sums, gains = ADDING[parts.row.form](parts, vectors, governed, as_signed)
    before, left = lanes_of(vectors[parts.d], width), lanes_of(after, width)
    sums += [0] * (len(left) - len(sums))  # a write to a V register clears what is above it
    return Step(parts, as_signed, sources, governed, name_of(parts.d, width), width, before, left, sums, gains)


def is_governed(parts):
    return parts.row.form in (words.REDUCTION, words.SEGMENT, words.PAIRWISE)


def is_signed(parts):
    """Whether a word's lanes are signed: its name begins with s."""
    return parts.row.name.startswith("s")


def name_of(number, width):
    return "z%d.%s" % (number, words.letter(width))


def number(lane, width, as_signed):
    """A lane's integer."""
    return signed(lane, width) if as_signed else lane


def numbers(data, width, as_signed):
    """The integers of a register's lanes."""
    return [number(lane, width, as_signed) for lane in lanes_of(data, width)]


def source_of(vectors, place, width, marks):
    return Source(name_of(place, width), width, lanes_of(vectors[place], width)[:len(marks)], marks)


def reduction(parts, vectors, governed, _):
    """saddv and uaddv: one sum of the active lanes, in 64 bits."""
    width = 1 << parts.size
    lanes = numbers(vectors[parts.n], width, is_signed(parts))
    return [governed_source(parts.n, width, vectors, governed)], 8, [sum(lane for lane, on in zip(lanes, governed) if on)], None


def segments(parts, vectors, governed, as_signed):
    """addqv: for each place in a segment a sum of the active lanes there."""
    width, places = 1 << parts.size, 16 >> parts.size
    lanes = [lane * on for lane, on in zip(numbers(vectors[parts.n], width, as_signed), governed)]
    return [governed_source(parts.n, width, vectors, governed)], width, [sum(lanes[place::places]) for place in range(places)], None


def long(parts, vectors, *_):
    """saddlv and uaddlv: one sum of every lane of a V register, at twice the width."""
    width, count = 1 << parts.size, (8 << parts.q) >> parts.size
    lanes = numbers(vectors[parts.n], width, is_signed(parts))[:count]
    return [source_of(vectors, parts.n, width, [ADDED] * count)], 2 * width, [sum(lanes)], None


def pairwise(parts, vectors, governed, as_signed):
    """sadalp and uadalp: each active lane gains the two half lanes that it lies over, and the others are kept."""
    width = 1 << parts.size
    halves = numbers(vectors[parts.n], width // 2, is_signed(parts))
    gains = [first + second if on else None for first, second, on in zip(halves[::2], halves[1::2], governed)]
    totals = numbers(vectors[parts.d], width, as_signed)
    sums = [None if gain is None else total + gain for total, gain in zip(totals, gains)]
    pairs = [on for on in governed for _ in (0, 1)]
    return [governed_source(parts.n, width // 2, vectors, pairs)], width, sums, gains


def governed_source(place, width, vectors, governed):
    return source_of(vectors, place, width, [ADDED if on else OFF for on in governed])


def widening(parts, vectors, _, as_signed):
    """The words that widen: in each lane a half lane or a whole lane of the first source, and a half lane of the second, added or taken away."""
    width, half, top = 1 << parts.size, (1 << parts.size) // 2, int(parts.row.name.endswith("t"))
    second = numbers(vectors[parts.m], half, is_signed(parts))[top::2]
    if parts.row.form == words.WIDE:
        first = numbers(vectors[parts.n], width, as_signed)
    else:
        first = numbers(vectors[parts.n], half, is_signed(parts))[top::2]
    sign = -1 if is_difference(parts) else 1
    return widening_sources(parts, vectors), width, [one + sign * other for one, other in zip(first, second)], None


def is_difference(parts):
    return parts.row.name[1:4] == "sub"


def widening_sources(parts, vectors):
    """Both sources, or one whose lanes have two marks where a register is both at one width."""
    width, half, size = 1 << parts.size, (1 << parts.size) // 2, len(vectors[parts.n])
    last = TAKEN if is_difference(parts) else ADDED

    def halves(mark):
        return [mark if place % 2 == parts.row.name.endswith("t") else UNUSED for place in range(size // half)]

    if parts.row.form == words.WIDE:
        first = source_of(vectors, parts.n, width, [ADDED] * (size // width))
    elif parts.n == parts.m:
        return [source_of(vectors, parts.n, half, halves(ADDED + last))]
    else:
        first = source_of(vectors, parts.n, half, halves(ADDED))
    return [first, source_of(vectors, parts.m, half, halves(last))]


ADDING = {
    words.REDUCTION: reduction, words.SEGMENT: segments, words.LONG: long, words.PAIRWISE: pairwise,
    words.WIDENING: widening, words.WIDE: widening,
}
