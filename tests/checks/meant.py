"""What the drawing of a word should show, by the word's text and the predicates alone."""
import re
from collections import namedtuple

BYTES = {"b": 1, "h": 2, "s": 4, "d": 8}
OPERAND = re.compile(r"([bhsdvzp])(\d+)(?:/m)?(?:\.(\d*)([bhsd]))?")

# What a word should show: for each source, by its register and the bytes of a lane, each lane's mark; the destination's register and the bytes of
# a lane; for each of its lanes the terms of its sum, None where it is kept; and which lanes are active, where a predicate governs. A term is a
# register, the bytes of a lane, the lane, a sign, and whether it is read as a signed number.
Meant = namedtuple("Meant", "name sources d width terms governed")


def family_of(name):
    """A word's name without the letters of its sign and of its half, as addv, addlv, adalp, addl and subw; addqv has neither."""
    return name if name == "addqv" else name[1:].rstrip("bt")


def name_of(number, width):
    return "z%d.%s" % (number, "bhsd"[(1, 2, 4, 8).index(width)])


def meant_by(title, size, predicates, as_signed):
    """What a word should show, by its text alone; registers have `size` bytes."""
    name, operands = title.split(" ", 3)[2:]
    operands = [OPERAND.fullmatch(operand) for operand in operands.split(", ")]
    numbers = [int(operand[2]) for operand in operands]
    widths = [BYTES[operand[4] or operand[1]] if operand[1] != "p" else None for operand in operands]
    if family_of(name) in GOVERNED:
        width = widths[0] if family_of(name) == "adalp" else widths[2]
        bits = int.from_bytes(predicates[numbers[1]], "little")
        governed = [bits >> lane * width & 1 for lane in range(size // width)]
        return GOVERNED[family_of(name)](name, numbers[0], numbers[2], width, size, governed, as_signed)
    if family_of(name) == "addlv":
        count = int(operands[1][3])
        sources = {(numbers[1], widths[1]): ["+"] * count}
        terms = [[(numbers[1], widths[1], lane, 1, name[0] == "s") for lane in range(count)]] + [[]] * (size // widths[0] - 1)
        return Meant(name, sources, numbers[0], widths[0], terms, None)
    return widening(name, numbers, widths, size, as_signed)


def addv(name, d, n, width, size, governed, _):
    terms = [(n, width, lane, 1, name[0] == "s") for lane, on in enumerate(governed) if on]
    return Meant(name, {(n, width): marks(governed)}, d, 8, [terms] + [[]] * (size // 8 - 1), governed)


def addqv(name, d, n, width, size, governed, as_signed):
    terms = [[] for _ in range(size // width)]
    for lane, on in enumerate(governed):
        if on:
            terms[lane * width % 16 // width].append((n, width, lane, 1, as_signed))
    return Meant(name, {(n, width): marks(governed)}, d, width, terms, governed)


def adalp(name, d, n, width, size, governed, as_signed):
    half = width // 2
    terms = [[(d, width, lane, 1, as_signed)] + [(n, half, 2 * lane + side, 1, name[0] == "s") for side in (0, 1)] if on else None
             for lane, on in enumerate(governed)]
    return Meant(name, {(n, half): marks([on for on in governed for _ in (0, 1)])}, d, width, terms, governed)


GOVERNED = {"addv": addv, "addqv": addqv, "adalp": adalp}


def marks(governed):
    return ["+" if on else "off" for on in governed]


def widening(name, numbers, widths, size, as_signed):
    """saddlb and its mates: the first source's lane has the width of the destination's in a wide word; b is the lower half, t the upper."""
    (d, n, m), (width, first, half) = numbers, widths
    side, sign, mark = int(name[-1] == "t"), -1 if "sub" in name else 1, "-" if "sub" in name else "+"
    own = name[0] == "s"
    terms = [[(n, width, lane, 1, as_signed) if first == width else (n, half, 2 * lane + side, 1, own),
              (m, half, 2 * lane + side, sign, own)] for lane in range(size // width)]
    sources = {}
    for number, each, letter in ((n, first, "+"), (m, half, mark)):
        entering = [letter if each == width or lane % 2 == side else "." for lane in range(size // each)]
        both = sources.get((number, each))
        sources[number, each] = [one + other if one != "." else "." for one, other in zip(both, entering)] if both else entering
    return Meant(name, sources, d, width, terms, None)
