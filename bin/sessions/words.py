"""The twenty-five words, as numbers, as fields and as text.

The table is the paper's. This is for making and reading sessions at a terminal; the proved assembler is the library's, and
tests/terminal holds this one to the proved engine's texts over every accepted word."""
import re
from collections import namedtuple

from . import patterns
from .saying import Bad, echo

LETTERS = "bhsdq"  # a lane's letter by its size: 8, 16, 32, 64 and 128 bits

# A form's mask, and its operands: d, n, m and g are register numbers, made that of a predicate which is the destination, T and H the letters of
# the width and of half of it, R that of twice the width, A the arrangement of a V register. A rule says what is easily mistaken.
Form = namedtuple("Form", "mask operands rule", defaults=("",))
REDUCTION = Form(0xFF3FE000, "d{d}, p{g}, z{n}.{T}")
SEGMENT = Form(0xFF3FE000, "v{d}.{A}, p{g}, z{n}.{T}")
LONG = Form(0xBF3FFC00, "{R}{d}, v{n}.{A}")
PAIRWISE = Form(0xFF3FE000, "z{d}.{T}, p{g}/m, z{n}.{H}")
# a sum or a difference of two lanes of half the width, and of one of the full width and one of half
WIDENING = Form(0xFF20FC00, "z{d}.{T}, z{n}.{H}, z{m}.{H}", "zN and zM have half the width of zD")
WIDE = Form(0xFF20FC00, "z{d}.{T}, z{n}.{T}, z{m}.{H}", "zN has the width of zD, and zM half of it")
# a predicate made by a pattern, and one without active lanes
PTRUE = Form(0xFF3FFC10, "p{made}.{T}, {pattern}",
             "a pattern is pow2, vl1 to vl8, vl16, vl32, vl64, vl128, vl256, mul4, mul3, all, or 0 to 31, with # or without, in decimal without leading "
             "zeros or in hex; where there is none it is all")
PFALSE = Form(0xFFFFFFF0, "p{made}.{T}", "it clears every bit, and is written with .b")
MAKING = PTRUE, PFALSE

# The facts about a core, in the order of their bits; none of them implies another.
FACTS = ("SVE", "SVE2", "SVE2p1", "SME", "SME2p1")
SVE, SVE2, SVE2P1, SME, SME2P1 = (1 << bit for bit in range(5))
EVERY_FACT, NOTHING = 31, 0

# A row's need is a set of facts: a core has the row where it has one of them, or where the row needs nothing. What a word means and how it
# reads does not depend on facts.
Row = namedtuple("Row", "name value form sizes need")
ROWS = [
    Row("saddv", 0x04002000, REDUCTION, (0, 1, 2), SVE | SME),
    Row("uaddv", 0x04012000, REDUCTION, (0, 1, 2, 3), SVE | SME),
    Row("addqv", 0x04052000, SEGMENT, (0, 1, 2, 3), SVE2P1 | SME2P1),
    Row("saddlv", 0x0E303800, LONG, (0, 1, 2), NOTHING),
    Row("uaddlv", 0x2E303800, LONG, (0, 1, 2), NOTHING),
    Row("sadalp", 0x4404A000, PAIRWISE, (1, 2, 3), SVE2 | SME),
    Row("uadalp", 0x4405A000, PAIRWISE, (1, 2, 3), SVE2 | SME),
    Row("saddlb", 0x45000000, WIDENING, (1, 2, 3), SVE2 | SME),
    Row("saddlt", 0x45000400, WIDENING, (1, 2, 3), SVE2 | SME),
    Row("uaddlb", 0x45000800, WIDENING, (1, 2, 3), SVE2 | SME),
    Row("uaddlt", 0x45000C00, WIDENING, (1, 2, 3), SVE2 | SME),
    Row("ssublb", 0x45001000, WIDENING, (1, 2, 3), SVE2 | SME),
    Row("ssublt", 0x45001400, WIDENING, (1, 2, 3), SVE2 | SME),
    Row("usublb", 0x45001800, WIDENING, (1, 2, 3), SVE2 | SME),
    Row("usublt", 0x45001C00, WIDENING, (1, 2, 3), SVE2 | SME),
    Row("saddwb", 0x45004000, WIDE, (1, 2, 3), SVE2 | SME),
    Row("saddwt", 0x45004400, WIDE, (1, 2, 3), SVE2 | SME),
    Row("uaddwb", 0x45004800, WIDE, (1, 2, 3), SVE2 | SME),
    Row("uaddwt", 0x45004C00, WIDE, (1, 2, 3), SVE2 | SME),
    Row("ssubwb", 0x45005000, WIDE, (1, 2, 3), SVE2 | SME),
    Row("ssubwt", 0x45005400, WIDE, (1, 2, 3), SVE2 | SME),
    Row("usubwb", 0x45005800, WIDE, (1, 2, 3), SVE2 | SME),
    Row("usubwt", 0x45005C00, WIDE, (1, 2, 3), SVE2 | SME),
    Row("ptrue", 0x2518E000, PTRUE, (0, 1, 2, 3), SVE | SME),
    Row("pfalse", 0x2518E400, PFALSE, (0,), SVE | SME),
]
NAMES = [row.name for row in ROWS]

# where each number stands in a word, and the greatest
FIELDS = {"d": (0, 31), "n": (5, 31), "g": (10, 7), "m": (16, 31), "made": (0, 15), "pattern": (5, patterns.MOST)}

# An accepted word taken apart; a number that its form does not have is of no meaning. d is the destination's number, a made predicate's too.
Word = namedtuple("Word", "row size q d n g m pattern")

FIELD = re.compile(r"\{(\w+)\}")  # in a form's operands
NUMBER = re.compile(r"(?<=\b[bhsdqpvz])[0-9]+|(?<=, )(?:%s)\Z" % patterns.SPELLED)  # a register's number or a pattern, in a text
TAKEN_OUT = "\t"  # in its place; no text has it of itself in the paper's spacing
WITHOUT_PATTERN = re.compile(r"p[0-9]+\.[bhsd]\Z")
SPARE_SPACE = re.compile(r" (?=[,/.])|(?<=[,/.]) ")


def variants(row):
    """Each size that the row allows, with Q where it has one."""
    for size in row.sizes:
        for q in (0, 1) if row.form is LONG else (0,):
            if not (row.form is LONG and size == 2 and q == 0):
                yield size, q


def template(row, size, q):
    """The row's text at a size, its register numbers still to be filled in."""
    bytes_of_v = 8 << q if row.form is LONG else 16
    letters = {
        "T": LETTERS[size],
        "H": LETTERS[size - 1],
        "R": LETTERS[size + 1],
        "A": "%d%s" % (bytes_of_v >> size, LETTERS[size]),
    }
    text = row.name + " " + row.form.operands
    for letter, to in letters.items():
        text = text.replace("{%s}" % letter, to)
    return text


TEMPLATES = {(row.name, size, q): template(row, size, q) for row in ROWS for size, q in variants(row)}


def shapes():
    """For each text with its numbers taken out: the word with zeros for them, and the fields in their order."""
    found = {}
    for row in ROWS:
        for size, q in variants(row):
            text = TEMPLATES[row.name, size, q]
            found[FIELD.sub(TAKEN_OUT, text)] = row.value | size << 22 | q << 30, FIELD.findall(text)
    return found


SHAPES = shapes()


def row_of(word):
    """The row that a word matches, or None."""
    for row in ROWS:
        if word & row.form.mask == row.value:
            return row
    return None


def decoded(word):
    """0 and the word's parts, or the number it is refused with on every core: 7, UNKNOWN, or 8, UNDEFINED."""
    row = row_of(word)
    if row is None:
        return 7, None
    size, q = word >> 22 & 3, word >> 30 & 1 if row.form is LONG else 0
    if (row.name, size, q) not in TEMPLATES:
        return 8, None
    return 0, Word(row, size, q, word & 31, word >> 5 & 31, word >> 10 & 7, word >> 16 & 31, word >> 5 & patterns.MOST)


def have(facts, need):
    """Whether the facts have what a row needs."""
    return not need or bool(facts & need)


def lacking(word, facts):
    """What the word's row needs where the facts do not have it, as 'saddv needs SVE or SME', or nothing."""
    row = row_of(word)
    return "" if row is None or have(facts, row.need) else "%s needs %s" % (row.name, " or ".join(fact_names(row.need)))


def fact_names(facts):
    """The names of facts, in the order of their bits."""
    return [name for bit, name in enumerate(FACTS) if facts >> bit & 1]


def named(word):
    """An accepted word's text, or None."""
    number, parts = decoded(word)
    if number:
        return None
    numbers = {"d": parts.d, "n": parts.n, "g": parts.g, "m": parts.m, "made": parts.d, "pattern": patterns.named(parts.pattern)}
    return TEMPLATES[parts.row.name, parts.size, parts.q].format(**numbers)


def accepted_forms(name):
    """The texts that a row allows, with D, N, M and G for the numbers."""
    letters = {"d": "D", "n": "N", "m": "M", "g": "G", "made": "D", "pattern": "pattern"}
    return [TEMPLATES[key].format(**letters) for key in TEMPLATES if key[0] == name]


def exact(text):
    """The text in the paper's spacing, case and spelling."""
    name, _, operands = " ".join(text.lower().split()).partition(" ")
    operands = SPARE_SPACE.sub("", operands)
    if name == "ptrue":
        operands = with_pattern(operands)
    return name + " " + operands.replace(",", ", ")


def with_pattern(operands):
    """The operands of ptrue with the pattern as the paper writes it, all where none is given; a number that no pattern has stays as it is."""
    if WITHOUT_PATTERN.match(operands):
        operands += "," + patterns.named(patterns.ALL)
    register, comma, pattern = operands.partition(",")
    number = patterns.number_of(pattern)
    return operands if number is None or number > patterns.MOST else register + comma + patterns.named(number)


def assembled(text):
    """The word that a line of assembler stands for. Spacing and case are free."""
    text = exact(text)
    shape = NUMBER.sub(TAKEN_OUT, text)
    if shape not in SHAPES:
        raise Bad(why_not(text))
    word, fields = SHAPES[shape]
    for given, field in zip(NUMBER.findall(text), fields):
        word |= (pattern_in(given) if field == "pattern" else register_in(given, field)) << FIELDS[field][0]
    return word


def pattern_in(given):
    """The number of a pattern in a text."""
    number = patterns.number_of(given)
    if number > patterns.MOST:
        raise Bad("a pattern is 0 to %d, or a name, not %s" % (patterns.MOST, echo(given)))
    return number


PREDICATES = {"g": "a governing predicate is p0 to p7", "made": "a predicate is p0 to p15"}  # the fields that name one


def register_in(digits, field):
    """The number of a register in a text."""
    if len(digits) > 1 and digits[0] == "0":
        raise Bad("the register number %s has a leading zero" % echo(digits))
    if len(digits) > 2 or int(digits) > FIELDS[field][1]:
        some, letter_first = (PREDICATES[field], "p") if field in PREDICATES else ("a register number is 0 to 31", "")
        raise Bad("%s, not %s" % (some, echo(letter_first + digits)))
    return int(digits)


def why_not(text):
    """The reason why a text has no word, with what would have one."""
    name = text.split(" ")[0]
    if name in NAMES:
        rule = ROWS[NAMES.index(name)].form.rule
        forms = name + (" (%s)" % rule if rule else "")
        return "%s is none of the forms of %s: %s" % (echo(text.strip()), forms, "; ".join(accepted_forms(name)))
    for known in NAMES:
        if re.match(known + r"[bhsdpvz][0-9]", text):
            return "a space is missing after %s: write %s" % (known, echo(known + " " + text[len(known):].strip()))
    if re.match(r"(0x)?[0-9a-f]{8} ?\Z", text):
        return "a word in hex is written '.inst 0x%s'" % text.strip()[-8:]
    return "%s is no instruction here: the names are %s" % (echo(text.strip()), ", ".join(NAMES))


def letter(width):
    """The letter of lanes of `width` bytes."""
    return LETTERS[width.bit_length() - 1]


def makes_predicate(parts):
    """Whether a word's destination is a predicate register."""
    return parts.row.form in MAKING


def reads(parts):
    """The registers that a word reads, each with its kind, number and the bytes of a lane (for a predicate: of a lane that it governs)."""
    width, form = 1 << parts.size, parts.row.form
    if makes_predicate(parts):
        return []
    if form in (REDUCTION, SEGMENT):
        return [("z", parts.n, width), ("p", parts.g, width)]
    if form == LONG:
        return [("z", parts.n, width)]
    if form == PAIRWISE:
        return [("z", parts.n, width // 2), ("p", parts.g, width), ("z", parts.d, width)]
    return [("z", parts.n, width if form == WIDE else width // 2), ("z", parts.m, width // 2)]
