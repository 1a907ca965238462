"""Sessions as readable text: read line by line, and written."""
import re

from . import layout, words
from .lanes import active, bytes_of, lanes_of, predicate_of, signed
from .saying import Bad, echo

WIDTHS = {"b": 1, "h": 2, "s": 4, "d": 8}  # bytes of a lane
FACTS = [name.lower() for name in words.FACTS]  # as a line of facts has them

# '//' and ';' anywhere; '#' first in its line, or after white space where no digit follows, so that an operand '#14' stays
COMMENT = re.compile(r"//|;|^[ \t]*#|(?<=[ \t])#(?![0-9])")

NUMBER = re.compile(r"-?(?:0x[0-9a-f]{1,32}|0|[1-9][0-9]{0,31})\Z")
BYTE = re.compile(r"[0-9a-f]{2}\Z")
REGISTER = re.compile(r"([zp])([0-9]+)(?:\.(.*))?\Z")
IN_HEX = re.compile(r"\.(?:inst|word) (?:0x([0-9a-f]{1,8})|([0-9a-f]{8}))\Z")
# a disassembler's line: address, word as a number or as four bytes in their order in memory, text; or address and text alone
DISASSEMBLED = re.compile(r"(?:0x)?[0-9a-f]+: (?:([0-9a-f]{8})|([0-9a-f]{2}(?: [0-9a-f]{2}){3}))(?: (.*))?\Z")
ADDRESS = re.compile(r"^(?:0x)?[0-9a-f]+: ")
NAMESAKE = re.compile(r"ptrue pn")  # of a predicate as a counter, which is another instruction
HEADING = re.compile(r"[0-9a-f]+ <.*>:\Z|disassembly of section .*:\Z|[^ ]+: file format .*\Z")


def session_of(data):
    """The session that a text stands for."""
    if data.startswith(layout.MARK):
        raise Bad("this is a session already, and not a text for one (bin/show-session turns it into text)")
    if data.startswith((b"\xff\xfe", b"\xfe\xff")):
        raise Bad("the text is UTF-16: save it as UTF-8", 1)
    if data.startswith(b"\xef\xbb\xbf"):
        data = data[3:]
    text, number = Text(), 0
    for number, raw in enumerate(data.replace(b"\r\n", b"\n").replace(b"\r", b"\n").split(b"\n"), 1):
        try:
            line = plain(raw)
            if line:
                text.line(line)
        except Bad as reason:
            raise Bad(str(reason), number) from None
    last = number - 1 if number > 1 and not raw else number
    if text.k is None:
        raise Bad("the text ends, and no line gives the length, as 'k 1'", last)
    if not text.in_program:
        raise Bad("the text ends, and no line 'program' stands before the words", last)
    return text.session()


def plain(raw):
    """A line without its comment, in lower case, its parts one space apart."""
    if b"\0" in raw:
        raise Bad("byte %d of the line is NUL: this is no text" % (raw.index(b"\0") + 1))
    try:
        line = raw.decode("utf-8")
    except UnicodeDecodeError as error:
        raise Bad("byte %d of the line, %02x, is not UTF-8" % (error.start + 1, raw[error.start])) from None
    comment = COMMENT.search(line)
    line = line[:comment.start()] if comment else line
    for place, letter in enumerate(line, 1):
        if not (" " <= letter <= "~" or letter == "\t"):
            raise Bad("character %d of the line, U+%04X, is not plain: only comments may have others than ASCII's" % (place, ord(letter)))
    return " ".join(line.lower().split())


class Text:
    """What the text has said so far."""

    def __init__(self):
        self.k, self.facts, self.vectors, self.predicates, self.words, self.in_program = None, None, {}, {}, [], False

    def line(self, line):
        first, *rest = line.split(" ")
        if self.in_program:
            self.program_line(line, first)
        elif first == "k":
            self.length(rest)
        elif first == "facts":
            self.core(rest)
        elif first == "program":
            self.start(rest)
        elif first in words.NAMES or first.startswith(".") or DISASSEMBLED.match(line):
            raise Bad("the words stand after a line 'program', and there was none yet")
        else:
            self.register(first, rest)

    def length(self, rest):
        if self.k is not None:
            raise Bad("the length is given twice")
        if len(rest) != 1 or rest[0] not in map(str, layout.LENGTHS):
            raise Bad("a length is %s, as 'k 1'%s" % (layout.any_length(), not_this(rest)))
        self.k = int(rest[0])

    def core(self, rest):
        if self.facts is not None:
            raise Bad("the facts are given twice: one line has all of them, as 'facts sve sve2'")
        facts = 0
        for name in rest:
            if name not in FACTS:
                raise Bad("%s is no fact: they are %s, and 'facts' alone is a core with none of them%s"
                          % (echo(name), ", ".join(FACTS), no_comma(name, "names")))
            if facts >> FACTS.index(name) & 1:
                raise Bad("the fact %s is given twice" % name)
            facts |= 1 << FACTS.index(name)
        self.facts = facts

    def start(self, rest):
        if rest:
            raise Bad("'program' stands alone: the words are on the lines after it")
        if self.k is None:
            raise Bad("the length stands first, as 'k 1'")
        self.in_program = True

    def register(self, name, rest):
        found = REGISTER.match(name)
        if not found:
            raise Bad("%s is neither k, nor facts, nor a register as z1, z1.h, p0 or p0.h, nor program%s" % (echo(name), hint(name)))
        if self.k is None:
            raise Bad("the length stands first, as 'k 1'")
        kind, digits, letter = found.groups()
        file, count = (self.vectors, layout.VECTORS) if kind == "z" else (self.predicates, layout.PREDICATES)
        if len(digits) > 2 or int(digits) >= count or (len(digits) > 1 and digits[0] == "0"):
            raise Bad("%s is no register: there are %s0 to %s%d" % (echo(kind + digits), kind, kind, count - 1))
        if int(digits) in file:
            raise Bad("register %s%s is given twice" % (kind, digits))
        if letter is not None and letter not in WIDTHS:
            raise Bad("%s is no width: lanes are b, h, s or d, as %s%s.h" % (echo("." + letter), kind, digits))
        if not rest:
            raise Bad("%s has no values; leave the line out where the register is zero" % name)
        file[int(digits)] = self.values(kind, letter, rest)

    def values(self, kind, letter, rest):
        """A register's bytes, from what its line gives."""
        size = layout.vector_bytes(self.k) if kind == "z" else layout.predicate_bytes(self.k)
        if letter is None:
            self.at_most(len(rest), size, "bytes")
            return bytes(byte_of(word) for word in rest).ljust(size, b"\0")
        width = WIDTHS[letter]
        lanes = layout.vector_bytes(self.k) // width
        if kind == "z":
            self.at_most(len(rest), lanes, "lanes of ." + letter)
            return bytes_of([lane_of(word, width) for word in rest], width).ljust(size, b"\0")
        if rest in (["all"], ["none"]):
            return predicate_of([rest == ["all"]] * lanes, width, size)
        self.at_most(len(rest), lanes, "lanes of ." + letter)
        return predicate_of([bit_of(word) for word in rest], width, size)

    def at_most(self, given, most, what):
        if given > most:
            raise Bad("%d %s are given, and at k = %d there are %d" % (given, what, self.k, most))

    def program_line(self, line, first):
        if HEADING.match(line):
            return
        if first in ("k", "facts", "program") or REGISTER.match(first):
            raise Bad("%s stands after 'program', and only words do: the length, the facts and the registers stand before it" % echo(first))
        self.words.append(word_of(line))
        if len(self.words) > layout.MOST_WORDS:
            raise Bad("this is word %d, and a program has at most %d" % (len(self.words), layout.MOST_WORDS))

    def session(self):
        zero_vector, zero_predicate = bytes(layout.vector_bytes(self.k)), bytes(layout.predicate_bytes(self.k))
        vectors = [self.vectors.get(number, zero_vector) for number in range(layout.VECTORS)]
        predicates = [self.predicates.get(number, zero_predicate) for number in range(layout.PREDICATES)]
        return layout.Session(self.k, vectors, predicates, self.words, self.facts)


def not_this(rest):
    return ", not %s" % echo(" ".join(rest)) if rest else ""


def hint(name):
    """What was meant by a line's first part, where that can be told."""
    if re.match(r"k[0-9:=]", name):
        return " (a space stands after k, as 'k 1')"
    if re.match(r"facts?\b", name):
        return " (facts are given as 'facts sve sve2')"
    if re.match(r"[vbhsdq][0-9]", name):
        return " (v, d and the like are low parts of z registers: give z)"
    if re.match(r"program.", name):
        return " ('program' stands alone in its line)"
    if re.match(r"[zp][0-9]+[.:=,]", name):
        return " (a space stands between the register and its values)"
    return ""


def byte_of(word):
    if not BYTE.match(word):
        raise Bad("%s is no byte: bytes are two hex digits each, one space apart, without 0x; lanes need a width, as z1.h" % echo(word))
    return int(word, 16)


def lane_of(word, width):
    if not NUMBER.match(word):
        raise Bad("%s is no number: decimal without leading zeros, as 250 or -3, or hex, as 0x7f%s" % (echo(word), no_comma(word)))
    number = int(word, 16 if "0x" in word else 10)
    if not -(1 << 8 * width - 1) <= number < 1 << 8 * width:
        raise Bad("%s does not fit a lane of %d bits: %d to %d" % (echo(word), 8 * width, -(1 << 8 * width - 1), (1 << 8 * width) - 1))
    return number


def bit_of(word):
    if word not in ("0", "1"):
        raise Bad("%s is neither 0 nor 1: a predicate by lanes is as 'p0.h 1 1 0 1', 'p0.h all' or 'p0.h none'%s" % (echo(word), no_comma(word)))
    return word == "1"


def no_comma(word, what="values"):
    if "," in word:
        return "; %s stand apart by spaces, without commas" % what
    return "; a comment's '#' has a space before it and no digit after it" if "#" in word else ""


def word_of(line):
    """The word that a line of the program stands for."""
    found = DISASSEMBLED.match(line)
    if found:
        return disassembled(found)
    line = ADDRESS.sub("", line, count=1)
    if line.startswith(".inst") or line.startswith(".word"):
        found = IN_HEX.match(line)
        if not found:
            raise Bad("%s takes one word, as '%s 0x04002020': 0x and one to eight hex digits, or eight hex digits" % (line[:5], line[:5]))
        return int(found[1] or found[2], 16)
    if line.startswith("."):
        raise Bad("%s is no directive here: .inst and .word are" % echo(line.split(" ")[0]))
    if line.endswith(":"):
        raise Bad("%s is a label: leave it out, a program here is its words alone" % echo(line))
    return words.assembled(line)


def disassembled(found):
    """The word of a disassembler's line; where its text is one of the twenty-five instructions, it must be that word's."""
    number, memory, text = found.groups()
    word = int(number, 16) if number else int.from_bytes(bytes.fromhex(memory), "little")
    if text and text.split(" ")[0] in words.NAMES and not NAMESAKE.match(text) and words.assembled(text) != word:
        reads = words.named(word)
        raise Bad("the word %08x %s, and the line's text says %s" % (word, "reads '%s'" % reads if reads else "is not accepted", echo(text)))
    return word


def text_of(session):
    """A session's text; session_of reads the same session from it."""
    uses = first_uses(session.words)
    lines = ["k %d" % session.k]
    if session.facts is not None:
        lines.append(" ".join(["facts"] + [name.lower() for name in words.fact_names(session.facts)]))
    for number, data in enumerate(session.vectors):
        if any(data):
            lines.append(vector_line(number, data, uses.get(("z", number))))
    for number, data in enumerate(session.predicates):
        if any(data):
            lines.append(predicate_line(number, data, uses.get(("p", number))))
    lines.append("program")
    lines += [word_line(word, layout.facts_of(session)) for word in session.words]
    return "\n".join(lines) + "\n"


def word_line(word, facts):
    """A word's text, or itself in hex; where walk refuses it on a core of these facts, a comment says so."""
    number, lacks = words.decoded(word)[0], words.lacking(word, facts)
    if number:
        return ".inst 0x%08x  # %s%s" % (word, {7: "7 UNKNOWN", 8: "8 UNDEFINED"}[number], lacks and ", and " + lacks)
    return words.named(word) + (lacks and "  # %s: walk refuses it with 8 UNDEFINED" % lacks)


def first_uses(program):
    """The width and sign at which each register is first read by the program, whatever the facts are."""
    uses = {}
    for word in program:
        number, parts = words.decoded(word)
        if number:
            break
        for kind, register, width in words.reads(parts):
            uses.setdefault((kind, register), (width, parts.row.name.startswith("s")))
    return uses


def vector_line(number, data, use):
    """A vector register's lanes at the width of its first use, or its bytes; zeros at the end are left out."""
    width, sign = use or (1, False)
    lanes = lanes_of(data, width)
    while not lanes[-1]:
        lanes.pop()
    if use is None:
        return "z%d %s" % (number, " ".join("%02x" % lane for lane in lanes))
    return "z%d.%s %s" % (number, words.letter(width), " ".join(str(signed(lane, width) if sign else lane) for lane in lanes))


def predicate_line(number, data, use):
    """A predicate's lanes at the width of its first use, or its bytes where it has bits besides."""
    if use:
        width = use[0]
        lanes = active(data, width)
        if predicate_of(lanes, width, len(data)) == data:
            shown = "all" if all(lanes) else " ".join("01"[on] for on in lanes).rstrip(" 0")
            return "p%d.%s %s" % (number, words.letter(width), shown)
    return "p%d %s" % (number, data.rstrip(b"\0").hex(" "))
