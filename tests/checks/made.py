"""One drawn step that makes a predicate, read back beside what it should show."""
import re

from .common import expect
from .drawn import LIST, gathered, places
from .meant import BYTES
from .patterns import NAMES, lanes, made

# rows of lanes that are told and not drawn: those that stay as they are, and those that are alike before and alike after
TOLD = re.compile(r"(\S+) lanes? (%s)(?: stay ([01])|: ([01]) before, ([01]) after)\." % LIST)
OTHERS = re.compile(r"(?:Bits? (%s)|(\d+) bits) of p(\d+), of no lane of (\S+), (?:was|were) set and (?:is|are) cleared\." % LIST)
MOST_LANES = 16  # in a row


def number_of(title):
    """The register that a step's title says is made."""
    return int(re.match(r"\d+ 0 \w+ p(\d+)\.", title)[1])


class MadeReading:
    """A step that makes a predicate, with the register's bytes before and after it."""

    def __init__(self, step, before, after):
        name, register, pattern = re.fullmatch(r"\d+ 0 (ptrue|pfalse) (p\d+\.[bhsd])(?:, (\S+))?", step.title).groups()
        self.step, self.name, self.register, self.width = step, name, register, BYTES[register[-1]]
        self.pattern = NAMES.index(pattern) if name == "ptrue" else None
        self.bits = [[byte >> bit & 1 for byte in data for bit in range(8)] for data in (before, after)]
        self.count = len(self.bits[0]) // self.width
        self.told = [TOLD.fullmatch(sentence) for sentence in step.said]

    def check(self):
        self.lanes()
        self.rows()
        self.meaning()
        said = [sentence for sentence, told in zip(self.step.said, self.told) if not told]
        expect(said[:1] == [self.reckoned()], "the number of lanes is told as", said, "and not", self.reckoned())
        self.others(said[1:])

    def lanes(self):
        """Each lane is drawn once or told once, and has its bits."""
        shown = [{lane: int(text) for lane, text in gathered(self.step, row).get(self.register, {}).items()} for row in ("before", "after")]
        expect(shown[0].keys() == shown[1].keys(), "a lane is drawn before the step and not after it")
        for found in filter(None, self.told):
            expect(found[1] == self.register, "another register is told of:", found[0])
            for lane in places(found[2]):
                expect(lane not in shown[0], "lane", str(lane), "is told of twice")
                shown[0][lane], shown[1][lane] = int(found[3] or found[4]), int(found[3] or found[5])
        for bits, held, when in zip(self.bits, shown, ("before", "after")):
            expect(held == dict(enumerate(bits[::self.width])), self.register, when, "is shown as", held)

    def rows(self):
        """Tables of the one register, in rows of one length, none of lanes that stay 0, and none as the row before with all lanes alike."""
        former = None
        for table in self.step.tables:
            expect(table.name == self.register and list(table.rows) == ["before", "after"] and not table.bars, "a table is drawn of", table)
            row = list(range(table.lanes[0], table.lanes[0] + min(MOST_LANES, self.count)))
            expect(table.lanes == row, "a row has the lanes", table.lanes)
            alike = {*zip(table.rows["before"], table.rows["after"])}
            expect(alike != {("0", "0")}, "lanes are drawn that stay 0")
            follows = former and former.lanes[-1] + 1 == table.lanes[0] and former.rows == table.rows
            expect(not (follows and len(alike) == 1), "lanes are drawn that are as those before them")
            former = table
        expect(self.step.total is None, "a sum is told where nothing is added")

    def meaning(self):
        """After the step a lane is active by the pattern alone, and no other bit is set."""
        size = "bhsd".index(self.register[-1])
        word = 0x2518E400 if self.pattern is None else 0x2518E000 | size << 22 | self.pattern << 5
        expect(sum(bit << place for place, bit in enumerate(self.bits[1])) == made(word, len(self.bits[1]) // 16), "walk leaves another predicate")

    def reckoned(self):
        """The sentence on the number of lanes and how it came."""
        if self.pattern is None:
            return "pfalse: none of %d lanes, and none at any other size." % self.count
        name, number = NAMES[self.pattern], lanes(self.pattern, self.count)
        reason = ""
        if name.startswith("vl") and not number:
            reason = ", for there are not %s" % name[2:]
        if name.startswith("#"):
            reason = ", as of every number of lanes"
        if name in ("pow2", "mul3", "mul4"):
            kind = "power of two" if name == "pow2" else "multiple of " + name[3:]
            reason = ", the largest %s up to %d" % (kind, self.count) if number else ", for no %s above 0 is up to %d" % (kind, self.count)
        return "%s of %d lanes: %s%s." % (name, self.count, number or "none", reason)

    def others(self, said):
        """The bits of no lane that were set are told, by their places or by how many they are."""
        others = [place for place, bit in enumerate(self.bits[0]) if bit and place % self.width]
        expect(len(said) == bool(others), "of the bits", others, "is said", said)
        if others:
            found = OTHERS.fullmatch(said[0])
            expect(found and "p" + found[3] == self.register.split(".")[0] and found[4] == self.register, "bits of no lane are told as", said)
            expect(places(found[1]) == others if found[1] else len(others) > 4 and int(found[2]) == len(others), "bits of no lane are told as", said)
