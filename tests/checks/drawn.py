"""A reader of drawn lanes. It goes by the columns in which numbers stand and by the sentences about what is not drawn, and knows nothing of the
code that draws: what it gives back is each lane's number with its texts, and what stands beneath what."""
import re
from collections import namedtuple

from .common import expect
from .patterns import makes

MOST = 80  # columns
MEANINGS = {"+": "added", "-": "taken away", "++": "added twice", "+-": "added and taken away", "off": "not active, not added",
            ".": "not used by the word"}
STAR, BITS = "A number with * came round.", "In a predicate: 1 active, 0 not; lane e of w bytes has bit e*w."
ROWS = ("lane", "value", "enters", "before", "gained", "sum", "after")
REGISTER = r"[zp]\d+\.[bhsd]"
LIST = r"\d+(?: to \d+)?(?:(?:, | and )\d+(?: to \d+)?)*"
LANES = re.compile(r"(%s(?: and %s)?) lanes? (%s)" % (REGISTER, REGISTER, LIST))

# A table's register, the numbers of its lanes, the column in which each ends, the columns of the lines between boxes, and its rows' texts
Table = namedtuple("Table", "name lanes ends bars rows")
# A step's title, its tables, its sentences, and the sum that is told in words: of what, and its text
Step = namedtuple("Step", "title tables said total")


def steps_of(shown):
    """The steps of a drawing, and the line of a refused word that may be the last."""
    expect(shown.endswith("\n") and not shown.endswith("\n\n"), "the drawing ends otherwise than with a line")
    for line in shown.split("\n"):
        expect(len(line) <= MOST, "a line has", str(len(line)), "columns:", line)
        expect(line == line.rstrip() and re.fullmatch("[ -~]*", line), "a line ends in spaces or has other letters than plain ones:", line)
    head, *parts = shown[:-1].split("\n\n")
    refused = parts.pop() if re.fullmatch(r"\d+ [1-9]\d* [0-9a-f]{8}", parts[-1]) else None
    steps = [step_of(part.split("\n")) for part in parts]
    legend(head.split("\n"), steps)
    return steps, refused


def legend(lines, steps):
    """The head says how lanes count, and explains the marks that there are and no others."""
    expect(lines[0] == "Lanes count from 0, as Arm counts; lane 0 is a register's lowest bytes.", "the first line is", lines[0])
    used = {mark for step in steps for table in step.tables for mark in table.rows.get("enters", ())}
    said, bits = without(" ".join(lines[1:]), BITS)
    expect(bits == any(makes_predicate(step) for step in steps), "the head says of predicates", said)
    said, star = without(said, STAR)
    expect(star == any("came round" in sentence for step in steps for sentence in step.said), "the head says of the mark *", said)
    if all(makes_predicate(step) for step in steps):
        expect(said == "", "the head explains marks where nothing is added:", said)
        return
    told = re.fullmatch(r"Beneath a lane: (.*)\.", said)
    expect(told, "the head says no marks:", said)
    told = dict(part.split(" ", 1) for part in told[1].split("; "))
    expect(told == {mark: MEANINGS[mark] for mark in told} and used <= set(told), "the head explains", told, "and marks are", sorted(used))


def without(said, last):
    """What is said before a last sentence, and whether that is the last."""
    return (said[:-len(last)].rstrip(" "), True) if said.endswith(last) else (said, False)


def makes_predicate(step):
    return makes(step.title.split(" ")[2])


def step_of(lines):
    """One step, from its lines."""
    tables, said, total = [], [], None
    for line in lines[1:]:
        sum_line = re.fullmatch(r"  sum of (.*): (\S+)", line)
        if line[8:14].strip() in ROWS and line[7] == " ":
            into_table(tables, line)
        elif sum_line:
            expect(total is None, "two sums across lanes are told")
            total = sum_line[1], sum_line[2]
        elif line.startswith("    "):
            said[-1] += " " + line[4:]
        else:
            expect(line.startswith("  ") and line[2] != " ", "a line is neither a row nor a sentence:", line)
            said.append(line[2:])
    return Step(lines[0], tables, said, total)


def into_table(tables, line):
    """A row, which begins a table or stands in the last: each of its texts ends in the column in which the lane's number ends."""
    name, row = line[2:7].strip(), line[8:14].strip()
    cells = [(cell[0], cell.end() - cell[0].endswith("*")) for cell in re.finditer(r"[^ |]+", line[14:])]
    texts, ends, bars = [text for text, _ in cells], [end for _, end in cells], [place for place, letter in enumerate(line[14:]) if letter == "|"]
    if row == "lane":
        expect(re.fullmatch(REGISTER, name), "lanes of no register:", line)
        tables.append(Table(name, [int(text) for text in texts], ends, bars, {}))
        expect(texts == [str(lane) for lane in tables[-1].lanes], "lanes have numbers otherwise than in decimal:", line)
        return
    expect(name == "" and row not in tables[-1].rows, "a row has a name, or stands twice:", line)
    expect(ends == tables[-1].ends and bars == tables[-1].bars, "a row does not stand beneath its lanes:", line)
    tables[-1].rows[row] = texts


def places(listed):
    """The numbers that a sentence lists."""
    found = []
    for part in re.split(", | and ", listed):
        first, _, last = part.partition(" to ")
        found += range(int(first), int(last or first) + 1)
    expect(found == sorted(set(found)), "a sentence lists numbers twice or out of order:", listed)
    return found


def zeros_of(step):
    """The lanes that sentences call zero, as pairs of register and lane: those of sources, and those of the destination, which stay so; and of
    the governed ones which are active and which are off."""
    sources, stay, active, off = [], [], [], []
    for sentence in step.said:
        found = re.fullmatch(r"(?:(.*?) are 0)?(?:; )?(?:(%s lanes? %s) stay 0)?(?: and (off|active)|; of these (%s) (?:is|are) off)?\."
                             % (REGISTER, LIST, LIST), sentence)
        if not re.search(r" (are|stay) 0\b", sentence):
            continue
        expect(found and (found[1] or found[2]), "lanes are called zero otherwise:", sentence)
        sources += named(found[1]) if found[1] else []
        stay += named(found[2]) if found[2] else []
        governed = named(found[2] or found[1])
        gone = places(found[4]) if found[4] else []
        expect(set(gone) <= {lane for _, lane in governed}, "lanes are off that are not among those named:", sentence)
        off += [pair for pair in governed if found[3] == "off" or pair[1] in gone]
        active += [pair for pair in governed if found[3] == "active" or found[4] and pair[1] not in gone]
    return sources, stay, active, off


def named(text):
    """The registers and lanes of a sentence."""
    found = LANES.findall(text)
    expect(" and ".join("%s lanes %s" % pair for pair in found) == text, "lanes are named otherwise:", text)
    return [(name, lane) for names, lanes in found for name in names.split(" and ") for lane in places(lanes)]


def gathered(step, row):
    """For each register that has the row, its lanes with their texts; no lane is drawn twice."""
    found = {}
    for table in step.tables:
        for lane, text in zip(table.lanes, table.rows.get(row, ())):
            expect(lane not in found.setdefault(table.name, {}), "lane", str(lane), "of", table.name, "is drawn twice")
            found[table.name][lane] = text
    return found


def beneath(step):
    """The tables that stand one above the other, each group with the sums beneath it last."""
    group, groups = [], []
    for table in step.tables:
        group.append(table)
        if "sum" in table.rows:
            groups.append(group)
            group = []
    return groups


def box(table, lane):
    """Which box of its table a lane stands in."""
    end = table.ends[table.lanes.index(lane)]
    return sum(bar < end for bar in table.bars) - 1
