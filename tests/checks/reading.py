"""One step of a drawing, beside what it should show."""
import re
from collections import Counter

from .common import expect
from .drawn import beneath, box, gathered, places, zeros_of
from .meant import BYTES, family_of, name_of

SEEN = Counter()  # which families had sums that came round, and which had others


class Reading:
    """One step that was read, beside what it should show."""

    def __init__(self, step, meant, state, after, kind, as_signed):
        self.step, self.meant, self.state, self.after, self.kind, self.as_signed = step, meant, state, after, kind, as_signed
        self.zero, self.stay, self.active, self.off = zeros_of(step)
        self.name, self.family = name_of(meant.d, meant.width), family_of(meant.name)
        self.starred = False  # whether a number was marked

    def check(self):
        self.sources()
        self.destination()
        self.total()
        self.geometry()
        self.nothing_zero()
        self.said()

    def integer(self, text, width):
        """The number that a text shows."""
        if self.kind == "hex":
            expect(re.fullmatch("[0-9a-f]{%d}" % (2 * width), text), text, "is no lane of", str(width), "bytes in hex")
            return int.from_bytes(bytes.fromhex(text), "big", signed=self.as_signed)
        expect(str(int(text)) == text, text, "is no number in decimal")
        low = -(1 << 8 * width - 1) if self.as_signed else 0
        expect(low <= int(text) < low + (1 << 8 * width), text, "is no lane of", str(width), "bytes")
        return int(text)

    def held(self, texts, zero, width, count, what):
        """The bytes of lanes that are drawn, or named as zero: each lane once."""
        expect(sorted([*texts, *zero]) == list(range(count)), "lanes of", what, "are missing or told twice")
        lanes = [self.integer(texts[lane].rstrip("*"), width) if lane in texts else 0 for lane in range(count)]
        return b"".join((lane % (1 << 8 * width)).to_bytes(width, "little") for lane in lanes)

    def sources(self):
        values, enters = gathered(self.step, "value"), gathered(self.step, "enters")
        names = {name_of(*key) for key in self.meant.sources}
        expect(set(values) <= names and {name for name, _ in self.zero} <= names, "a source is drawn that the word has not:", sorted(values))
        for (number, width), entering in self.meant.sources.items():
            name = name_of(number, width)
            texts, zero = values.get(name, {}), [lane for at, lane in self.zero if at == name]
            if self.family in ("addw", "subw"):
                zero += [lane for at, lane in self.stay if at == name]  # a source that is the destination is named with it
            held = self.held(texts, zero, width, len(entering), name)
            expect(held == self.state[number][:width * len(entering)], name, "is drawn otherwise than it was")
            expect(enters.get(name, {}) == {lane: entering[lane] for lane in texts}, "the marks of", name, "are", enters.get(name))

    def destination(self):
        meant = self.meant
        rows = {row: gathered(self.step, row).get(self.name, {}) for row in ("before", "gained", "sum", "after")}
        expect({table.name for table in self.step.tables if "before" in table.rows} <= {self.name}, "another destination is drawn")
        after, zero, count = {**rows["sum"], **rows["after"]}, [lane for _, lane in self.stay], len(meant.terms)
        expect({name for name, _ in self.stay} <= {self.name} and len(after) == len(rows["sum"]) + len(rows["after"]), "a lane is drawn twice")
        expect(self.held(rows["before"], zero, meant.width, count, self.name) == self.state[meant.d], self.name, "held something else before")
        expect(self.held(after, zero, meant.width, count, self.name) == self.after, self.name, "holds something else after")
        for lane, terms in enumerate(meant.terms):
            exact = None if terms is None else sum(map(self.term, terms))
            self.came_round(after.get(lane, "0"), exact, lane)
            if lane in rows["gained"]:
                self.gained(rows["gained"][lane], terms)
        expect(set(rows["gained"]) == (set(after) if self.family == "adalp" else set()), "gains are drawn where there are none, or not drawn")

    def term(self, term):
        number, width, lane, sign, is_signed = term
        return sign * int.from_bytes(self.state[number][lane * width:(lane + 1) * width], "little", signed=is_signed)

    def came_round(self, text, exact, lane):
        """A sum is marked exactly where it is not the exact integer."""
        shown = 0 if text == "0" else self.integer(text.rstrip("*"), self.meant.width)
        expect(text.endswith("*") == (exact is not None and exact != shown), "lane", str(lane), "is", text, "and the exact sum", str(exact))
        expect(exact is None or (exact - shown) % (1 << 8 * self.meant.width) == 0, "lane", str(lane), "is", text, "and should be", str(exact))
        self.starred = self.starred or text.endswith("*")
        if self.meant.terms[lane]:
            SEEN[self.family, text.endswith("*")] += 1

    def gained(self, text, terms):
        """What a lane gained, marked where it is not the exact integer, or that it is kept."""
        expect((text == "kept") == (terms is None), "an active lane is kept, or one that is off is not")
        if terms is not None:
            exact, shown = sum(map(self.term, terms[1:])), self.integer(text.rstrip("*"), self.meant.width)
            expect((exact - shown) % (1 << 8 * self.meant.width) == 0, "gained is", text, "and not", str(exact))
            expect(text.endswith("*") == (exact != shown), "gained is", text, "and exactly", str(exact))
            self.starred = self.starred or text.endswith("*")

    def total(self):
        """The sum across lanes: of what it is one, and the same as in lane 0 of the destination."""
        total = self.step.total
        if self.family not in ("addv", "addlv"):
            expect(total is None, "a sum across lanes is told where there is none")
            return
        [entering] = self.meant.sources.values()
        count = entering.count("+")
        if self.family == "addlv":
            of_what = "the %d lanes of %s" % (count, self.step.title.split(", ")[1])
        elif count in (0, len(entering)):
            of_what = "all %d lanes" % count if count else "no lane"
        else:
            of_what = "the %d active lane%s" % (count, "s" * (count > 1))
        zero = "0" * (2 * self.meant.width if self.kind == "hex" else 1)
        expect(total == (of_what, gathered(self.step, "after").get(self.name, {}).get(0, zero)), "the sum is told as", total)

    def geometry(self):
        """A sum stands beneath the lanes that it is of."""
        groups = beneath(self.step)
        if self.family in ("addv", "addlv"):
            expect(not groups and not any(table.bars for table in self.step.tables), "a sum across lanes stands beneath some of them")
        elif self.family == "addqv":
            for group in groups:
                expect(all(table.ends == group[-1].ends for table in group), "columns of segments do not stand in line")
                for table in group[:-1]:
                    expect([lane % (16 // self.meant.width) for lane in table.lanes] == group[-1].lanes, "a sum stands beneath another place")
        else:
            expect(sum(map(len, groups)) == len(self.step.tables), "a table has no sums beneath it")
            for group in groups:
                self.boxes(group)

    def boxes(self, group):
        """In each box stand one lane of the destination and of each source the lanes that it lies over."""
        last, names = group[-1], [name_of(*key) for key in self.meant.sources] + [self.name]
        expect(names == [table.name for table in group], "a row of boxes lacks a register")
        expect(all(table.bars == last.bars for table in group) and len(last.bars) == len(last.lanes) + 1, "boxes do not stand in line")
        for table in group:
            each = self.meant.width // BYTES[table.name[-1]]
            for lane in table.lanes:
                expect(box(table, lane) == box(last, lane // each), "lane", str(lane), "of", table.name, "stands in another box")

    def nothing_zero(self):
        """Lanes that are all zero are not drawn."""
        groups = beneath(self.step)
        for group in groups + [[table] for table in self.step.tables if table not in [last for group in groups for last in group]]:
            texts = [text for table in group for row in ("value", "before", "sum", "after") for text in table.rows.get(row, ())]
            expect(any(text.strip("0") for text in texts), "lanes are drawn that are all zero:", group)
            if self.family == "addqv":
                expect(all(any(text.strip("0") for text in table.rows["value"]) for table in group[:-1]), "a segment is drawn that is zero")

    def said(self):
        """Every sentence is known, and says what is so."""
        name, said = self.meant.name, [line for line in self.step.said if not re.search(r" (are|stay) 0\b", line)]
        wanted = [self.activity(said[0]) if self.meant.governed else self.of_v() if self.family == "addlv" else self.halves()]
        d, n = self.meant.d, next(iter(self.meant.sources))[0]
        if self.family == "adalp" and d == n:
            wanted.append("z%d is source and destination: an active lane enters twice, whole and in halves." % n)
        if self.family in ("addw", "subw") and len({number for number, _ in self.meant.sources}) == 1:
            wanted.append("z%d is both sources: a half lane that enters does so twice, once in its whole lane." % n)
        if name != "addqv" and self.as_signed != (name[0] == "s"):
            signs = ("unsigned", "signed") if self.as_signed else ("signed", "unsigned")
            wanted.append("The word reads its lanes as %s; here they are shown %s." % signs)
        if self.starred:
            wanted.append("* came round: modulo %d (2^%d)" % (256 ** self.meant.width, 8 * self.meant.width))
        expect(said == wanted, "what is said is", said, "and not", wanted)

    def activity(self, sentence):
        """The sentence on active lanes, which names those that are off where they are few; those that are not drawn are told as well."""
        governed = self.meant.governed
        off = [lane for lane, on in enumerate(governed) if not on]
        name, kept = (self.name, " and kept") if self.family == "adalp" else (name_of(*next(iter(self.meant.sources))), "")
        folded = [lane for at, lane in (self.stay if kept else self.zero)]
        expect(sorted(lane for _, lane in self.off) == sorted(set(off) & set(folded)), "lanes that are not drawn are told off wrongly")
        expect(sorted(lane for _, lane in self.active) == sorted(set(folded) - set(off)), "lanes that are not drawn are told active wrongly")
        if not off:
            return "All %d lanes of %s are active." % (len(governed), name)
        on = len(governed) - len(off)
        found = re.search(r": lanes? (\S.*) (is|are) off", sentence)
        counted = len(off) > 4 and ": the other %d are off" % len(off) in sentence
        expect(places(found[1]) == off if found else counted, "not said, or wrongly, are", off)
        start = "%s of %s %s active: " % ("%d of %d lanes" % (on, len(governed)) if on else "No lane", name, "are" if on > 1 else "is")
        expect(sentence.startswith(start) and sentence.endswith(" %s off%s." % ("are" if len(off) > 1 else "is", kept)), "said is", sentence)
        return sentence

    def of_v(self):
        [((number, width), entering)] = self.meant.sources.items()
        every = len(self.after) // width
        said = "%s is lanes 0 to %d of %s, all added" % (self.step.title.split(", ")[1], len(entering) - 1, name_of(number, width))
        above = "; lanes %d to %d are not part of it." % (len(entering), every - 1)
        if every - len(entering) == 2:
            above = above.replace(" to ", " and ")
        return said + (above if every > len(entering) else ".")

    def halves(self):
        which, names = "odd" if self.meant.name[-1] == "t" else "even", [name_of(*key) for key in self.meant.sources]
        if self.family in ("addw", "subw"):
            return "Of %s every lane enters, of %s the %s lanes." % (*names, which)
        if len(names) == 1:
            return "Of %s, which is both sources, the %s lanes enter, each of them twice." % (*names, which)
        return "Of %s and %s the %s lanes enter." % (*names, which)
