"""Tables of lanes and sentences about lanes, at most 80 columns wide."""
import textwrap
from itertools import groupby

MOST = 80  # columns of a line
ROOM = MOST - 14  # those that a row's two names leave
CAME_ROUND = "*"


def sentence(text):
    """A sentence in as many lines as it takes."""
    return textwrap.wrap(text, MOST, initial_indent="  ", subsequent_indent="    ", break_on_hyphens=False, break_long_words=False)


def runs(places):
    """The stretches of numbers that follow one another: the first and the last of each; two neighbours are two stretches."""
    found = []
    for _, group in groupby(enumerate(places), lambda pair: pair[1] - pair[0]):
        stretch = [place for _, place in group]
        found += [(stretch[0], stretch[-1])] if len(stretch) > 2 else [(place, place) for place in stretch]
    return found


def listed(places):
    """Numbers for a sentence, as '3, 5 and 8 to 15'."""
    parts = ["%d to %d" % run if run[0] < run[1] else str(run[0]) for run in runs(places)]
    return " and ".join([", ".join(parts[:-1]), parts[-1]] if len(parts) > 1 else parts)


def lanes_named(places):
    """Lanes for a sentence, as 'lane 7' or 'lanes 3 and 9'."""
    return ("lane " if len(places) == 1 else "lanes ") + listed(places)


def widest(texts):
    return max(len(text) for text in texts)


def fitting(most, room, width):
    """How many of some cells, a power of two up to `most`, fit in a row; one does in any case."""
    while most > 1 and most * width > room:
        most //= 2
    return most


def stretches(hidden):
    """Which blocks are hidden, stretch by stretch: (whether they are, the first, the one after the last)."""
    for gone, group in groupby(range(len(hidden)), hidden.__getitem__):
        blocks = list(group)
        yield gone, blocks[0], blocks[-1] + 1


def columns(name, places, rows, cell, tail):
    """The rows of some lanes beneath their numbers, in cells of one width; `tail` is a space where a number of the step is marked, for the
    numbers that are not."""
    rows = [("lane", [str(place) for place in places])] + rows
    return labelled(name, [(word, "".join(" " + ended(text, tail).rjust(cell + len(tail)) for text in texts)) for word, texts in rows])


def boxes(name, places, rows, cell, each):
    """The same with a box for each lane of the destination: `each` is how many lanes of this register stand in one, two half lanes or one."""
    lines = []
    for word, texts in [("lane", [str(place) for place in places])] + rows:
        if each == 1:
            inside = [ended(text, " ").rjust(2 * cell + 2) for text in texts]
        else:
            inside = ["%s %s " % (first.rjust(cell), second.rjust(cell)) for first, second in zip(texts[::2], texts[1::2])]
        lines.append((word, " |" + "".join(" %s|" % box for box in inside)))
    return labelled(name, lines)


def box_width(cell):
    """The columns of a box over two cells, with a space before each, one for a mark and the line after it."""
    return 2 * cell + 4


def ended(text, tail):
    return text if text.endswith(CAME_ROUND) else text + tail


def labelled(name, lines):
    """Lines with the register's name before the first, and each row's own before it."""
    return [("  %-5s %-6s%s" % ("" if place else name, word, cells)).rstrip() for place, (word, cells) in enumerate(lines)]
