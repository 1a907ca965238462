"""How the lanes of a step are laid out: across, for one sum of many lanes; in columns, for a sum beneath each place of a segment; and in boxes,
for a sum beneath the two half lanes that the lane lies over. A step has one width of columns, and lanes that are zero are named and not drawn."""
from collections import namedtuple

from . import phrases, words
from .tables import CAME_ROUND, ROOM, box_width, boxes, columns, fitting, sentence, stretches, widest

SEGMENT = 16  # bytes
MOST_LANES, MOST_BOXES = 16, 8  # in a row
LEAST = 3  # columns of a lane that stands in no box: sixteen of them fill a row

# A step, and the texts of its lanes: for each source its values, and for the destination what it held, gained and holds
View = namedtuple("View", "step values before gains after")


def laid_out(view):
    """The step's tables."""
    return SHAPES[view.step.parts.row.form](view)


def tail_of(view):
    """The room for a mark that follows each number: none where no number is marked."""
    return " " if any(text.endswith(CAME_ROUND) for text in view.after) else ""


def across(view):
    """The source's lanes row by row, the sum, and the destination, whose lanes take as many of the source's columns as they need."""
    step, [source], [values], tail, out = view.step, view.step.sources, view.values, tail_of(view), []
    texts, wider = values + source.marks + [str(len(values) - 1)], view.before + bare(view.after)
    cell = max(LEAST, widest(texts + wider if step.width == source.width else texts))
    pitch = cell + len(tail) + 1
    each = fitting(min(MOST_LANES, len(values)), ROOM, pitch)
    for gone, first, last in zero_stretches(each, source.lanes):
        if gone:
            out += unseen(step, source, range(first, last))
        else:
            out += source_rows(source, values, first, last, cell, each, tail)
    out.append("  sum of %s: %s" % (phrases.counted(step), view.after[0]))
    further = -(-(widest(wider) - cell) // pitch)
    return out + cleared(view, range(len(step.after)), cell + further * pitch, tail)


def zero_stretches(each, lanes):
    """Stretches of lanes, `each` to a block, and whether they are zero: (whether they are, the first, the one after the last)."""
    for gone, first, last in stretches([not any(lanes[start:start + each]) for start in range(0, len(lanes), each)]):
        yield gone, first * each, last * each


def unseen(step, source, places):
    """What is said of a source's lanes that are zero."""
    return sentence(phrases.zeros(phrases.stretch(source.name, places) + " are 0", step.governed, places))


def source_rows(source, values, first, last, cell, each, tail):
    out = []
    for start in range(first, last, each):
        places = slice(start, start + each)
        out += columns(source.name, range(start, start + each), [("value", values[places]), ("enters", source.marks[places])], cell, tail)
    return out


def bare(texts):
    return [text.rstrip(CAME_ROUND) for text in texts]


def cleared(view, places, cell, tail):
    """Lanes of the destination before and after the step, those that stand beneath no sum of their own."""
    step, out = view.step, []
    each = fitting(SEGMENT // step.width, ROOM, cell + len(tail) + 1)
    for gone, first, last in zero_stretches(each, [step.before[place] or step.after[place] for place in places]):
        if gone:
            out += sentence(phrases.zeros(phrases.stretch(step.name, places[first:last]) + " stay 0"))
        for start in () if gone else range(first, last, each):
            some = places[start:start + each]
            out += columns(step.name, some, [(word, [texts[place] for place in some]) for word, texts in destination(view, "after")], cell, tail)
    return out


def destination(view, last):
    """The rows of the destination; the last is called sum where it stands beneath what it is the sum of."""
    return [("before", view.before), (last, view.after)]


def in_columns(view):
    """addqv: the segments one under the other, beneath each place its sum, and then the destination's higher lanes."""
    step, [source], [values], tail = view.step, view.step.sources, view.values, tail_of(view)
    places = SEGMENT // step.width
    cell = max(LEAST, widest(values + source.marks + view.before + bare(view.after) + [str(len(values) - 1)]))
    each, out, held, rest = fitting(places, ROOM, cell + len(tail) + 1), [], [], []
    for gone, first, last in zero_stretches(places, source.lanes):
        if gone:
            out += unseen(step, source, range(first, last))
        else:
            held += range(first, last, places)
    for start in range(0, places, each):
        lines, summed = segment_columns(view, [segment + start for segment in held], each, cell)
        out += lines
        if summed or any(step.before[start:start + each]):
            sums = [(word, texts[start:start + each]) for word, texts in destination(view, "sum")]
            out += columns(step.name, range(start, start + each), sums, cell, tail)
        else:
            rest += range(start, start + each)
    return out + cleared(view, rest + list(range(places, len(step.after))), cell, tail)


def segment_columns(view, starts, each, cell):
    """As many lanes as stand in a row of each segment, told by the first of them, and whether any of them is drawn."""
    step, [source], [values], tail, out = view.step, view.step.sources, view.values, tail_of(view), []
    zero = [start for start in starts if not any(source.lanes[start:start + each])]
    if zero:
        out += unseen(step, source, [start + place for start in zero for place in range(each)])
    for start in starts:
        if start not in zero:
            out += source_rows(source, values, start, start + each, cell, each, tail)
    return out, len(zero) < len(starts)


def in_boxes(view):
    """The words that write every lane: a box for each lane of the destination, with the lanes of each source that it lies over."""
    step, out = view.step, []
    cell = box_cell(view)
    each = fitting(min(MOST_BOXES, len(step.after)), ROOM - 2, box_width(cell))
    for gone, first, last in zero_boxes(step, each):
        if gone:
            out += sentence(phrases.zeros(zeros_named(step, first, last), step.governed, range(first, last)))
        for start in () if gone else range(first, last, each):
            out += boxed(view, start, start + each, cell)
    return out


def zeros_named(step, first, last):
    """The lanes of each register in some boxes, for a sentence; a source of the destination's own lanes is named with it."""
    places = {}
    for source in step.sources:
        if source.name != step.name:
            count = in_box(step, source)
            places.setdefault(range(first * count, last * count), []).append(source.name)
    named = " and ".join(phrases.stretch(" and ".join(names), lanes) for lanes, names in places.items())
    return "%s are 0; %s stay 0" % (named, phrases.stretch(step.name, range(first, last)))


def in_box(step, source):
    """How many of a source's lanes stand in a box."""
    return step.width // source.width


def box_cell(view):
    """The width of a half lane's column, so that every text has room in its box."""
    step, halves, wholes = view.step, [str(2 * len(view.after) - 1)], view.before + bare(view.gains + view.after)
    for source, values in zip(step.sources, view.values):
        (halves if in_box(step, source) == 2 else wholes).extend(values + source.marks)
    return max(widest(halves), widest(wholes) // 2)


def zero_boxes(step, each):
    """Stretches of boxes, and whether everything in them is zero."""
    filled = [before or after for before, after in zip(step.before, step.after)]
    for source in step.sources:
        count = in_box(step, source)
        filled = [held or any(source.lanes[place * count:(place + 1) * count]) for place, held in enumerate(filled)]
    return zero_stretches(each, filled)


def boxed(view, first, last, cell):
    """A row of boxes: the sources, and beneath them the destination."""
    step, out = view.step, []
    for source, values in zip(step.sources, view.values):
        count = in_box(step, source)
        places = slice(first * count, last * count)
        rows = [("value", values[places]), ("enters", source.marks[places])]
        out += boxes(source.name, range(first * count, last * count), rows, cell, count)
    rows = [("before", view.before[first:last])] + ([("gained", view.gains[first:last])] if view.gains else [])
    return out + boxes(step.name, range(first, last), rows + [("sum", view.after[first:last])], cell, 1)


SHAPES = {
    words.REDUCTION: across, words.LONG: across, words.SEGMENT: in_columns,
    words.PAIRWISE: in_boxes, words.WIDENING: in_boxes, words.WIDE: in_boxes,
}
