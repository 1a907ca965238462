"""The lanes of a walk, drawn from a session and the lines that walk printed for it."""
import textwrap

from . import making, phrases, words
from .adding import ADDED, OFF, TAKEN, UNUSED, is_signed, number, step_of
from .saying import Bad
from .shapes import View, laid_out
from .tables import CAME_ROUND, MOST, sentence
from .walked import NO_SESSION, walked

KINDS = ("own", "signed", "unsigned", "hex")
KEPT = "kept"  # in place of what a lane gained
COUNTED = "Lanes count from 0, as Arm counts; lane 0 is a register's lowest bytes."
MEANING = {
    ADDED: "added", TAKEN: "taken away", ADDED + ADDED: "added twice", ADDED + TAKEN: "added and taken away",
    OFF: "not active, not added", UNUSED: "not used by the word",
}


def drawn(session, output, kind):
    """The drawing of a whole walk; a refused word, which is the last, has its line as walk prints it."""
    if output == NO_SESSION:
        return output.decode()
    vectors, predicates, out, marks = list(session.vectors), list(session.predicates), [], set()
    for place, after in enumerate(walked(session, output)):
        if after is None:
            out.append(output.decode().split("\n")[place])
            continue
        parts = words.decoded(session.words[place])[1]
        if words.makes_predicate(parts):
            lines, used = predicate_drawn(parts, predicates, after, place)
        else:
            lines, used = vector_drawn(parts, vectors, predicates, after, place, kind)
        out.append("\n".join(["%d 0 %s" % (place, words.named(session.words[place]))] + lines))
        marks |= used
    return "\n\n".join(([legend(marks)] if marks else []) + out) + "\n" if out else ""


def vector_drawn(parts, vectors, predicates, after, place, kind):
    """The lines and the marks of a step that leaves the bytes `after` in a vector register, which is then so among the vectors."""
    step = step_of(parts, vectors, predicates, after, shown_signed(parts, kind))
    agree(step, place)
    view = view_of(step, kind)
    vectors[parts.d] = after
    return step_drawn(view), marks_of(view)


def predicate_drawn(parts, predicates, after, place):
    """The lines and the marks of a step that leaves the bytes `after` in a predicate register, which is then so among the predicates."""
    if after != making.left_by(parts, len(after)):
        raise Bad("line %d of the walk is not this session's: word %d leaves another predicate p%d" % (place + 1, place, parts.d))
    made = making.made_of(parts, predicates[parts.d])
    predicates[parts.d] = after
    return making.made_drawn(made), {making.BITS}


def legend(marks):
    """How lanes are counted, and what those marks mean that are used."""
    used = "; ".join("%s %s" % (mark, meaning) for mark, meaning in MEANING.items() if mark in marks)
    said = ["Beneath a lane: %s." % used] * bool(used)
    said += ["A number with %s came round." % CAME_ROUND] * (CAME_ROUND in marks) + [making.BITS] * (making.BITS in marks)
    return "\n".join([COUNTED] + textwrap.wrap(" ".join(said), MOST, break_on_hyphens=False))


def shown_signed(parts, kind):
    """Whether a step's lanes are read as signed numbers: in hex, and where no sign is asked for, as the word reads them."""
    return kind == "signed" or kind != "unsigned" and is_signed(parts)


def agree(step, place):
    """Refuses a line whose register is not what the word's lanes add up to."""
    for lane, (total, before, after) in enumerate(zip(step.sums, step.before, step.after)):
        if after != (before if total is None else total % (1 << 8 * step.width)):
            raise Bad("line %d of the walk is not this session's: word %d leaves another lane %d in %s" % (place + 1, place, lane, step.name))


def view_of(step, kind):
    """The step with its lanes as texts; a number that came round is marked."""

    def texts(lanes, width):
        return ["%0*x" % (2 * width, lane) if kind == "hex" else str(number(lane, width, step.as_signed)) for lane in lanes]

    def marked(exact, lanes):
        """Lanes of the destination's width, each with the low digits of an exact integer, or of none."""
        differ = [total is not None and total != number(lane, step.width, step.as_signed) for total, lane in zip(exact, lanes)]
        return [text + CAME_ROUND * came_round for text, came_round in zip(texts(lanes, step.width), differ)]

    gains = step.gains or []
    gained = marked(gains, [(gain or 0) % (1 << 8 * step.width) for gain in gains])
    return View(
        step, [texts(source.lanes, source.width) for source in step.sources], texts(step.before, step.width),
        [KEPT if gain is None else text for gain, text in zip(gains, gained)], marked(step.sums, step.after))


def marks_of(view):
    """The marks that a step's drawing has."""
    came_round = any(text.endswith(CAME_ROUND) for text in view.after + view.gains)
    return {mark for source in view.step.sources for mark in source.marks} | ({CAME_ROUND} if came_round else set())


def step_drawn(view):
    """The lines of one step, beneath the one that names its word."""
    out = [line for said in phrases.about(view.step) for line in sentence(said)] + laid_out(view)
    if CAME_ROUND in marks_of(view):
        bits = 8 * view.step.width
        out.append("  %s came round: modulo %d (2^%d)" % (CAME_ROUND, 1 << bits, bits))
    return out
