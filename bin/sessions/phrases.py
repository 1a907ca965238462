"""What is said of a step's lanes in words: which are active and which are off, which of them the word uses, and which are not drawn."""
from . import words
from .adding import is_signed
from .tables import lanes_named, listed, runs

FEW = 4  # lanes, or stretches of them, that are named; of more it is said how many they are
SIGNS = "unsigned", "signed"


def about(step):
    """The sentences on a whole step."""
    parts, form = step.parts, step.parts.row.form
    out = [SAID[form](step)]
    if form == words.PAIRWISE and parts.d == parts.n:
        out.append("z%d is source and destination: an active lane enters twice, whole and in halves." % parts.n)
    if form == words.WIDE and parts.n == parts.m:
        out.append("z%d is both sources: a half lane that enters does so twice, once in its whole lane." % parts.n)
    if form != words.SEGMENT and step.as_signed != is_signed(parts):
        out.append("The word reads its lanes as %s; here they are shown %s." % (SIGNS[not step.as_signed], SIGNS[step.as_signed]))
    return out


def activity(step):
    """How many of the governed lanes are active, and which are off where those are few."""
    pairwise, count, off = step.gains is not None, len(step.governed), off_among(step.governed, range(len(step.governed)))
    name = step.name if pairwise else step.sources[0].name
    if not off:
        return "All %d lanes of %s are active." % (count, name)
    which = lanes_named(off) if len(runs(off)) <= FEW else "the other %d" % len(off)
    how_many = "No lane" if len(off) == count else "%d of %d lanes" % (count - len(off), count)
    active = "%s of %s %s active" % (how_many, name, "is" if count - len(off) < 2 else "are")
    return "%s: %s %s off%s." % (active, which, "is" if len(off) == 1 else "are", " and kept" if pairwise else "")


def off_among(governed, places):
    """Those of some lanes that are off."""
    return [place for place in places if not governed[place]]


def of_v(step):
    """Which lanes of its Z register a V register is."""
    [source], size = step.sources, len(step.after) * step.width
    count, every = len(source.lanes), size // source.width
    said = "%s is %s of %s, all added" % (v_name(step), lanes_named(range(count)), source.name)
    return said + ("; %s are not part of it." % lanes_named(range(count, every)) if count < every else ".")


def v_name(step):
    return "v%d.%d%s" % (step.parts.n, len(step.sources[0].lanes), words.letter(step.sources[0].width))


def halves(step):
    """Which lanes of the sources a widening word uses."""
    which, names = "odd" if step.parts.row.name.endswith("t") else "even", [source.name for source in step.sources]
    if step.parts.row.form == words.WIDE:
        return "Of %s every lane enters, of %s the %s lanes." % (*names, which)
    if len(names) == 1:
        return "Of %s, which is both sources, the %s lanes enter, each of them twice." % (*names, which)
    return "Of %s and %s the %s lanes enter." % (*names, which)


SAID = {
    words.REDUCTION: activity, words.SEGMENT: activity, words.PAIRWISE: activity, words.LONG: of_v, words.WIDENING: halves, words.WIDE: halves,
}


def counted(step):
    """Of what the sum across lanes is one."""
    if step.governed is None:
        return "the %d lanes of %s" % (len(step.sources[0].lanes), v_name(step))
    active = sum(step.governed)
    if active == len(step.governed):
        return "all %d lanes" % active
    return "the %d active lane%s" % (active, "" if active == 1 else "s") if active else "no lane"


def zeros(named, governed=None, places=()):
    """What is said of lanes that are zero and not drawn, and of those among them that are off, where they are governed."""
    if governed is None:
        return named + "."
    off = off_among(governed, places)
    if len(off) in (0, len(places)):
        return "%s and %s." % (named, "off" if off else "active")
    return "%s; of these %s %s off." % (named, listed(off), "is" if len(off) == 1 else "are")


def stretch(name, places):
    return "%s %s" % (name, lanes_named(places))
