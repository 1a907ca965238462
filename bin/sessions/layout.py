"""A session's bytes: the mark LNW, the version in 16 bits, a byte k, the number of words in 16 bits, in version 2 a byte of facts, the vector
file, the predicate file and the words, all little-endian, and nothing more. Version 1 means a core with all five facts."""
import struct
from collections import namedtuple

from .saying import Bad
from .words import EVERY_FACT

LENGTHS = 1, 2, 4, 8, 16  # the powers of two that Arm's manual has; a layout at another length would fit no chip
MOST_WORDS = 256
VECTORS, PREDICATES = 32, 16  # registers of each file
MARK = b"LNW"
HEADS = {1: 8, 2: 9}  # bytes of a version's head

JOURNAL = 65536  # bytes of walk's journal: eight, then entries of 1 + 16k

# the length, each register's bytes, the words as numbers, and the facts, which are None in version 1
Session = namedtuple("Session", "k vectors predicates words facts", defaults=(None,))


def any_length():
    """The lengths, for a sentence."""
    return "%d, %d, %d, %d or %d" % LENGTHS


def vector_bytes(k):
    return 16 * k


def predicate_bytes(k):
    return 2 * k


def entries(k):
    """How many steps walk's journal holds."""
    return (JOURNAL - 8) // (1 + vector_bytes(k))


def facts_of(session):
    """The facts that a session means, in either version."""
    return EVERY_FACT if session.facts is None else session.facts


def packed(session):
    """A session as bytes."""
    version, facts = (1, b"") if session.facts is None else (2, bytes([session.facts]))
    head = MARK + struct.pack("<HBH", version, session.k, len(session.words)) + facts
    return head + b"".join(session.vectors) + b"".join(session.predicates) + b"".join(struct.pack("<I", word) for word in session.words)


def unpacked(data):
    """The session that the bytes are."""
    if data[:3] != MARK:
        raise Bad("it is no session: it does not begin with the mark LNW")
    if len(data) < HEADS[1]:
        raise Bad("it is no session: it has %d bytes, and the head alone has %d, or %d in version 2" % (len(data), HEADS[1], HEADS[2]))
    version, k, count = struct.unpack_from("<HBH", data, 3)
    if version not in HEADS:
        raise Bad("it is no session: its version is %d, not 1 or 2" % version)
    if k not in LENGTHS:
        raise Bad("it is no session: its length k is %d, not %s" % (k, any_length()))
    if count > MOST_WORDS:
        raise Bad("it is no session: it has %d words, and %d are the most" % (count, MOST_WORDS))
    head, facts = HEADS[version], None
    if version == 2:
        facts = facts_in(data[HEADS[1]:head])
    middle = head + VECTORS * vector_bytes(k)
    files = middle + PREDICATES * predicate_bytes(k)
    if len(data) != files + 4 * count:
        given = "k = %d and %d words%s" % (k, count, " in version 2" if version == 2 else "")
        raise Bad("it is no session: it has %d bytes, and with %s it would have %d" % (len(data), given, files + 4 * count))
    vectors = [data[i:i + vector_bytes(k)] for i in range(head, middle, vector_bytes(k))]
    predicates = [data[i:i + predicate_bytes(k)] for i in range(middle, files, predicate_bytes(k))]
    return Session(k, vectors, predicates, [word for (word,) in struct.iter_unpack("<I", data[files:])], facts)


def facts_in(data):
    """The facts of version 2, from the last byte of its head, which may be missing."""
    if not data:
        raise Bad("it is no session: it has %d bytes, and the head alone has %d in version 2" % (HEADS[1], HEADS[2]))
    others = [bit for bit in range(8) if data[0] & ~EVERY_FACT & 1 << bit]
    if others:
        set_bits = " and ".join("bit %d" % bit for bit in others)
        raise Bad("it is no session: its facts byte has %s set, and only bits 0 to 4 are facts" % set_bits)
    return data[0]
