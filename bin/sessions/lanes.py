"""Lanes of registers: lane 0 is the lowest, bytes are little-endian, and a lane of w bytes with number e is active where bit e·w of the
predicate is set."""


def lanes_of(data, width):
    """The lanes of `width` bytes, unsigned, lane 0 first."""
    return [int.from_bytes(data[i:i + width], "little") for i in range(0, len(data), width)]


def signed(number, width):
    """A lane's number at its sign."""
    return number - (1 << 8 * width) if number >> 8 * width - 1 else number


def bytes_of(lanes, width):
    """The bytes of lanes; a negative number stands for its low digits."""
    return b"".join((lane % (1 << 8 * width)).to_bytes(width, "little") for lane in lanes)


def active(predicate, width):
    """For each lane of `width` bytes whether the predicate has it active."""
    bits = int.from_bytes(predicate, "little")
    return [bool(bits >> place & 1) for place in range(0, 8 * len(predicate), width)]


def predicate_of(lanes, width, size):
    """The predicate of `size` bytes in which just these lanes of `width` bytes are active."""
    return sum(1 << lane * width for lane, on in enumerate(lanes) if on).to_bytes(size, "little")
