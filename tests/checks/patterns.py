"""The patterns of ptrue, written anew from the paper: their names, their numbers of lanes, and the predicate that a word makes."""

FIXED = [0, 1, 2, 3, 4, 5, 6, 7, 8, 16, 32, 64, 128, 256]  # the lanes of patterns 1 to 13
NAMES = ["pow2", *("vl%d" % lanes for lanes in FIXED[1:]), *("#%d" % pattern for pattern in range(14, 29)), "mul4", "mul3", "all"]
POWERS = [1 << power for power in range(9)]


def lanes(pattern, count):
    """How many of `count` lanes a pattern makes active, by its name."""
    name = NAMES[pattern]
    if name == "pow2":
        return max(power for power in POWERS if power <= count)
    if name.startswith("mul"):
        return max(number for number in range(count + 1) if number % int(name[3:]) == 0)
    if name.startswith("vl"):
        return int(name[2:]) if int(name[2:]) <= count else 0
    return count if name == "all" else 0


def makes(name):
    """Whether the instruction of a name makes a predicate."""
    return name in ("ptrue", "pfalse")


def made(word, k):
    """The number that stands in the predicate after a word that makes it: bit e·w for each active lane e of w bytes, and no other."""
    if word & 0xFFFFFFF0 == 0x2518E400:
        return 0
    width = 1 << (word >> 22 & 3)
    return sum(1 << lane * width for lane in range(lanes(word >> 5 & 31, 16 * k // width)))


def ptrue(d, size, pattern):
    """The word of ptrue with these fields."""
    return 0x2518E000 | size << 22 | pattern << 5 | d


def pfalse(d):
    return 0x2518E400 | d
