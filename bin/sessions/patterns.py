"""The patterns of ptrue: a number from 0 to 31 that says how many lanes are active, with its names and spellings."""
import re

POW2, MUL4, MUL3, ALL = 0, 29, 30, 31
FIXED = {**{number: number for number in range(1, 9)}, 9: 16, 10: 32, 11: 64, 12: 128, 13: 256}  # a pattern's own number of lanes
NAMES = {POW2: "pow2", **{pattern: "vl%d" % lanes for pattern, lanes in FIXED.items()}, MUL4: "mul4", MUL3: "mul3", ALL: "all"}
NUMBERS = {name: pattern for pattern, name in NAMES.items()}
MOST = 31

# A number in hex, or in decimal without leading zeros, which some assemblers take for octal; the '#' before it is optional, as in the manual
DIGITS = "#?(?:0x[0-9a-f]{1,32}|0|[1-9][0-9]{0,31})"
IN_DIGITS = re.compile(DIGITS + r"\Z")
SPELLED = "%s|%s" % ("|".join(NUMBERS), DIGITS)


def named(pattern):
    """A pattern as a text writes it: its name, or '#' and its number in decimal where it has none."""
    return NAMES.get(pattern, "#%d" % pattern)


def number_of(text):
    """The number that a text, a name in lower case or digits with or without '#', stands for, whatever its size; None where it is neither."""
    if IN_DIGITS.match(text):
        return int(text.lstrip("#"), 16 if "0x" in text else 10)
    return NUMBERS.get(text)


def active(pattern, count):
    """How many of `count` lanes a pattern makes active; they are the lowest."""
    if pattern in FIXED:
        return FIXED[pattern] if FIXED[pattern] <= count else 0
    if pattern == POW2:
        return 1 << count.bit_length() - 1
    return {MUL4: count - count % 4, MUL3: count - count % 3, ALL: count}.get(pattern, 0)
