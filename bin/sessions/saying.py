"""What the programs of bin/ say, and how they read and write files.

Exit status: 0 done, 1 something could not be read or written, 2 a wrong command line, 3 what was read is refused."""
import os
import stat
import sys

from . import ending

UNREADABLE, USAGE, REFUSED = 1, 2, 3
MOST_INPUT = 1 << 20  # more than any session or text for one needs


class Bad(Exception):
    """A reason to refuse what was read; the line it stands on, where there is one."""

    def __init__(self, reason, line=None):
        super().__init__(reason)
        self.line = line


class Stop(Exception):
    """The end of the program: its exit status, and a last line."""

    def __init__(self, status, reason):
        super().__init__(reason)
        self.status = status


def echo(text, most=48):
    """The text in quotes, cut and with only plain characters."""
    shown = ascii(text[:most])
    return shown + " (cut)" if len(text) > most else shown


def say(line):
    """Writes a line to standard error, if there is one."""
    try:
        os.write(2, (line + "\n").encode("utf-8", "backslashreplace"))
    except OSError:
        pass


def read_input(path):
    """The bytes of a file, or of standard input where the path is '-'."""
    if path == "":
        raise Stop(UNREADABLE, "the name of the file to read is empty")
    try:
        handle = 0 if path == "-" else os.open(path, os.O_RDONLY)
        data = b""
        while len(data) <= MOST_INPUT:
            some = os.read(handle, 1 << 16)
            if not some:
                break
            data += some
        if handle:
            os.close(handle)
    except (OSError, ValueError) as error:
        raise Stop(UNREADABLE, "%s could not be read: %s" % (shown_path(path), error_text(error)))
    if len(data) > MOST_INPUT:
        raise Stop(REFUSED, "%s has more than %d bytes, and neither a session nor a text for one is so long" % (shown_path(path), MOST_INPUT))
    return data


def error_text(error):
    return getattr(error, "strerror", None) or str(error) or type(error).__name__


def shown_path(path):
    """A file's name for a message."""
    if path == "-":
        return "standard input"
    plain = all(" " < letter <= "~" for letter in path)
    return path if plain else ascii(path)


def same_file(path, output):
    """Whether the input (a path or '-') and the output path are one file on a disk."""
    try:
        first = os.fstat(0) if path == "-" else os.stat(path)
        second = os.stat(output)
    except (OSError, ValueError):
        return False
    return stat.S_ISREG(second.st_mode) and os.path.samestat(first, second)


def write_output(path, data):
    """Writes all of the bytes to a file, or to standard output where the path is None."""
    if path == "":
        raise Stop(UNREADABLE, "the name of the file to write is empty")
    to = "standard output" if path is None else shown_path(path)
    try:
        if path is None:
            write_all(1, data)
        elif os.path.exists(path) and not os.path.isfile(path):
            write_file(path, data)  # a pipe or a terminal, which may wait for its reader
        else:
            with ending.Later():
                write_file(path, data)
    except (OSError, ValueError) as error:
        raise Stop(UNREADABLE, "%s could not be written: %s" % (to, error_text(error)))


def write_file(path, data):
    handle = os.open(path, os.O_WRONLY | os.O_CREAT | os.O_TRUNC, 0o666)
    write_all(handle, data)
    os.close(handle)


def write_all(handle, data):
    while data:
        data = data[os.write(handle, data):]


def run(name, main):
    """Runs a program of bin/ and gives its exit status; every end has its line, but for that by a signal."""
    ending.by_signals()
    try:
        main(sys.argv[1:])
    except Stop as stop:
        say("%s: %s" % (name, stop))
        return stop.status
    return 0
