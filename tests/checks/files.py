"""make-session and show-session with files of every kind: a clear line, the right status, never a traceback, and nothing overwritten that
was to be read."""
import os
import tempfile

from .common import Ran, expect, make, place, show

TEXT = b"k 1\nz1.b 1 2\nprogram\nsaddv d0, p0, z1.b\n"


def check():
    with tempfile.TemporaryDirectory() as room:
        text, session = os.path.join(room, "a.txt"), os.path.join(room, "a.session")
        with open(text, "wb") as file:
            file.write(TEXT)
        make(text, session).expect(0)
        made = contents(session)
        make("-", stdin=TEXT).expect(0, out=made)
        make("--", text).expect(0, out=made)
        show(session).expect(0, out=b"k 1\nz1.b 1 2\nprogram\nsaddv d0, p0, z1.b\n")
        reading(room, text)
        writing(room, text, session)
        same_path(room, text, session, made)
    for program in (make, show):
        usage(program)
    notes()


def contents(path):
    with open(path, "rb") as file:
        return file.read()


def reading(room, text):
    for program in (make, show):
        program(room).expect(1, "Is a directory", out=b"")
        program(os.path.join(room, "missing")).expect(1, "No such file", out=b"")
        program("").expect(1, "is empty", out=b"")
        program("/dev/zero").expect(3, "more than 1048576 bytes", out=b"")
        program(os.path.join(room, "a\nb\x1b")).expect(1, "a\\nb\\x1b", out=b"")
    show(text).expect(3, "does not begin with the mark LNW", out=b"")
    make(place("examples/paper.session")).expect(3, "session already", out=b"")
    make("-", stdin=b"").expect(3, "standard input: line 1: the text ends", out=b"")


def writing(room, text, session):
    for program, source in ((make, text), (show, session)):
        program(source, room).expect(1, "could not be written: Is a directory")
        program(source, os.path.join(room, "missing", "b")).expect(1, "could not be written: No such file")
        program(source, "").expect(1, "is empty")
        program(source, "/dev/full").expect(1, "could not be written: No space left")
        with open("/dev/full", "wb") as full:
            program(source, stdout=full).expect(1, "standard output could not be written: No space left")
        script = "bin/make-session" if program is make else "bin/show-session"
        Ran(["bash", "-c", 'python3 "$1" "$2" >&-', "bash", place(script), source]).expect(1, "standard output could not be written")
        ends, into = os.pipe()
        os.close(ends)
        program(source, stdout=into).expect(1, "Broken pipe")
        os.close(into)
    # a text that is refused leaves the former session as it is
    before = contents(session)
    make("-", session, stdin=b"k 1\n").expect(3, "no line 'program'")
    expect(contents(session) == before, "a refused text has changed the session")


def same_path(room, text, session, made):
    """Text and session on one path, or two names of one file: refused, and the text stays."""
    link, hard = os.path.join(room, "link"), os.path.join(room, "hard")
    os.symlink(text, link)
    os.link(text, hard)
    for other in (text, link, hard):
        make(text, other).expect(1, "the session would overwrite it")
        with open(text, "rb") as file:
            make("-", other, stdin=file).expect(1, "the session would overwrite it")
        expect(contents(text) == TEXT, "the text is lost")
    show(session, session).expect(1, "the text would overwrite it")
    expect(contents(session) == made, "the session is lost")


def usage(program):
    program().expect(2, "--help", out=b"")
    program("a", "b", "c").expect(2, "--help", out=b"")
    program("--nothing").expect(2, "no such option", out=b"")
    for word in ("--help", "-h"):
        said = program(word).expect(0, out=None)
        expect(b"Exit status: 0" in said.out and b" facts" in said.out and not said.err, "--help does not name the statuses and the facts")


def notes():
    """At k = 16 a journal holds 254 entries: a longer program is made, and the note says what it will meet."""
    longer = b"k 16\nprogram\n" + b"saddv d0, p0, z1.b\n" * 255
    make("-", stdin=longer).expect(0, "word 254 will be answered with 9, FULL")
    made = make("-", stdin=longer[:-1].rsplit(b"\n", 1)[0]).expect(0)
    expect(not made.err, "a program that fits gets a note:", made.err)
