"""What the checks share: the repository's places, the program walk, and counting what holds."""
import os
import platform
import subprocess

ROOT = os.path.dirname(os.path.dirname(os.path.dirname(os.path.realpath(__file__))))
held = 0


class Failed(Exception):
    """A check that does not hold."""


def expect(holds, *what):
    """Counts a check, or ends with what does not hold."""
    global held
    if not holds:
        raise Failed(" ".join(part if isinstance(part, str) else ascii(part) for part in what))
    held += 1


def walk_command():
    """The proved program, on a processor other than x86-64 under an emulator and with the toolchain's C library."""
    program = [os.path.join(ROOT, "crates/walk/out/walk")]
    if platform.machine() == "x86_64":
        return program
    doc = subprocess.run(["rt", "doc"], stdout=subprocess.PIPE, check=True).stdout.decode().strip()
    libraries = os.path.join(os.path.dirname(doc), "toolchain/lib")
    return ["qemu-x86_64", libraries + "/ld-linux-x86-64.so.2", "--library-path", libraries] + program


WALK = walk_command()


def walk(session):
    """The lines that walk prints for a session's bytes."""
    return subprocess.run(WALK, input=session, stdout=subprocess.PIPE, check=True).stdout.decode()


def place(*parts):
    return os.path.join(ROOT, *parts)


def read(*parts):
    with open(place(*parts), "rb") as file:
        return file.read()


class Ran:
    """A command that was run: its status and what it wrote."""

    def __init__(self, command, stdin=b"", stdout=subprocess.PIPE, env=None, cwd=None):
        if isinstance(stdin, bytes):
            stdin = {"input": stdin}
        else:
            stdin = {"stdin": stdin}
        done = subprocess.run(command, stdout=stdout, stderr=subprocess.PIPE, env=env, cwd=cwd, check=False, **stdin)
        self.status, self.out, self.err = done.returncode, done.stdout or b"", done.stderr.decode("utf-8", "replace")

    def expect(self, status, *said, out=None):
        """The status, the parts of what was said on standard error, and what was written; never a traceback."""
        expect("Traceback" not in self.err, self.err)
        expect(self.status == status, "status", str(self.status), "and not", str(status), self.err)
        for part in said:
            expect(part in self.err, part, "is not said in", self.err)
        if out is not None:
            expect(self.out == out, self.out[:200], "was written, and not", out[:200])
        return self


def make(*args, **more):
    return Ran(["python3", place("bin/make-session"), *args], **more)


def show(*args, **more):
    return Ran(["python3", place("bin/show-session"), *args], **more)


def run(*args, **more):
    return Ran(["bash", place("run"), *args], **more)
