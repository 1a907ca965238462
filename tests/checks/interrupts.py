"""Signals at any moment of a run, of a run that builds, and of the programs of bin/: each ends by the signal, without a traceback; nothing
that it started is left, and nothing half-written is taken for whole. Where a signal finds a run is left to chance, and every place must hold."""
import os
import shutil
import signal
import subprocess
import sys
import tempfile
import time

from .building import first_line
from .checkout import Checkout
from .common import expect, place, read

SIGNALS = (signal.SIGINT, signal.SIGTERM, signal.SIGHUP)
BEGUN = "run: the program walk is not built yet: its crates are proved first, which takes some minutes\n"
STOPPED = "run: stopped before walk was built; each crate that was proved stays proved\n"
MARK = "CHECKED_BY=%d" % os.getpid()


def check():
    # what starts the tests may have these signals ignored, and then no program that they start could be interrupted
    former = [signal.signal(one, signal.default_int_handler) for one in SIGNALS]
    try:
        with tempfile.TemporaryDirectory() as room:
            checkout = Checkout(room)
            checkout.env.update([MARK.split("=")])
            walking(checkout.built())
            building(checkout)
            waiting(checkout)
            half_written(checkout)
            killed(checkout)
            reading(room)
        starting()
        written_whole()
    finally:
        for one, handler in zip(SIGNALS, former):
            signal.signal(one, handler)


def hit(run, number):
    """Sends a signal by its number in the row: to the run alone or, as Ctrl-C does, to all that is in its group."""
    one = SIGNALS[number % 3]
    try:
        (os.kill if number % 2 else os.killpg)(run.pid, one)
    except ProcessLookupError:
        pass
    return one


def left():
    """The processes that bear the mark in their environment."""
    found = []
    for pid in filter(str.isdigit, os.listdir("/proc")):
        try:
            with open("/proc/%s/environ" % pid, "rb") as file:
                if MARK.encode() in file.read().split(b"\0"):
                    found.append(pid)
        except OSError:
            pass
    return found


def nothing_left(checkout, *when):
    """No process is left, once those that were ended are gone, and no temporary file."""
    until = time.time() + 20
    while left() and time.time() < until:
        time.sleep(0.05)
    expect(time.time() < until, *when, "processes are left:", left())
    files = os.listdir(checkout.temporary)
    expect(files == [], *when, "temporary files are left:", files)


def walking(checkout):
    """Thirty signals spread over a run that reads text and shows lanes: it ends by the signal, or it is whole."""
    lanes, began = read("examples/strain-gauges.lanes"), time.time()
    words = "fails", "--lanes", checkout.at("examples/strain-gauges.txt")
    checkout.run(*words).expect(0, out=lanes)
    took = time.time() - began
    for number in range(30):
        run = checkout.start(*words)
        time.sleep(took * number / 25)
        one = hit(run, number)
        out, err = run.communicate(timeout=120)
        ends = (run.returncode == -one and lanes.startswith(out)) or (run.returncode == 0 and out == lanes)
        expect(ends and err == b"", "signal", str(one), "ends a run with", str(run.returncode), err, out)
        nothing_left(checkout, "after signal", str(one))


def building(checkout):
    """Thirty signals spread over a run whose rt does not end: in the first twenty wherever it is, in the others while rt and its children work."""
    for number in range(30):
        run = checkout.unbuilt().start("endless")
        time.sleep(0.01 * number)
        if number >= 20:
            await_rt(checkout)
        one = hit(run, number)
        out, err = run.communicate(timeout=120)
        said = (BEGUN + STOPPED,) if number >= 20 else ("", BEGUN, BEGUN + STOPPED)
        expect(run.returncode == -one and out == b"" and err.decode() in said, "signal", str(one), "ends a build with", str(run.returncode), err)
        nothing_left(checkout, "while it builds, after signal", str(one))


def waiting(checkout):
    """A run that waits for another's build ends by itself, and the build goes on."""
    builds = checkout.unbuilt().start("endless")
    await_rt(checkout)
    waits = checkout.start("endless")
    expect("waits for it" in first_line(waits), "a second run does not wait")
    waits.send_signal(signal.SIGTERM)
    expect(waits.communicate(timeout=120) == (b"", b"") and waits.returncode == -signal.SIGTERM, "a run that waits ends with", str(waits.returncode))
    expect(builds.poll() is None and left() != [], "the build has ended with a run that waited for it")
    builds.send_signal(signal.SIGTERM)
    builds.communicate(timeout=120)
    nothing_left(checkout, "after a build with another run")


def await_rt(checkout):
    """Waits until the stand-in has left half a walk and sleeps, and takes its sign away."""
    until = time.time() + 120
    while not os.path.exists(checkout.calls + ".begun"):
        expect(time.time() < until, "rt has not begun")
        time.sleep(0.02)
    os.remove(checkout.calls + ".begun")


def interrupted(checkout):
    run = checkout.start("endless")
    await_rt(checkout)
    os.killpg(run.pid, signal.SIGINT)
    run.communicate(timeout=120)
    expect(run.returncode == -signal.SIGINT and os.path.getsize(checkout.at("crates/walk/out/walk")) == 9000, "a build was not interrupted")


def half_written(checkout):
    """What an interrupted build left is not taken for built, even where the crates are then as they were when walk was built."""
    paper = read("examples/paper.expected")
    interrupted(checkout.unbuilt())
    checkout.run("builds").expect(3, BEGUN, "run: walk is proved", out=paper)
    checkout.write("crates/walk/src/lib.rt", "other\n")
    interrupted(checkout)
    checkout.write("crates/walk/src/lib.rt", "as it was\n")
    checkout.run("builds").expect(3, "is not the one that was built: it is built again", "run: walk is proved", out=paper)


def killed(checkout):
    """A run that is killed while it builds takes rt with it, and its lock: the next run builds."""
    run = checkout.unbuilt().start("endless")
    await_rt(checkout)
    run.kill()
    run.communicate(timeout=120)
    following = checkout.start("builds")
    out, err = following.communicate(timeout=120)
    expect((following.returncode, out) == (3, read("examples/paper.expected")), "after a run that was killed:", err)
    for name in os.listdir(checkout.temporary):  # only what is killed leaves these
        shutil.rmtree(os.path.join(checkout.temporary, name))
    nothing_left(checkout, "after a run that was killed")


def reading(room):
    """The programs of bin/ end in silence by an interrupt, while they wait for what they read."""
    pipe = os.path.join(room, "pipe")
    os.mkfifo(pipe)
    for program, words in (("make-session", [pipe]), ("show-session", [pipe]), ("show-lanes", ["own", place("examples/paper.session"), pipe])):
        started = subprocess.Popen([sys.executable, place("bin", program), *words], stdout=subprocess.PIPE, stderr=subprocess.PIPE)
        with open(pipe, "wb"):  # which waits until the program opens it
            started.send_signal(signal.SIGINT)
            out, err = started.communicate(timeout=120)
        expect((started.returncode, out, err) == (-signal.SIGINT, b"", b""), program, "ends by an interrupt with", str(started.returncode), err)


STARTS = """
import os, runpy, sys
class Interrupts:
    def find_spec(self, name, *_):
        if name == "sessions":
            os.kill(os.getpid(), 2)
sys.meta_path.insert(0, Interrupts())
runpy.run_path(sys.argv[1], run_name="__main__")
"""


def starting():
    """An interrupt at the first import of their own ends them in silence too."""
    for program in ("make-session", "show-session", "show-lanes"):
        done = subprocess.run([sys.executable, "-c", STARTS, place("bin", program)], stderr=subprocess.PIPE, check=False)
        expect((done.returncode, done.stderr) == (-signal.SIGINT, b""), program, "starts with", str(done.returncode), done.stderr)


WRITES = """
import os, sys
sys.dont_write_bytecode = True
sys.path.insert(0, sys.argv[1])
from sessions import saying
opened = os.open
def interrupted(*words):
    handle = opened(*words)
    os.kill(os.getpid(), 2)
    return handle
os.open = interrupted
saying.run("writes", lambda args: saying.write_output(sys.argv[2], b"whole"))
"""


def written_whole():
    """An interrupt that comes when a file is opened for writing, and emptied so, ends the program after the file is whole."""
    with tempfile.NamedTemporaryFile() as file:
        file.write(b"as it was")
        file.flush()
        done = subprocess.run([sys.executable, "-c", WRITES, place("bin"), file.name], stderr=subprocess.PIPE, check=False)
        expect(done.returncode == -signal.SIGINT and done.stderr == b"", "a program that writes ends with", str(done.returncode), done.stderr)
        with open(file.name, "rb") as again:
            expect(again.read() == b"whole", "an interrupt leaves half a file")
