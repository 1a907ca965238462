"""How run comes to a walk that is built: what it says while the crates are proved, when it proves nothing, several runs at once, and
checkouts that cannot build: without rt, without the right to write, on another processor."""
import os
import shutil
import subprocess
import tempfile

from .checkout import Checkout
from .common import Ran, expect, read

NOTE = ("run: word 3, 04c02020, is refused with 8 UNDEFINED: it is one of the twenty-five instructions, with a size that is not allowed; "
        "the walk ends there\n")
NOBODY = 65534


def check():
    global paper
    paper = read("examples/paper.expected")
    with tempfile.TemporaryDirectory() as room:
        checkout = Checkout(room)
        first_builds(checkout)
        what_changed(checkout)
        together(checkout)
        missing(checkout)
        unwritten(checkout)


def silent(ran):
    """The paper's session was walked, and nothing was said besides."""
    expect(ran.expect(3, out=paper).err == NOTE, "something is said where nothing was to be done:", ran.err)


def one_line(ran, reason):
    expect(ran.expect(1, out=b"").err == "run: %s\n" % reason, "the one line is", ran.err)


def first_builds(checkout):
    """What is said of the first build, and of one that fails."""
    checkout.run("fails").expect(1, "not built yet", "fn walk::main: not proved", "could not be built", out=b"")
    first = checkout.run("builds").expect(3, out=paper).err.split("\n")
    expect(first[0].startswith("run: the program walk is not built yet") and "some minutes" in first[0], "the first line is", first[0])
    expect(first[1:3] == ["run: machine is proved", "run: walk is proved"] and first[3:] == NOTE.split("\n"), "the crates are not shown:", first)
    expect(checkout.called() == 2, "rt was not called once for each build")
    expect(os.listdir(checkout.temporary) == [], "temporary files stay:", os.listdir(checkout.temporary))


def what_changed(checkout):
    """rt is called where something of walk's crates, or the program, is not as it was built, and nowhere else."""
    def called(times, what="builds"):
        ran = checkout.run(what).expect(3, out=paper)
        expect(checkout.called() == times, "rt was not called", str(times), "times:", ran.err)
        return ran

    silent(called(0))
    for name, text in (("crates/walks/src/lib.rt", "changed\n"), ("crates/walk/specs/new.antt", ""), ("crates.txt", "walk: walks\nwalks: csv\n"),
                       ("crates/walk/.hidden", "")):
        checkout.write(name, text)
        silent(called(1))
        silent(called(0))
    for name in ("crates/other/src/lib.rt", "crates/walk/must-fail/a.edit", "crates/walk/out/incremental/a", "target/a"):
        checkout.write(name, "changed\n")
        silent(called(0))
    os.remove(checkout.at("target/run.stamp"))  # as where rt built without a run
    silent(called(1))
    silent(called(0))
    checkout.write("crates/walks/src/lib.rt", "changed again\n")
    slow = called(1, "slow").err.split("\n")
    expect("have changed since it was built" in slow[0] and slow[1] == "run: walk is proved", "a second build says", slow)
    os.remove(checkout.at("crates/walk/out/walk"))
    called(1).expect(3, "not built yet", "run: walk is proved")
    checkout.write("crates/walk/out/walk", "#!/bin/sh\necho 0 0 another\n", 0o755)
    called(1).expect(3, "run: the program crates/walk/out/walk is not the one that was built: it is built again\n", "run: walk is proved")
    silent(called(0))
    shutil.copytree(checkout.path, checkout.path + ".moved")
    silent(Ran(["bash", checkout.path + ".moved/run"], env=dict(checkout.env, WHAT="fails")))


def together(checkout):
    """Eight runs at once: where walk is built none calls rt; where it is not, one does, and the others wait for it and say so."""
    started = [checkout.start("fails") for _ in range(8)]
    for run in started:
        out, err = run.communicate(timeout=120)
        expect((run.returncode, out, err.decode()) == (3, paper, NOTE), "one of eight in a built checkout:", err)
    expect(checkout.called() == 0, "one of eight calls rt in a built checkout")
    one_builds(checkout.unbuilt(), "run: the program walk is not built yet: ")
    os.remove(checkout.at("target/run.stamp"))
    one_builds(checkout, "run: whether walk's crates have changed since it was built cannot be told: they are proved again")


def one_builds(checkout, first):
    """Of eight runs one begins with these words and calls rt, which ends only when the seven others have said that they wait."""
    released = os.path.join(checkout.room, "released")
    started = [checkout.start("waits", RELEASED=released) for _ in range(8)]
    try:
        said = [first_line(run) for run in started]
        with open(released, "w"):
            pass
        rest = [run.communicate(timeout=120) for run in started]
    finally:
        os.remove(released)
        for run in started:
            run.kill()
    waiting = "run: another run is building walk in this checkout: this one waits for it\n"
    builders = [line for line in said if line != waiting]
    expect(len(builders) == 1 and builders[0].startswith(first), "eight at once say", said)
    for line, run, (out, err) in zip(said, started, rest):
        end = NOTE if line == waiting else "run: machine is proved\nrun: walk is proved\n" + NOTE
        expect((run.returncode, out, err.decode()) == (3, paper, end), "one of eight that build:", err)
    expect(checkout.called() == 1, "rt is called more than once for eight runs")


def first_line(run):
    """The first line that a run says; it is read letter by letter, so that the rest is left for later."""
    line, letter = b"", b"any"
    while letter not in (b"\n", b""):
        letter = os.read(run.stderr.fileno(), 1)
        line += letter
    return line.decode()


def missing(checkout):
    """Without rt: what is built runs, and else one line says why not; so without a folder for temporary files, and by another shell."""
    nothing = dict(PATH=checkout.bare)
    silent(checkout.built().run("", **nothing))
    checkout.run("", checkout.at("examples/paper.txt"), **nothing).expect(1, "needs python3", out=b"")
    checkout.run("", "--lanes", **nothing).expect(1, "--lanes needs python3", out=b"")
    lacking = "the toolchain's command rt is not on the PATH"
    os.remove(checkout.at("target/run.stamp"))
    untold = "run: walk runs as it is: whether its crates have changed since it was built cannot be told, for " + lacking + "\n"
    expect(checkout.run("", **nothing).expect(3, out=paper).err == untold + NOTE, "a walk that no run has built is not run")
    checkout.built().write("crates/walk/src/lib.rt", "changed once more\n")
    one_line(checkout.run("", **nothing), "walk's crates have changed since it was built, and " + lacking)
    checkout.built().write("crates/walk/out/walk", "#!/bin/sh\n", 0o755)
    one_line(checkout.run("", **nothing), "the program crates/walk/out/walk is not the one that was built, and " + lacking)
    one_line(checkout.unbuilt().run("", **nothing), "the program walk is not built, and " + lacking)
    os.symlink(os.path.join(checkout.tools, "rt"), os.path.join(checkout.bare, "rt"))
    one_line(checkout.run("", **nothing), "the program walk is not built, and a build needs flock and setsid (on Debian: apt-get install util-linux)")
    silent(checkout.built().run("fails", **nothing))
    unlockable(checkout)
    other_processor(checkout)
    none = os.path.join(checkout.room, "none")
    one_line(checkout.run("fails", TMPDIR=none), "no folder for temporary files could be made in " + none)
    silent(checkout.run("fails", sh="sh"))
    silent(checkout.run("fails", sh="bash", POSIXLY_CORRECT="1"))
    os.remove(os.path.join(checkout.bare, "bash"))
    one_line(checkout.run("fails", sh=shutil.which("sh"), **nothing), "this script needs bash, and there is none on the PATH")
    os.symlink(shutil.which("bash"), os.path.join(checkout.bare, "bash"))


def unlockable(checkout):
    """Where the file system has no locks a build goes on without one, and says so; what is built runs in silence."""
    checkout.write(os.path.join(checkout.tools, "flock"), "#!/bin/sh\necho 'flock: 9: No locks available' >&2\nexit 71\n", 0o755)
    silent(checkout.run("fails"))
    checkout.unbuilt().run("builds").expect(3, "run: this checkout cannot be locked (9: No locks available): another run", out=paper)
    os.remove(os.path.join(checkout.tools, "flock"))


def other_processor(checkout):
    """On a processor that is not walk's its C library comes with rt, and an emulator runs it, so there both are needed."""
    os.remove(os.path.join(checkout.bare, "rt"))
    os.remove(os.path.join(checkout.bare, "uname"))
    checkout.write(os.path.join(checkout.bare, "uname"), "#!/bin/sh\necho another\n", 0o755)
    one_line(checkout.run("", PATH=checkout.bare), "walk is a program for x86-64, which needs the toolchain's C library on this processor, "
             "and the toolchain's command rt is not on the PATH")
    os.symlink(os.path.join(checkout.tools, "rt"), os.path.join(checkout.bare, "rt"))
    one_line(checkout.run("", PATH=checkout.bare), "walk is a program for x86-64, which needs the emulator qemu-x86_64 on this processor "
             "(on Debian: apt-get install qemu-user)")
    os.remove(os.path.join(checkout.bare, "rt"))
    os.remove(os.path.join(checkout.bare, "uname"))
    os.symlink(shutil.which("uname"), os.path.join(checkout.bare, "uname"))


def unwritten(checkout):
    """A checkout that may not be written, run by nobody where the tests are root's: what is built runs, and else one line says why not."""
    def read_only(what, *expected):
        modes(checkout.path, 0o555)
        other = dict(user=NOBODY, group=NOBODY, extra_groups=[]) if os.getuid() == 0 else {}
        done = subprocess.run(["bash", checkout.at("run")], env=dict(checkout.env, WHAT=what, CALLS="/dev/null"), stdin=subprocess.DEVNULL,
                              stdout=subprocess.PIPE, stderr=subprocess.PIPE, check=False, cwd="/", **other)
        modes(checkout.path, 0o755)
        found = done.returncode, done.stdout, done.stderr.decode()
        expect(found == expected, "in a checkout that may not be written run ends with", found)

    target = checkout.at("target")
    checkout.built()
    read_only("fails", 3, paper, NOTE)
    os.remove(checkout.at("target/run.stamp"))
    read_only("fails", 3, paper, "run: walk runs as it is: whether its crates have changed since it was built cannot be told, "
              "for %s may not be written\n" % target + NOTE)
    checkout.built().write("crates/walk/src/lib.rt", "changed at last\n")
    read_only("builds", 1, b"", "run: walk's crates have changed since it was built, and %s may not be written\n" % target)
    checkout.unbuilt()
    read_only("builds", 1, b"", "run: the program walk is not built, and %s may not be written\n" % checkout.path)


def modes(path, mode):
    """Gives a folder, and all folders and files in it, a mode."""
    os.chmod(path, mode)
    for folder, folders, files in os.walk(path):
        for name in folders + files:
            os.chmod(os.path.join(folder, name), mode)
