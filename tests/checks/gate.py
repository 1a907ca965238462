"""The gate, and host/run, where something is missing: a part that would be skipped is a failure in one line, and with --allow-skips it is
named and passed over. The toolchain's rt and the compilers are stand-ins, so that nothing is proved or built here."""
import os
import shutil
import sys
import tempfile

from .common import Ran, expect, place

NEEDED = "bash sh cat dirname id mkdir mktemp readlink rm sed tail tee"
SYSTEM = '#!/bin/sh\ncase $1 in -s) echo Linux ;; -m) echo x86_64 ;; esac\n'
COMPILER = "#!/bin/sh\n"
# rt in the checkout's folder, and in the library's; what it says of the edits is in $EDITS
RT = """#!/bin/sh
case "$*, in ${PWD##*/}" in
"ci, in copy")
    echo 'rt: parts proved'
    [ -n "${SILENT-}" ] || echo "rt: ok; handles allowed: none; must-fail edits: 5 refused${EDITS-}; every proof and must-fail edit was done in this run"
    echo "7 passed, ${FAILED:-0} failed"
    exit "${FAILED:-0}" ;;
"lib, in ln") mkdir -p out; : >out/libln.a ;;
*) exit 2 ;;
esac
"""
# run, which ends with the refusal in the session that ships
RUN = "#!/bin/sh\necho 'walk is built' >&2\nexit ${BUILT:-3}\n"
TEST = "import os, sys\nprint('%s is tested')\nsys.exit(int(os.environ.get('%s', '0')))\n"
TESTS = ("quotations", "seams", "terminal")
VERDICT = b"7 passed, 0 failed\n"
NO_PYTHON = "python3 is missing and cannot be installed"
NO_COMPILER = "cargo or a C compiler is missing and cannot be installed"


def check():
    with tempfile.TemporaryDirectory() as room:
        copy = os.path.join(room, "copy")
        for script in (".ci/run", "host/run"):
            os.makedirs(os.path.dirname(os.path.join(copy, script)))
            shutil.copy(place(script), os.path.join(copy, script))
        os.mkdir(os.path.join(copy, "tests"))
        os.makedirs(os.path.join(copy, "crates/ln"))
        write(os.path.join(copy, "run"), RUN)
        for name in TESTS:
            write(os.path.join(copy, "tests", name), TEST % (name, name.upper()))
        bare = os.path.join(room, "bare")
        os.mkdir(bare)
        for name in NEEDED.split():
            os.symlink(shutil.which(name), os.path.join(bare, name))
        write(os.path.join(bare, "uname"), SYSTEM)
        write(os.path.join(bare, "rt"), RT)
        gates(copy, bare)


def edits(gate, passes):
    """A bad edit is a failure, though the prover passes it; one that is refused by a limit alone is none."""
    passes(EDITS=", 1 of them only by a limit")
    for told in (dict(EDITS=", 2 bad"), dict(EDITS=", 1 of them only by a limit, 12 bad"), dict(SILENT="1")):
        said = gate("--allow-skips", **told).expect(1, "gate: FAILED: ", "must-fail edits")
        expect(VERDICT not in said.out and b"is tested" not in said.out, "with a bad edit the gate printed", said.out)


def write(path, text):
    with open(path, "w") as file:
        file.write(text)
    os.chmod(path, 0o755)


def gates(copy, bare):
    """One tool after the other is there: each that still lacks is a failure before anything is proved."""

    def gate(*words, **more):
        return Ran(["bash", os.path.join(copy, ".ci/run"), *words], env=dict(PATH=bare, **more))

    def host(*words):
        return Ran(["bash", os.path.join(copy, "host/run"), *words], env=dict(PATH=bare))

    def fails(lacking):
        said = gate().expect(1, lacking, out=b"").err
        expect("FAILED, skipped: " in said and said.count("\n") == 1, "the failure is not one line:", said)

    def passes(*skipped, **more):
        out = gate("--allow-skips", **more).expect(0).out
        expect(out.startswith(b"rt: parts proved") and out.endswith(VERDICT) and out.count(VERDICT) == 1, "the gate printed", out)
        for part in skipped:
            expect(part.encode() in out, part, "is not in", out)

    gate("--nothing").expect(2, "--allow-skips is the only one", out=b"")
    fails(NO_PYTHON)
    passes("the pages, of the seams and of the terminal, " + NO_PYTHON, "everything of the host, " + NO_COMPILER)
    os.symlink(sys.executable, os.path.join(bare, "python3"))
    fails(NO_COMPILER)
    host("tools").expect(1, NO_COMPILER, out=b"")
    host("compare", "9").expect(1, NO_COMPILER, out=b"")
    host("--allow-skips", "compare", "9").expect(0)
    passes(*(name + " is tested" for name in TESTS), NO_COMPILER)
    for test in TESTS:
        out = gate("--allow-skips", **{test.upper(): "1"}).expect(1).out
        expect(b"terminal is tested" in out and VERDICT not in out, "with a test that fails the gate printed", out)
    out = gate("--allow-skips", BUILT="1").expect(1).out
    expect(b"gate: FAILED: run ends with 1 " in out and b"terminal is tested" in out and VERDICT not in out, "without walk the gate printed", out)
    failed = gate("--allow-skips", FAILED="1").expect(1).out
    expect(failed.endswith(b"7 passed, 1 failed\n"), "with a crate that fails the gate printed", failed)
    edits(gate, passes)
    for name in ("cargo", "gcc"):
        write(os.path.join(bare, name), COMPILER)
    fails("the header as C++17, g++ is missing and cannot be installed")
    host("--allow-skips", "tools").expect(0, out=b"host/run: skipped: the header as C++17, g++ is missing and cannot be installed\n")
    write(os.path.join(bare, "g++"), COMPILER)
    expect(not host("tools").expect(0, out=b"").err, "something is said where nothing is missing")
    os.remove(os.path.join(bare, "python3"))
    host("tools").expect(1, "the stack read off the code, " + NO_PYTHON, out=b"")
