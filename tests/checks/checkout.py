"""A copy of the scripts with small crates of its own and a stand-in for the toolchain's rt, so that nothing is proved where run is tried."""
import os
import shutil
import subprocess

from .common import WALK, Ran, place

RT = """#!/bin/sh
# A stand-in for rt, which is called in walk's folder: it builds by copying, and says what rt would say. Each call of it adds a line to $CALLS.
[ "$1" = doc ] && PATH=$REAL_PATH exec "$REAL_RT" doc
echo "$*" >>"$CALLS"
sum() { sha256sum <out/walk; }
proved() { echo "rt: chose --jobs 1 for $1"; echo "fn $1::main: proved"; echo 'logic=proved functions=1'; }
build() {
    rm -f out/walk.stamp
    proved machine
    proved walk
    mkdir -p out
    cp "$REAL_WALK" out/walk
    sum >out/walk.stamp
}
keep() { echo 'rt: nothing has changed since the last proved build, by out/walk.stamp, so nothing is checked now'; }
[ "$1" = run ] && [ "${PWD##*/}" = walk ] || exit 2
case $WHAT in
builds) if [ -f out/walk ] && [ -f out/walk.stamp ] && [ "$(sum)" = "$(cat out/walk.stamp)" ]; then keep; else build; fi ;;
again) build ;;
slow) sleep 4; proved walk ;;
fails) echo 'fn walk::main: not proved'; exit 1 ;;
waits) until [ -e "$RELEASED" ]; do sleep 0.1; done; build ;;
endless) mkdir -p out; rm -f out/walk.stamp; sleep 1000 & (sleep 1000; sleep 1000) & head -c 9000 "$REAL_WALK" >out/walk; chmod +x out/walk
    echo >>"$CALLS.begun"; sleep 1000 ;;
esac
echo 'rt: running out/walk; to give it other input, run that file yourself' >&2
echo 14
"""
# what run needs where walk is built, apart from python3, rt and what only a build needs
NEEDED = "bash cat dirname head mktemp od readlink rm sed sha256sum tail tr uname wc"


class Checkout:
    """A folder with run, bin, examples and two crates; its files are reached by any user."""

    def __init__(self, room):
        os.chmod(room, 0o755)
        self.room, self.path, self.tools, self.bare = room, *(os.path.join(room, name) for name in ("copy", "tools", "bare"))
        self.calls, self.temporary = os.path.join(room, "calls"), os.path.join(room, "temporary")
        for folder in (self.path, self.tools, self.bare, self.temporary):
            os.mkdir(folder)
        os.chmod(self.temporary, 0o777)
        shutil.copy(place("run"), self.path)
        for folder in ("bin", "examples"):
            shutil.copytree(place(folder), os.path.join(self.path, folder))
        self.write("crates.txt", "# a comment\nwalk: walks json\nwalks: csv\nother: walks\nlinked staticlib: walks\n")
        for crate in ("walk", "walks", "other"):
            self.write("crates/%s/src/lib.rt" % crate, "as it was\n")
        self.write(os.path.join(self.tools, "rt"), RT, 0o755)
        for name in NEEDED.split():
            os.symlink(shutil.which(name), os.path.join(self.bare, name))
        self.env = dict(os.environ, PATH=self.tools + ":" + os.environ["PATH"], REAL_PATH=os.environ["PATH"], REAL_WALK=WALK[-1],
                        REAL_RT=shutil.which("rt") or "rt", CALLS=self.calls, TMPDIR=self.temporary)

    def at(self, *parts):
        return os.path.join(self.path, *parts)

    def write(self, name, text, mode=0o644):
        os.makedirs(os.path.dirname(self.at(name)), exist_ok=True)
        with open(self.at(name), "w") as file:
            file.write(text)
        os.chmod(self.at(name), mode)

    def unbuilt(self):
        """The checkout as it is before the first build."""
        for folder in ("target", "crates/walk/out"):
            shutil.rmtree(self.at(folder), ignore_errors=True)
        return self

    def built(self):
        self.run("again").expect(3)
        return self

    def run(self, what, *args, sh="bash", **more):
        """Runs the copy's script; what says what the stand-in does, more are words of the environment."""
        return Ran([sh, self.at("run"), *args], env=dict(self.env, WHAT=what, **more))

    def start(self, what, *args, **more):
        """Starts the copy's script in a session of its own, with its output and its errors in pipes."""
        return subprocess.Popen(["bash", self.at("run"), *args], env=dict(self.env, WHAT=what, **more), stdin=subprocess.DEVNULL,
                                stdout=subprocess.PIPE, stderr=subprocess.PIPE, start_new_session=True)

    def called(self):
        """How often rt was called since this was asked last."""
        try:
            with open(self.calls) as file:
                calls = len(file.readlines())
            os.remove(self.calls)
        except FileNotFoundError:
            calls = 0
        return calls
