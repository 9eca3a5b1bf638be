"""A stand-in for the toolchain, for tests of what happens around a build: `rt run` and `rt try`, and those
functions of `rtlib` that build/program calls. It takes, prints and leaves what the real one does, but proves
nothing: a library takes a fraction of a second, and a program is a copy of the one that is built already.

Its settings are files beside it, which a test writes:

    programs    the repository whose programs are taken
    seconds     how long a library takes
    fails       a crate whose proof fails
    answers     a program, as a text, that is linked in place of the right one
    built       what it has built, a name a line: it adds to this file
"""
import fcntl
import functools
import hashlib
import os
import shutil
import signal
import subprocess
import sys

HERE = os.path.dirname(os.path.realpath(__file__))
# Ends when as many seconds have passed as the setting says then: a test may change it meanwhile.
PASS_TIME = """
import sys, time
begun = time.monotonic()
while time.monotonic() - begun < float(open(sys.argv[1]).read() or 0.02):
    time.sleep(0.02)
"""


def setting(name, usual=""):
    try:
        with open(f"{HERE}/{name}", encoding="utf-8") as it:
            return it.read().rstrip("\n")
    except FileNotFoundError:
        return usual


def tell(text):
    print(f"rt: {text}", file=sys.stderr, flush=True)


def has_built(name):
    with open(f"{HERE}/built", "a", encoding="utf-8") as to:
        to.write(f"{name}\n")


@functools.lru_cache(maxsize=None)
def guarded():
    """The words before a command which make it end when this process does, however that ends."""
    ends, _held = os.pipe()
    guard = subprocess.Popen(["sh", "-c", "read _; kill -9 0"], preexec_fn=os.setpgrp, stdin=ends,
                             stdout=subprocess.DEVNULL, stderr=subprocess.DEVNULL)
    join = f"import os, sys; os.setpgid(0, {guard.pid}); os.execvp(sys.argv[1], sys.argv[1:])"
    return [sys.executable, "-ISc", join]


class Crate:
    def __init__(self, root, name, needs):
        self.folder, self.name, self.root, self.needs = f"{root}/crates/{name}", name, root, needs
        self.out = sys.stdout

    def makes_rlib(self):
        return not os.path.isfile(f"{self.folder}/src/main.rt")

    def below(self):
        found = []
        for name in self.needs[self.name]:
            if name in self.needs:
                dep = Crate(self.root, name, self.needs)
                known = [it.name for it in found]
                found += [it for it in [*dep.below(), dep] if it.name not in known]
        return found

    def stamp(self):
        sum_of = hashlib.sha256()
        for it in sorted([*self.below(), self], key=lambda one: one.name):
            for folder, _, names in sorted(os.walk(f"{it.folder}/src")):
                for name in sorted(names):
                    with open(f"{folder}/{name}", "rb") as file:
                        sum_of.update(file.read())
        return sum_of.hexdigest()

    def is_made(self):
        try:
            with open(f"{self.folder}/out/stamp", encoding="utf-8") as it:
                return it.read() == self.stamp()
        except FileNotFoundError:
            return False

    def build_rlib(self, flags, anew):
        assert flags[:1] == ["--jobs"] and not anew
        return 0 if self.is_made() else self.prove("build_rlib")

    def prove(self, _verb):
        """Takes its time. A crate is noted as built once it is proved."""
        print(f"rt: chose --jobs 1 for {self.name}", file=self.out, flush=True)
        stamp = self.stamp()
        if subprocess.run([*guarded(), sys.executable, "-ISc", PASS_TIME, f"{HERE}/seconds"], check=False).returncode:
            return 2
        if self.name == setting("fails"):
            print("error: the clause `sum` of `add` is not proved\n  --> src/lib.rt:7:5", file=self.out)
            print("fn add: not proved\nlogic=refused", file=self.out, flush=True)
            return 1
        print("logic=proved functions=7 sum=stand-in", file=self.out, flush=True)
        os.makedirs(f"{self.folder}/out", exist_ok=True)
        with open(f"{self.folder}/out/stamp", "w", encoding="utf-8") as to:
            to.write(stamp)
        has_built(self.name)
        return 0


def crates_below(top):
    """The crate in a folder and those that it stands on, the lowest first."""
    root, needs = os.path.dirname(os.path.dirname(top)), {}
    with open(f"{root}/crates.txt", encoding="utf-8") as it:
        for line in it:
            name, _, below = line.partition("#")[0].partition(":")
            if name.split():
                needs[name.split()[0]] = below.split()
    crate = Crate(root, os.path.basename(top), needs)
    return [*crate.below(), crate]


def lock(crates):
    held = [os.open(it.folder, os.O_RDONLY) for it in crates]
    for crate, it in zip(crates, held):
        try:
            fcntl.flock(it, fcntl.LOCK_EX | fcntl.LOCK_NB)
        except BlockingIOError:
            tell(f"waiting for another rt to finish in {crate.folder}")
            fcntl.flock(it, fcntl.LOCK_EX)
    return held


def run(words):
    crates = crates_below(os.getcwd())
    held, program = lock(crates), crates[-1]
    for it in crates[:-1]:
        it.out = sys.stderr
        status = it.build_rlib(["--jobs", "1"], False)
        if status:
            tell(f"the library {it.name} did not build, so nothing above it was checked")
            return status
    program.out, name = sys.stderr, f"out/{program.name}"
    if program.is_made() and os.path.exists(name):
        tell(f"nothing has changed since the last proved build, by {name}.stamp, so nothing is checked now")
    else:
        status = program.prove("run")
        if status:
            return status
        answers = setting("answers")
        if answers:
            with open(f"{name}.new", "w", encoding="utf-8") as to:
                to.write(answers + "\n")
            os.chmod(f"{name}.new", 0o755)
        else:
            shutil.copy(f"{setting('programs')}/crates/{program.name}/{name}", f"{name}.new")
        os.replace(f"{name}.new", name)
    for it in held:
        os.close(it)
    tell(f"running {name}; to give it other input, run that file yourself")
    ended = subprocess.run([f"./{name}", *words], check=False).returncode
    return ended if ended >= 0 else 128 - ended


def try_unproved(words):
    """A run without proofs, which reads copies of the files that are named by --data NAME=FILE."""
    at = words.index("--")
    named = dict(it.split("=", 1) for it in words[:at] if it != "--data")
    name = os.path.basename(os.getcwd())
    program = f"{setting('programs')}/crates/{name}/out/{name}"
    words = [*guarded(), program, *(named.get(it, it) for it in words[at + 1:])]
    done = subprocess.run(words, stdout=subprocess.PIPE, check=False)
    sys.stdout.buffer.write(done.stdout)
    sys.stdout.flush()
    status = f"status={done.returncode}"
    print(f"checked: ended {status}\nrun=ended {status} runners=1 proved=no", file=sys.stderr)
    return done.returncode


def main(words):
    if signal.getsignal(signal.SIGINT) is signal.default_int_handler:
        signal.signal(signal.SIGINT, signal.SIG_DFL)    # else Python would print where it was
    verb, words = words[0], words[1:]
    if verb == "run":
        return run(words[words.index("--") + 1:])
    if verb == "try":
        return try_unproved(words)
    if verb == "version":
        print("a stand-in")
        return 0
    tell(f"the stand-in has no {verb}")
    return 2
