"""Makes programs of the crates' sources without their proofs, by Rust's own compiler. Only what has changed is made again."""
import concurrent.futures
import contextlib
import hashlib
import os
import platform
import re
import shutil
import subprocess
import time
from dataclasses import dataclass, field

try:
    import fcntl
except ImportError:    # no system of the kind of Unix
    fcntl = None

PLAIN = os.path.dirname(os.path.realpath(__file__))
TOP = os.path.dirname(os.path.dirname(PLAIN))
OUT = f"{TOP}/build/out/unproved"
PROGRAMS = ("paged", "guest", "policies", "show_run")
LEAST = (1, 85)    # of rustc: the first that knows the edition
FLAGS = ("--edition", "2024", "-O", "-C", "codegen-units=1", "--cap-lints", "allow")


class Refused(Exception):
    """Why there is no program."""


@dataclass
class Compiler:
    """How a compiler is called, and what for."""

    words: list = field(default_factory=lambda: ["rustc"])
    flags: tuple = ()
    link_flags: tuple = ()
    ending: str = ""    # of a program's name
    env: dict = field(default_factory=lambda: dict(os.environ))

    def version(self):
        """What it says that it is."""
        try:
            told = subprocess.run([*self.words, "--version"], stdout=subprocess.PIPE, stderr=subprocess.DEVNULL, text=True, check=True,
                                  env=self.env).stdout.strip()
            found = re.match(r"rustc (\d+)\.(\d+)", told)
        except (OSError, subprocess.CalledProcessError):
            raise Refused("there is no rustc on the PATH, which has to be 1.85 or later") from None
        if not found or (int(found[1]), int(found[2])) < LEAST:
            raise Refused(f"rustc has to be 1.85 or later, and this one is {told}")
        return told


def native():
    """The compiler of this machine, which uses what every x86-64 of the last ten years has."""
    is_x86 = platform.machine() in ("x86_64", "AMD64")
    return Compiler(flags=("-C", "target-cpu=x86-64-v2") if is_x86 else ())


def processors():
    """How many this process may use."""
    return len(os.sched_getaffinity(0)) if hasattr(os, "sched_getaffinity") else os.cpu_count() or 1


@contextlib.contextmanager
def held(file):
    """One call at a time goes on in it, where the file system has locks."""
    with open(file, "w", encoding="ascii") as lock:
        if fcntl:
            with contextlib.suppress(OSError):
                fcntl.flock(lock, fcntl.LOCK_EX)
        yield


def closure(programs):
    """The crates that programs stand on, and these, each with those of them that it names, the lowest first."""
    names = []
    for program in programs:
        told = subprocess.run([f"{TOP}/build/closure", program], stdout=subprocess.PIPE, text=True, check=True).stdout
        names += [it for it in told.split() if it not in names]
    below = {}
    with open(f"{TOP}/crates.txt", encoding="utf-8") as lines:
        for line in lines:
            name, _, named = line.split("#")[0].partition(":")
            if name.split(" ")[0] in names:
                below[name.split(" ")[0]] = [it for it in named.split() if it in names]
    return {it: below[it] for it in names}


def sum_of(files, more):
    """A checksum of what these files hold, and of further texts."""
    made = hashlib.sha256(repr(more).encode())
    for file in sorted(files):
        with open(file, "rb") as it:
            made.update(f"{file[len(TOP):]}\0".encode() + it.read())
    return made.hexdigest()


def sources(crate):
    return [f"{at}/{it}" for at, _, names in os.walk(f"{TOP}/crates/{crate}/src") for it in names if it.endswith(".rt")]


def stamps(crates, told):
    """What each crate is made of."""
    tools = [f"{PLAIN}/{it}" for it in os.listdir(PLAIN) if it.endswith(".rs") and it != "main.rs" or it == "strip"]
    made = {"rattle": sum_of([*tools, os.path.realpath(__file__)], told)}
    for crate, below in crates.items():
        made[crate] = sum_of(sources(crate), [made["rattle"], *(made[it] for it in below)])
    return made


class Making:
    """What is made in a folder, each crate where its stamp is another one than that which was kept."""

    def __init__(self, crates, compiler, out):
        self.crates, self.compiler, self.out = crates, compiler, out
        self.stamps = stamps(crates, [compiler.version(), compiler.flags, compiler.link_flags])
        self.left = [it for it in self.stamps if not self.is_made(it)]

    def target(self, name):
        return f"{self.out}/{name}{self.compiler.ending}" if name in PROGRAMS else f"{self.out}/lib/lib{name}.rlib"

    def is_made(self, name):
        try:
            with open(f"{self.out}/lib/{name}.stamp", encoding="ascii") as it:
                return it.read() == self.stamps[name] and os.path.exists(self.target(name))
        except OSError:
            return False

    def compile(self, name, source, below):
        """Compiles a crate. What the compiler said is told where it refused."""
        kind = self.compiler.link_flags if name in PROGRAMS else ("--crate-type", "rlib")
        new = f"{self.out}/lib/new-{name}/{os.path.basename(self.target(name))}"    # beside others of its name it would be found as one of them
        os.makedirs(os.path.dirname(new), exist_ok=True)
        words = [*self.compiler.words, *FLAGS, *self.compiler.flags, "-L", f"{self.out}/lib", "--crate-name", name, *kind, "-o", new]
        for it in below:
            words += ["--extern", f"{it}={self.out}/lib/lib{it}.rlib"]
        done = subprocess.run([*words, source], stdout=subprocess.PIPE, stderr=subprocess.STDOUT, text=True, errors="replace", check=False,
                              env=self.compiler.env)
        if done.returncode:
            raise Refused(f"rustc refused {name}:\n{done.stdout}")
        os.replace(new, self.target(name))
        shutil.rmtree(os.path.dirname(new))    # a compiler that was broken off may still have written here
        with open(f"{self.out}/lib/{name}.stamp", "w", encoding="ascii") as to:
            to.write(self.stamps[name])

    def source(self, crate):
        if crate == "status_cell":
            return f"{PLAIN}/status_cell.rs"
        return f"{self.out}/src/{crate}/{'main' if crate in PROGRAMS else 'lib'}.rs"

    def run(self):
        os.makedirs(f"{self.out}/lib", exist_ok=True)
        stripped = [it for it in self.left if it not in ("rattle", "status_cell")]
        for it in stripped:
            shutil.rmtree(f"{self.out}/src/{it}", ignore_errors=True)
        subprocess.run([f"{PLAIN}/strip", TOP, f"{self.out}/src", *stripped], check=True)
        if "rattle" in self.left:
            self.compile("rattle", f"{PLAIN}/shim.rs", [])
        with concurrent.futures.ThreadPoolExecutor(processors()) as pool:
            made = {}
            for crate, below in self.crates.items():
                made[crate] = pool.submit(self.make, crate, below, made)    # the lowest first, so that none waits for one that has no thread
            for it in made.values():
                it.result()

    def make(self, crate, below, made):
        for it in below:
            made[it].result()
        if crate not in self.left:
            return
        self.compile(crate, self.source(crate), ["rattle", *below])


def make(programs, compiler, out, say):
    """Makes programs in a folder where they are not made of what stands here. One call makes at a time."""
    os.makedirs(out, exist_ok=True)
    with held(f"{out}/lock"):
        making, begun = Making(closure(programs), compiler, out), time.monotonic()
        if making.left:
            say(f"compiling {len(making.left)} crates without their proofs, in a minute or two")
            making.run()
            say(f"compiled in {time.monotonic() - begun:.0f} s")
