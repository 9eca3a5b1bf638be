"""The programs that scripts call, and their first build, of which what it prints is seen: scripts keep for themselves what programs say."""
import os
import subprocess
import sys

TOP = os.path.dirname(os.path.dirname(os.path.dirname(os.path.realpath(__file__))))
CALLED = sys.argv[0]


def program(name):
    """Where a program stands: in an archive in bin/; for a script that build/unproved calls, which has told that, among those without proofs."""
    packed = f"{TOP}/bin/{name}"
    if os.environ.get("PAGED_UNPROVED") == "told":
        return f"{TOP}/build/out/unproved/{name}"
    return packed if os.access(packed, os.X_OK) else f"{TOP}/crates/{name}/out/{name}"


def processors():
    """How many this process may use; not every system says which these are."""
    return len(os.sched_getaffinity(0)) if hasattr(os, "sched_getaffinity") else os.cpu_count() or 1


def is_preview():
    """Whether a first look calls the script, by the toolchain's run without proofs."""
    return os.environ.get("PAGED_UNPROVED") == "preview"


def command(name):
    """How a program is called."""
    return [f"{TOP}/build/preview", name] if is_preview() else [program(name)]


def is_ready(name):
    """Whether a program stands there that needs no build."""
    if is_preview() or not program(name).startswith(f"{TOP}/crates/"):
        return True
    return subprocess.run([f"{TOP}/build/is-built", name], check=False).returncode == 0


def first_look(name):
    """A first look at what the script was called for, which goes on beside a first build; after a change to the sources there is none."""
    if os.environ.get("PAGED_LOOK") == "no" or os.path.exists(program(name)):
        return None
    words = [f"{TOP}/build/first-look", f"scripts/{os.path.basename(CALLED)}", "-", *sys.argv[1:]]
    return subprocess.Popen(words, stdin=subprocess.DEVNULL, stdout=subprocess.DEVNULL)


def build_first(name="paged"):
    """Builds the program where it is missing, or was built from other sources."""
    if is_ready(name):
        return
    look = first_look(name)
    try:
        done = subprocess.run([f"{TOP}/build/program", name], stdin=subprocess.DEVNULL, stdout=sys.stderr, check=False)
    finally:
        if look:
            look.terminate()
            look.wait()
    if done.returncode:
        sys.exit(2)
