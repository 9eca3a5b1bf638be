"""What a fault of the program `paged` means, where that is shown: at a terminal, as the program itself does."""
import os
import subprocess
import sys

from first_build import TOP


def explains():
    """Whether what goes wrong is explained."""
    return sys.stderr.isatty() or os.environ.get("PAGED_EXPLAIN") == "always"


def meaning(fault, words):
    """The lines of `paged` on a fault of these words, but for its usage."""
    done = subprocess.run([f"{TOP}/build/explain", f"paged: {fault}", *words], stdout=subprocess.PIPE, stderr=subprocess.DEVNULL, check=False)
    return [line for line in done.stdout.decode(errors="replace").splitlines() if not line.startswith("    usage:")]
