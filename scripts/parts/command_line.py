"""What scripts share that are called by words: how these are read, and how a script ends."""
from __future__ import annotations

import argparse
import os
import re
import sys
from collections.abc import Callable, Sequence
from typing import Any, NoReturn

TOP = os.path.dirname(os.path.dirname(os.path.dirname(os.path.realpath(__file__))))
FAULT = 2
STOPPED = 130


class Words(argparse.ArgumentParser):
    """Reads the words of a script. What is wrong with them is a fault of the kind that the script has, after a lead. A word that is no
    option is named before what is missing."""

    def __init__(self, name: str, fault: type[Exception], lead: str = "") -> None:
        super().__init__(prog=name, add_help=False, allow_abbrev=False)
        self.fault, self.lead = fault, lead
        self.known: dict[str, bool] = {}    # each option, and whether a user is told of it

    def add_argument(self, *names: str, **kept: Any) -> argparse.Action:    # type: ignore[override]
        is_told = kept.get("help") != argparse.SUPPRESS
        self.known.update((name, is_told) for name in names if name.startswith("-"))
        return super().add_argument(*names, **kept)

    def error(self, message: str) -> NoReturn:
        raise self.fault(self.lead + message)

    def read(self, words: Sequence[str]) -> argparse.Namespace:
        for word in words:
            if word == "--":
                break
            name = word.partition("=")[0]
            if name.startswith("--") and name not in self.known:
                self.error(f"`{name}` is no option: {', '.join(it for it, is_told in self.known.items() if is_told)} are")
        return self.parse_intermixed_args(words)


def whole(least: int, most: int) -> Callable[[str], int]:
    """Reads a whole number in a range."""
    def read(text: str) -> int:
        if not re.fullmatch("[0-9]{1,10}", text) or not least <= int(text) <= most:
            raise argparse.ArgumentTypeError(f"{text}: a number from {least} to {most} is wanted")
        return int(text)
    return read


def prefix(text: str) -> tuple[str, str]:
    """Reads what a path begins with, and what stands for it."""
    old, is_split, new = text.rpartition("=")
    if not is_split or not old:
        raise argparse.ArgumentTypeError(f"`{text}` is not OLD=NEW")
    return old, new


def in_words(fault: Exception) -> str:
    """What a fault is, for a line: of a file its name and why."""
    if not isinstance(fault, OSError) or not fault.strerror:
        return str(fault)
    return f"{fault.filename}: {fault.strerror}" if fault.filename else fault.strerror


def where(fault: OSError) -> str:
    """The file of a fault. Standard output has no name."""
    return "standard output" if fault.filename is None else str(fault.filename)


def leave_output() -> None:
    """What is left of the output goes nowhere."""
    os.dup2(os.open(os.devnull, os.O_WRONLY), 1)


def tell_version() -> None:
    """Answers --version with the script's name and the version and commit of the sources, and ends the script."""
    if sys.argv[1:] == ["--version"]:
        os.execv(f"{TOP}/build/version", ["version", os.path.basename(sys.argv[0])])


def end(name: str, main: Callable[[list[str]], int | None], faults: tuple[type[Exception], ...] = ()) -> NoReturn:
    """Runs a script, and ends it by its status. A fault, as of a file, is one line. A reader of the output that has enough is no fault."""
    tell_version()
    try:
        status = main(sys.argv[1:]) or 0
        sys.stdout.flush()
    except faults as fault:
        print(f"{name}: {fault}", file=sys.stderr)
        status = FAULT
    except BrokenPipeError:
        leave_output()
        status = 0
    except OSError as why:
        if why.filename is None:
            leave_output()
        print(f"{name}: {where(why)}: {why.strerror}", file=sys.stderr)
        status = FAULT
    except KeyboardInterrupt:
        status = STOPPED
    sys.exit(status)
