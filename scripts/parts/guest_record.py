"""The record of a run, as crates/run_records describes its text: which turns the harts had, of which image and input, and how it ended."""
import hashlib
import re

from guest_turns import Turns

TITLE = b"guest-record 1"
WORD, LONG = (1 << 32) - 1, (1 << 64) - 1
MOST_TURNS = 1000000    # of a schedule, each with a word of steps
NUMBER = b"(0|[1-9][0-9]{0,19})"
PRINT = b" ([0-9a-f]{64}) " + NUMBER
TURN = re.compile(NUMBER + b" " + NUMBER)
CAUSES = (0, 2, 3, 4, 6, 12, 13, 15)
KILLS = {1: "there was no room for its pages", 2: "a page of it could not be read back", 3: "a page of it was damaged", 4: "its schedule was full",
         5: "memory ran out", 6: "its limit of steps was reached"}


class NoRecord(ValueError):
    """Why a file is no record, or none of this run."""


class Record:
    """A record that was read. `ending` is as Guest.ending tells it, but None where the machine ended the run, for a reason that `kill` says."""

    def __init__(self, name):
        with open(name, "rb") as it:
            content = it.read()
        self.name, self.turns = name, Turns()
        if content.split(b"\n", 1)[0] != TITLE:
            raise NoRecord(f"{name} is no record of a run: its first line is not {TITLE.decode()!r}")
        if not content.endswith(b"\n"):
            raise NoRecord(f"{name} is cut off: its last line has no end")
        self.lines = content[:-1].split(b"\n")
        self.image, self.input = self.print_of(1, b"image"), self.print_of(2, b"input")
        behind = self.read_turns()
        self.ending, self.kill = self.read_ending(behind)
        steps = self.numbers(behind + 1, b"steps " + NUMBER, LONG)[0]
        self.output = self.print_of(behind + 2, b"output")
        if len(self.lines) > behind + 3:
            raise self.none_at(behind + 3)
        del self.lines
        self.test_turns(steps)

    def none_at(self, at):
        return NoRecord(f"{self.name}: line {at + 1} is none of a record")

    def line(self, at):
        return self.lines[at] if at < len(self.lines) else b""

    def numbers(self, at, pattern, most=WORD):
        """The numbers of a line."""
        found = re.fullmatch(pattern, self.line(at))
        if not found or any(int(it) > most for it in found.groups()):
            raise self.none_at(at)
        return [int(it) for it in found.groups()]

    def print_of(self, at, name):
        """A digest and a length."""
        found = re.fullmatch(name + PRINT, self.line(at))
        if not found or int(found[2]) > LONG:
            raise self.none_at(at)
        return found[1].decode(), int(found[2])

    def read_turns(self):
        """Takes the turns. Answers which line stands behind them."""
        for at in range(3, len(self.lines)):
            found = TURN.fullmatch(self.lines[at])
            hart, count = map(int, found.groups()) if found else (0, 0)
            if not 0 < count <= WORD or hart > WORD:
                return at
            self.turns.add(hart, count)
        return len(self.lines)

    def read_ending(self, at):
        name = self.line(at).partition(b" ")[0]
        if name == b"exited":
            return ("exited", *self.numbers(at, b"exited " + NUMBER)), None
        if name == b"trapped":
            hart, cause, pc, value = self.numbers(at, b"trapped " + b" ".join([NUMBER] * 4))
            if cause in CAUSES:
                return ("trap", cause, hart, pc, value), None
        if name == b"killed":
            cause, = self.numbers(at, b"killed " + NUMBER)
            if cause in KILLS:
                return None, KILLS[cause]
        raise self.none_at(at)

    def told_ending(self):
        """The ending in words."""
        if self.ending is None:
            return f"the machine ended the run, as {self.kill}"
        if self.ending[0] == "exited":
            return f"status {self.ending[1]}"
        return f"trap {self.ending[1]} of hart {self.ending[2]}"

    def test_turns(self, steps):
        if self.turns.end != steps:
            raise NoRecord(f"{self.name}: its turns have {self.turns.end} steps, and it says {steps}")
        turns = self.turns
        if sum(-(-(turns.last(at) - turns.firsts[at]) // WORD) for at in range(len(turns.firsts))) > MOST_TURNS:
            raise NoRecord(f"{self.name} has more turns than a run can have, which are {MOST_TURNS}")

    def test(self, image, given):
        """Refuses another image than the record's, or another input; of no input there is no file."""
        if print_of_file(image) != self.image:
            raise NoRecord(f"{self.name} is a record of another image than {image}")
        if (print_of_file(given) if given else print_of(b"")) != self.input:
            has = f"{given} is another input" if given else "here is no input: --input FILE gives one"
            raise NoRecord(f"{self.name} is a record of a run with an input of {self.input[1]} bytes, and {has}")


def print_of(content):
    return hashlib.sha256(content).hexdigest(), len(content)


def print_of_file(name):
    with open(name, "rb") as it:
        return print_of(it.read())
