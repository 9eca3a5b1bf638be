"""Which hart took each step of a run, and `guest debug` as a program that is asked line by line."""
import array
import bisect
import contextlib
import os
import signal
import subprocess
import tempfile

HARTS = 8
BY_TURNS = -1    # in place of a hart: the harts took turns of one step each
PIECE = 1000000    # steps of a line, so that a trip can be ended


def never():
    return False


class Refused(Exception):
    """A line was refused, for the reason of this number; or what was asked for can't be done, in these words."""

    def __init__(self, number, words=None):
        super().__init__(words or WHY.get(number, f"refused {number}"))
        self.number = number


class Gone(Exception):
    """The program that is driven has ended, and said this."""


class Interrupted(Exception):
    """The caller has ended a way back; what is shown stands where it stood."""


WHY = {1: "there are 32 points already", 2: "so many bytes can not be looked at, or do not end below 2^32", 3: "there is no such point",
       4: "there is no such hart", 5: "the program has ended", 6: "no page is mapped there", 7: "the page was given back",
       8: "a page could not be read back", 9: "memory ran out"}


class Turns:
    """Pieces of a run, each of one hart or by turns, with its first step; and where the last one ends."""

    def __init__(self):
        self.harts, self.firsts, self.end = array.array("q"), array.array("Q"), 0

    def add(self, hart, count):
        """Steps behind the last one."""
        if count and (not self.harts or self.harts[-1] != hart):
            self.harts.append(hart)
            self.firsts.append(self.end)
        self.end += count

    def index(self, step):
        return bisect.bisect_right(self.firsts, step) - 1

    def last(self, index):
        """The step behind a piece."""
        return self.firsts[index + 1] if index + 1 < len(self.firsts) else self.end

    def at(self, step):
        """The hart of a step, or that it is by turns, and how many steps its piece has from there on."""
        index = self.index(step)
        return self.harts[index], self.last(index) - step

    def pieces(self, step, end):
        """The pieces from one step to another one, none longer than a line is to be."""
        while step < end:
            hart, count = self.at(step)
            count = min(count, end - step, PIECE)
            yield hart, count
            step += count

    def pieces_before(self, step):
        """The pieces before a step, the last one first: the hart, the first step and the step behind the last."""
        for index in range(self.index(step - 1) if step else -1, -1, -1):
            yield self.harts[index], self.firsts[index], min(step, self.last(index))

    def take(self, step, hart, count):
        """Steps that were taken from a step on. Where others had been taken there once, those are forgotten; answers from which step on, or None."""
        while count and step < self.end:
            known, left = self.at(step)
            if known != hart:
                self.cut(step)
                self.add(hart, count)
                return step
            done = min(count, left)
            step, count = step + done, count - done
        self.add(hart, count)
        return None

    def cut(self, step):
        self.end = step
        count = bisect.bisect_left(self.firsts, step)
        del self.firsts[count:], self.harts[count:]


def line_of(hart, count):
    return f"run {count}" if hart == BY_TURNS else f"go-hart {hart} {count}"


class Told:
    """The reply to a line that runs: why it stopped, at which point, whose steps were the last and are the next, and how many were done."""

    def __init__(self, reply):
        words = reply.split()
        self.why, self.number = words[0], int(words[1]) if words[0] in ("break", "watch") else None
        self.last, self.turn, self.steps = (int(words[at]) for at in (-5, -3, -1))


class Driven:
    """A `guest debug` that runs."""

    def __init__(self, words):
        self.complaints = tempfile.TemporaryFile()
        before = signal.signal(signal.SIGINT, signal.SIG_IGN)    # Ctrl-C is ours
        try:
            env = os.environ | {"PAGED_EXPLAIN": "never"}    # the process that is started is the program then
            self.run = subprocess.Popen(words, stdin=subprocess.PIPE, stdout=subprocess.PIPE, stderr=self.complaints, text=True, env=env)
        finally:
            signal.signal(signal.SIGINT, before)
        assert self.run.stdin and self.run.stdout    # both are pipes
        self.lines, self.replies = self.run.stdin, self.run.stdout

    def ask(self, line, lines=1):
        """The reply to a line, which has so many lines. One that says `refused N` is an exception."""
        try:
            self.lines.write(f"{line}\n")
            self.lines.flush()
        except BrokenPipeError:
            raise Gone(self.complaint()) from None
        replies = [self.reply() for _ in range(lines)]
        return replies[0] if lines == 1 else replies

    def reply(self):
        line = self.replies.readline()
        if not line:
            raise Gone(self.complaint())
        if line.startswith("refused "):
            raise Refused(int(line.split()[1]))
        return line.strip()

    def complaint(self):
        """What the program that is driven said of its end."""
        self.run.wait()
        self.complaints.seek(0)
        lines = self.complaints.read().decode(errors="replace").strip().splitlines()
        return lines[0] if lines else "the debugger has ended"

    def close(self):
        self.run.kill()
        with contextlib.suppress(BrokenPipeError):
            self.lines.close()
        self.replies.close()
        self.run.wait()
        self.complaints.close()
