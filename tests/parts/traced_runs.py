"""Runs as `guest trace` tells of them, and their records, for tests of debuggers: what these show is to be what the trace tells of the same run."""
import hashlib
import os
import re
import subprocess

TOP = os.path.dirname(os.path.dirname(os.path.dirname(os.path.realpath(__file__))))
STEP = re.compile(r"(\d+) (\d+) 0x(\w{8}) \w+ (.*)")
WRITTEN = re.compile(r" x(\d+)=0x(\w{8})")
STORED = re.compile(r"\[0x(\w{8})\]=((?:\w\w ?)+)")


def called(*words):
    return subprocess.run([f"{TOP}/guest", *words], stdin=subprocess.DEVNULL, stdout=subprocess.PIPE, stderr=subprocess.DEVNULL, check=False, timeout=60)


def whole(pattern, line):
    """A line as the pattern has it."""
    found = pattern.fullmatch(line)
    assert found, line
    return found


class Traced:
    """A run by turns: of each step the hart, the pc before it and the text with what it changed; its ending and what it writes. With options
    of `guest trace` it is a part of the run, of which the first step has the number 0 here."""

    def __init__(self, image, *options):
        told = called("trace", *options, image).stdout.decode()
        rows = [whole(STEP, line) for line in told.splitlines()]
        self.harts = [int(it[2]) for it in rows]
        self.pcs = [int(it[3], 16) for it in rows]
        self.texts = [it[4] for it in rows]
        if not options:
            ran = called("run", image)
            self.output, self.status = ran.stdout, ran.returncode

    def stands(self, pc):
        """The steps that are taken at an address."""
        return [step for step, at in enumerate(self.pcs) if at == pc]

    def registers(self, step, hart):
        """The registers of a hart that its steps before one have written."""
        found = {}
        for by, text in zip(self.harts[:step], self.texts):
            written = WRITTEN.search(text)
            if by == hart and written:
                found[int(written[1])] = int(written[2], 16)
        return found

    def changes(self, address, first):
        """The steps that change one of some bytes, which were these at first."""
        now, found = bytearray(first), []
        for step, text in enumerate(self.texts):
            stored = STORED.search(text)
            if not stored:
                continue
            was, begin = bytes(now), int(stored[1], 16) - address
            for at, byte in enumerate(bytes.fromhex(stored[2]), begin):
                if 0 <= at < len(now):
                    now[at] = byte
            if now != was:
                found.append(step)
        return found


def by_slices(image, count):
    """The turns of a run by turns of up to so many steps each, and how it ends, of what `guest debug` replies to lines of its own."""
    with subprocess.Popen([f"{TOP}/guest", "debug", image], stdin=subprocess.PIPE, stdout=subprocess.PIPE, stderr=subprocess.DEVNULL, text=True) as run:
        assert run.stdin and run.stdout
        to, replies = run.stdin, run.stdout

        def ask(line):
            to.write(f"{line}\n")
            to.flush()
            return replies.readline().strip()

        turns = []
        while ask("end") == "goes on":
            for hart in range(8):
                if ask("end") == "goes on" and ask(f"live {hart}") == "live":
                    turns.append((hart, int(ask(f"go-hart {hart} {count}").split()[-1])))
        return turns, ask("end")


def joined(harts):
    """The turns of some steps, each of one hart."""
    turns: list[list[int]] = []
    for hart in harts:
        if turns and turns[-1][0] == hart:
            turns[-1][1] += 1
        else:
            turns.append([hart, 1])
    return turns


def print_of(name, content):
    return f"{name} {hashlib.sha256(content).hexdigest()} {len(content)}"


def record_text(image, turns, ending, output, given=b""):
    """A record as crates/run_records describes it."""
    with open(image, "rb") as it:
        content = it.read()
    lines = ["guest-record 1", print_of("image", content), print_of("input", given), *(f"{hart} {count}" for hart, count in turns), ending,
             f"steps {sum(count for _, count in turns)}", print_of("output", output)]
    return "".join(f"{it}\n" for it in lines)
