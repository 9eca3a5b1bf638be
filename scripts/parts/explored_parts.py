"""Runs of `guest explore` in parts, for scripts/sweep: the parts, what is kept of those that are done, and the table of all."""
import csv
import fcntl
import io
import json
import os
import re

MOST_SEED = 4294967295
COLUMNS = ["times", "first_seed", "bytes", "digest", "ending"]


class Refused(Exception):
    pass


def seeds_in(word):
    """The first seed and the last of `FIRST..LAST`."""
    found = re.fullmatch(r"([0-9]{1,10})\.\.([0-9]{1,10})", word)
    first, last = (int(found[1]), int(found[2])) if found else (1, 0)
    if not first <= last <= MOST_SEED:
        raise Refused(f"--seeds {word}: FIRST..LAST is wanted, two numbers up to {MOST_SEED}")
    return first, last


def parts_of(first, last, runs):
    """The seeds of each part."""
    return [f"{at}..{min(at + runs - 1, last)}" for at in range(first, last + 1, runs)]


def rows_in(text):
    """The rows of a table as `guest explore --csv` prints it, or nothing if it is none."""
    lines = list(csv.reader(io.StringIO(text)))
    if lines[:1] != [COLUMNS] or any(len(row) != len(COLUMNS) or not row[0].isdigit() or not row[1].isdigit() for row in lines[1:]):
        return None
    return lines[1:]


def added_up(tables):
    """The rows of all tables as one run of all seeds would have them: runs that came to the same are added, by their first seed."""
    sums: dict[tuple[str, ...], tuple[int, int]] = {}
    for times, seed, *came in (row for rows in tables for row in rows):
        before = sums.get(tuple(came), (0, int(seed)))
        sums[tuple(came)] = (before[0] + int(times), min(before[1], int(seed)))
    return sorted(([str(times), str(seed), *came] for came, (times, seed) in sums.items()), key=lambda row: int(row[1]))


def text_of(rows):
    out = io.StringIO()
    csv.writer(out, lineterminator="\n").writerows([COLUMNS, *rows])
    return out.getvalue()


class Kept:
    """RESULTS.part: a line that says what is explored, and one for each part that is done."""

    def __init__(self, path, asked):
        self.path, self.part, self.asked = path, f"{path}.part", asked
        self.rows = {}
        try:
            self.file = open(self.part, "a+", encoding="utf-8", newline="")
            fcntl.flock(self.file, fcntl.LOCK_EX | fcntl.LOCK_NB)
        except BlockingIOError:
            raise Refused(f"{path}: another sweep writes it") from None
        except OSError as fault:
            raise Refused(f"{path}: {fault.strerror}") from None

    def read(self, anew):
        """What an earlier call left, which explored the same; a last line that was broken off goes."""
        self.file.seek(0)
        text = self.file.read()
        lines = text[:text.rfind("\n") + 1].splitlines()
        try:
            asked, *done = [json.loads(line) for line in lines] or [None]
            self.rows = dict(done)
        except (ValueError, TypeError):
            raise Refused(f"{self.part}: it is no part of an exploration") from None
        if anew or asked is None:
            self.rows = {}
        elif asked != self.asked:
            raise Refused(f"{self.part}: it is of another exploration; --anew begins anew")
        self.file.truncate(0)
        self.write(self.asked)
        for pair in self.rows.items():
            self.write(pair)

    def write(self, value):
        self.file.write(f"{json.dumps(value)}\n")
        self.file.flush()

    def add(self, seeds, rows):
        self.rows[seeds] = rows
        self.write((seeds, rows))

    def close(self):
        """A file of no parts goes, and one that is not needed any more."""
        if not self.rows and os.path.exists(self.part):
            os.unlink(self.part)
        self.file.close()
