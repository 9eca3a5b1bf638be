"""A class: its names, the files that were handed in, and their marks."""
from __future__ import annotations

import codecs
import concurrent.futures
import csv
import hashlib
import hmac
import os
import re
import unicodedata
from collections.abc import Iterable, Iterator, Mapping, Sequence
from dataclasses import dataclass, field
from fractions import Fraction
from typing import TextIO

from first_build import processors
from exercise_base import Fault, Part, Rules, Variant, variant
from grading import Mark, grade
from sheets import printed_lines

MOST_BYTES = 1 << 20
MARKS = ((codecs.BOM_UTF8, "utf-8-sig"), (codecs.BOM_UTF32_LE, "utf-32"), (codecs.BOM_UTF32_BE, "utf-32"), (codecs.BOM_UTF16_LE, "utf-16"),
         (codecs.BOM_UTF16_BE, "utf-16"))
OTHER_FILES = ((b"PK\x03\x04", "a file of a word processor, or a zip"), (b"%PDF", "a PDF"), (b"{\\rtf", "an RTF"),
               (b"\x89PNG", "a picture"), (b"\xff\xd8\xff", "a picture"),
               (b"\xd0\xcf\x11\xe0", "a file of a word processor"))


class Unreadable(Exception):
    """A file that is no text, in words."""


def decoded(data: bytes) -> str:
    """A text in UTF-8, UTF-16 or UTF-32, or in the code page of an old editor."""
    for begin, what in OTHER_FILES:
        if data.startswith(begin):
            raise Unreadable(f"it is {what}, and no plain text")
    encoding = next((encoding for begin, encoding in MARKS if data.startswith(begin)), "")
    if not encoding and b"\0" in data:
        encoding = "utf-16-le" if data[1::2].count(0) > data[::2].count(0) else "utf-16-be"
    for tried in (encoding,) if encoding else ("utf-8", "cp1252"):
        try:
            text = data.decode(tried)
        except UnicodeDecodeError:
            continue
        if not re.search(r"[\x00-\x08\x0e-\x1f]", text):
            return text.replace("\r\n", "\n").replace("\r", "\n").removeprefix("\ufeff")
    raise Unreadable("it is no plain text")


def text_of(file: str) -> str:
    try:
        with open(file, "rb") as it:
            data = it.read(MOST_BYTES + 1)
    except OSError as why:
        raise Unreadable(str(why.strerror)) from None
    if len(data) > MOST_BYTES:
        raise Unreadable("it has more than a megabyte")
    return decoded(data)


def names_in(file: str) -> list[str]:
    """The names of a class, a line each."""
    try:
        text = text_of(file)
    except Unreadable as why:
        raise Fault(f"{file}: {why}") from None
    names = [line.strip() for line in text.split("\n") if line.strip() and not line.startswith("#")]
    if not names:
        raise Fault(f"{file} has no name")
    seen: dict[str, str] = {}
    for name in names:
        if "/" in name or name.startswith("."):
            raise Fault(f"{file}: {name} is no name of a file")
        if folded(name) in seen:
            raise Fault(f"{file} has the name {name} twice" + ("" if seen[folded(name)] == name
                                                                         else f", once as {seen[folded(name)]}"))
        seen[folded(name)] = name
    return names


def folded(name: str) -> str:
    """A name as it may be written in the name of a file."""
    return " ".join(re.sub(r"[\W_]+", " ", unicodedata.normalize("NFKC", name).casefold()).split())


# The variants of a class

def sheet_seed(key: str, name: str) -> str:
    """The seed of a name on a sheet, which nobody finds without the teacher's word."""
    return "sheet " + hmac.new(key.encode(), name.encode(), hashlib.sha256).hexdigest()


def variants(numbers: Sequence[int], names: Sequence[str], key: str, rules: Rules) -> Iterator[tuple[str, int, Variant]]:
    """The variants of names, in their order. After the first, which may have to build the machine, several are made at a time."""
    jobs = [(name, number) for name in names for number in numbers]

    def made(job: tuple[str, int]) -> Variant:
        return variant(job[1], sheet_seed(key, job[0]), rules)
    yield (*jobs[0], made(jobs[0]))
    pool = concurrent.futures.ThreadPoolExecutor(processors())
    try:
        yield from ((*job, found) for job, found in zip(jobs[1:], pool.map(made, jobs[1:])))
    finally:
        pool.shutdown(cancel_futures=True)


# Files

@dataclass
class Handed:
    """What was handed in by a name: texts, each of one exercise or of all (None), and what is wrong with other files."""
    texts: list[tuple[int | None, str]] = field(default_factory=list)
    faults: list[str] = field(default_factory=list)

    def of(self, number: int, numbers: Sequence[int]) -> str | None:
        """What stands there on an exercise; None where there is no file."""
        own = [text for which, text in self.texts if which == number]
        whole = [text for which, text in self.texts if which is None]
        if own:
            return "\n".join(own)
        if not whole:
            return None
        return "\n".join(whole) if len(numbers) == 1 else section(whole, number, numbers)


HEADING = re.compile(r"\W*(?:(?:exercise|ex|aufgabe|task|question|problem|no|nr)\b\W*(\d+)\b(?!\s*[a-z][.):]).*|(\d+)\s*[.):]\W*|"
                     r"(?:(?:exercise|ex|question|task|problem)\W*)?(\d+)\s*[.)-]?\s*[a-h]\s*[.):].*)", re.I)


def section(texts: Sequence[str], number: int, numbers: Sequence[int]) -> str | None:
    """The part of a text on one of several exercises, by its headings."""
    found: list[str] = []
    for text in texts:
        here = False
        for line in text.split("\n"):
            at = HEADING.fullmatch(line.strip())
            which = int(at[1] or at[2] or at[3]) if at else None
            if which in numbers:
                here = which == number
            if here:
                found.append(line)
    return "\n".join(found) if found else None


class Folder:
    """A folder of hand-ins, sorted by the names of a class."""

    def __init__(self, folder: str, names: Sequence[str], numbers: Sequence[int]):
        if not os.path.isdir(folder):
            raise Fault(f"{folder}: no such folder")
        self.keys = {folded(name): name for name in names}
        self.numbers = numbers
        self.handed = {name: Handed() for name in names}
        self.strays: list[str] = []
        for entry in sorted(os.listdir(folder)):
            if not entry.startswith("."):
                self.take(f"{folder}/{entry}")

    def take(self, file: str) -> None:
        stem = os.path.basename(file) if os.path.isdir(file) else os.path.splitext(os.path.basename(file))[0]
        name, number = self.owner(stem)
        if name is None:
            self.strays.append(file)
        elif os.path.isdir(file):
            for entry in sorted(os.listdir(file)):
                if not entry.startswith("."):
                    inner = re.search(r"(\d+)\D*$", os.path.splitext(entry)[0])
                    self.read(name, int(inner[1]) if inner and int(inner[1]) in self.numbers else number, f"{file}/{entry}")
        else:
            self.read(name, number, file)

    def owner(self, stem: str) -> tuple[str | None, int | None]:
        """Whose file it is, by its name without the ending: the name itself, which an exercise's number, `form` or what a course's site
        adds may follow."""
        key = re.sub(r" \d+ assignsubmission.*$", "", folded(stem))
        if key in self.keys:
            return self.keys[key], None
        at = re.fullmatch(r"(.*?) (?:(?:ex|exercise|sheet) ?)?(\d+)", key)
        if at and at[1] in self.keys and int(at[2]) in self.numbers:
            return self.keys[at[1]], int(at[2])
        plain = re.sub(r" (?:form|answers?|solutions?|sheet)$", "", key)
        return self.keys.get(plain), None

    def read(self, name: str, number: int | None, file: str) -> None:
        if file.lower().endswith((".html", ".htm")):    # the page to print lies beside the form
            return
        try:
            self.handed[name].texts.append((number, text_of(file)))
        except Unreadable as why:
            self.handed[name].faults.append(f"{file}: {why}")


# Marks

Points = Mapping[int, Fraction]
COLUMNS = ("name", "exercise", "part", "right", "points", "answer", "reason")


@dataclass
class Marked:
    """The marks of a name in an exercise, or why there are none."""
    name: str
    number: int
    parts: Sequence[Part]
    marks: Sequence[Mark]
    fault: str = ""

    def points(self, points: Points) -> Fraction:
        """What one right part counts."""
        return points.get(self.number, Fraction(len(self.parts))) / len(self.parts)


def marked(numbers: Sequence[int], names: Sequence[str], key: str, rules: Rules, folder: Folder) -> Iterator[Marked]:
    for name, number, made in variants(numbers, names, key, rules):
        handed = folder.handed[name]
        text = handed.of(number, numbers)
        if text is None:
            missing = "no file of answers" if not handed.texts else "nothing is said of this exercise"
            yield Marked(name, number, made.parts, [], "; ".join(handed.faults) or missing)
        else:
            yield Marked(name, number, made.parts, grade(made.parts, text, number, name, printed_lines(made)))


def in_points(number: Fraction) -> str:
    return f"{float(number):.2f}".rstrip("0").rstrip(".")


def safe(text: str) -> str:
    """A text that no spreadsheet takes for a formula."""
    text = " / ".join(text.split("\n"))
    return "'" + text if re.match(r"[=+@\t]|-(?![\d.])", text) else text


def write_marks(rows: Iterable[Marked], points: Points, out: TextIO) -> None:
    """A row for each part of each exercise of each name."""
    table = csv.writer(out, lineterminator="\n")
    table.writerow(COLUMNS)
    for row in rows:
        if row.fault:
            for part in row.parts:
                table.writerow([row.name, row.number, part.name, 0, 0, "", row.fault])
        for mark in row.marks:
            reason = "" if mark.is_right else mark.in_words()
            worth = in_points(row.points(points)) if mark.is_right else 0
            table.writerow([row.name, row.number, mark.part.name, int(mark.is_right), worth, safe(mark.said), reason])


def write_totals(numbers: Sequence[int], rows: Iterable[Marked], points: Points, out: TextIO) -> None:
    """A row for each name, with its points in each exercise and in all."""
    table = csv.writer(out, lineterminator="\n")
    table.writerow(["name", *(f"exercise {number}" for number in numbers), "total", "of", "remark"])
    told: dict[str, list[Marked]] = {}
    for row in rows:
        told.setdefault(row.name, []).append(row)
    for name, own in told.items():
        got = [row.points(points) * sum(mark.is_right for mark in row.marks) for row in own]
        most = sum((row.points(points) * len(row.parts) for row in own), Fraction(0))
        table.writerow([name, *map(in_points, got), in_points(sum(got, Fraction(0))), in_points(most),
                        "; ".join(dict.fromkeys(row.fault for row in own if row.fault))])
