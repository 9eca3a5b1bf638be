"""Replacement policies by the rules of textbooks, on a string of references, with the bits that each of them keeps."""
from __future__ import annotations

import re
from collections.abc import Iterator, Sequence
from dataclasses import dataclass, field
from typing import Any, ClassVar

FREE = "-"
TICK = "tick"    # in a string: the clock's interrupt
COUNTER_BITS = 8    # of aging
Step = dict[str, Any]    # what is seen of a policy after a reference


@dataclass
class Frame:
    page: str | None = None
    came: int = 0    # its page's place in the order of coming
    last: int = 0    # the one that used it last
    used: bool = False    # R
    changed: bool = False    # M
    count: int = 0    # uses since it came
    seen: int = 0    # of WSClock: when it was used, as the hand knows
    counter: int = 0    # of aging


@dataclass
class Options:
    """What may be chosen besides the policy."""
    arrival: str = "marked"    # whether a page comes in with its mark of use
    every: int = 0    # references from tick to tick; none without ticks
    tau: int = 0    # WSClock's working set is as many references long; without it twice as many as frames
    start: Sequence[tuple[str, bool, bool]] = ()    # pages that are in frames at first, with R and M


@dataclass
class Table:
    """The frames, the string, and where the policy is in it."""
    frames: list[Frame]
    string: Sequence[str]
    tau: int
    at: int = 0
    hand: int = 0
    comings: int = 0    # of pages that came so far, or count as new

    def come(self) -> int:
        self.comings += 1
        return self.comings

    def place_of(self, page: str | None) -> int | None:
        return next((k for k, frame in enumerate(self.frames) if frame.page == page), None)

    def turn(self) -> Frame:
        """The frame at the hand, which goes on."""
        frame = self.frames[self.hand]
        self.hand = (self.hand + 1) % len(self.frames)
        return frame


@dataclass
class Policy:
    """FIFO, and what other policies change in it."""
    table: Table
    name: ClassVar[str] = "fifo"
    book: ClassVar[str] = ""
    legend: ClassVar[str] = ""
    has_hand: ClassVar[bool] = False

    @property
    def frames(self) -> list[Frame]:
        return self.table.frames

    def victim(self) -> tuple[int, str]:
        return min(range(len(self.frames)), key=lambda k: self.frames[k].came), "it came in first"

    def tick(self) -> None:
        """An interrupt of the clock, which only some policies know."""

    def mark(self, frame: Frame) -> str:
        return ""


class Lru(Policy):
    name = "lru"

    def victim(self) -> tuple[int, str]:
        place = min(range(len(self.frames)), key=lambda k: self.frames[k].last)
        return place, f"its last use was {self.table.at - self.frames[place].last} references ago"


class Mru(Policy):
    name = "mru"
    book = "Ramakrishnan and Gehrke, Database Management Systems, 9.4"

    def victim(self) -> tuple[int, str]:
        place = max(range(len(self.frames)), key=lambda k: self.frames[k].last)
        return place, f"its last use was {self.table.at - self.frames[place].last} references ago, the latest"


class Lfu(Policy):
    name = "lfu"
    book = "Silberschatz, Galvin and Gagne, Operating System Concepts, 10.4.6; of equals the one that came in first"
    legend = ":N N uses since it came in"

    def victim(self) -> tuple[int, str]:
        place = min(range(len(self.frames)), key=lambda k: (self.frames[k].count, self.frames[k].came))
        return place, f"it was used {self.frames[place].count} times"

    def mark(self, frame: Frame) -> str:
        return f":{frame.count}"


class Clock(Policy):
    name = "clock"
    legend = "* used, > the hand"
    has_hand = True

    def victim(self) -> tuple[int, str]:
        passed = []
        while self.frames[self.table.hand].used:
            frame = self.table.turn()
            frame.used = False
            passed.append(str(frame.page))
        place = self.table.hand
        self.table.turn()
        return place, "the hand " + (f"passed {', '.join(passed)} and " if passed else "") + "found it not used"

    def mark(self, frame: Frame) -> str:
        return "*" if frame.used else " "


class SecondChance(Policy):
    name = "second-chance"
    book = "Tanenbaum and Bos, Modern Operating Systems, 3.4.4"
    legend = "* used (R)"

    def victim(self) -> tuple[int, str]:
        passed: list[str] = []
        while True:
            place = min(range(len(self.frames)), key=lambda k: self.frames[k].came)
            frame = self.frames[place]
            if not frame.used:
                chance = f"{', '.join(passed)} got a second chance, and it is the oldest not used"
                return place, chance if passed else "it came in first"
            frame.used, frame.came = False, self.table.come()    # as if it came in now
            passed.append(str(frame.page))

    def mark(self, frame: Frame) -> str:
        return "*" if frame.used else " "


class Nru(Policy):
    name = "nru"
    book = "Tanenbaum and Bos, Modern Operating Systems, 3.4.2; of a class the page in the first frame, where the book draws one"
    legend = "* used (R), m changed (M)"

    def tick(self) -> None:
        for frame in self.frames:
            frame.used = False

    def victim(self) -> tuple[int, str]:
        place = min(range(len(self.frames)), key=lambda k: (self.class_of(k), k))
        return place, f"it is of class {self.class_of(place)}, the lowest"

    def class_of(self, place: int) -> int:
        return 2 * self.frames[place].used + self.frames[place].changed

    def mark(self, frame: Frame) -> str:
        return ("*" if frame.used else " ") + ("m" if frame.changed else " ")


class Aging(Policy):
    name = "aging"
    book = "Tanenbaum and Bos, Modern Operating Systems, 3.4.7; of equals the page in the first frame"
    legend = f"* used (R), :B its counter of {COUNTER_BITS} bits"

    def victim(self) -> tuple[int, str]:
        place = min(range(len(self.frames)), key=lambda k: (self.frames[k].counter, k))
        return place, f"its counter is the lowest, {self.frames[place].counter:0{COUNTER_BITS}b}"

    def tick(self) -> None:
        for frame in self.frames:
            frame.counter, frame.used = frame.counter >> 1 | frame.used << COUNTER_BITS - 1, False

    def mark(self, frame: Frame) -> str:
        return ("*" if frame.used else " ") + f":{frame.counter:0{COUNTER_BITS}b}"


class Clock2(Policy):
    name = "clock2"
    book = "Stallings, Operating Systems: Internals and Design Principles, 8.2 (as Silberschatz, 10.4.5.3)"
    legend = "* used, m changed, > the hand"
    has_hand = True

    def victim(self) -> tuple[int, str]:
        for turn in range(4):
            found = self.scan(turn % 2 == 1)
            if found is not None:
                return found, f"not used and {'changed' if turn % 2 else 'not changed'}, in turn {turn + 1} of the hand"
        raise AssertionError("after two turns no page is used")

    def scan(self, is_changed: bool) -> int | None:
        """One turn, for a page that is not used. The turn that looks for a changed one clears the marks that it passes."""
        for _ in self.frames:
            place, frame = self.table.hand, self.table.turn()
            if not frame.used and frame.changed == is_changed:
                return place
            if is_changed:
                frame.used = False
        return None

    def mark(self, frame: Frame) -> str:
        return ("*" if frame.used else " ") + ("m" if frame.changed else " ")


class WsClock(Policy):
    name = "wsclock"
    book = ("Tanenbaum and Bos, Modern Operating Systems, 3.4.9; time is the number of the reference, and a page is written by "
            "the hand's next turn")
    legend = "* used (R), m changed (M), @T used at T when the hand last saw it, > the hand"
    has_hand = True

    def victim(self) -> tuple[int, str]:
        """Up to two turns: the second finds the pages clean that the first has had written."""
        now = self.table.at + 1
        for turn in range(2):
            wrote = False
            for _ in self.frames:
                place, frame = self.table.hand, self.table.turn()
                if frame.used:
                    frame.used, frame.seen = False, now
                elif now - frame.seen > self.table.tau:
                    if not frame.changed:
                        return place, f"not used for {now - frame.seen} references, which is more than {self.table.tau}, and not changed"
                    frame.changed, wrote = False, True
            if not wrote:
                break
        clean = [k for k, frame in enumerate(self.frames) if not frame.changed]
        place = min(clean, key=lambda k: (k - self.table.hand) % len(self.frames)) if clean else self.table.hand
        self.table.hand = (place + 1) % len(self.frames)
        return place, "all are in the working set, and it is the first " + ("not changed" if clean
                                                                            else "of all, and is written") + " from the hand on"

    def mark(self, frame: Frame) -> str:
        return ("*" if frame.used else " ") + ("m" if frame.changed else " ") + f"@{frame.seen}"


class Optimum(Policy):
    name = "optimum"

    def victim(self) -> tuple[int, str]:
        string, at = self.table.string, self.table.at
        never = len(string) + 1
        ahead = [next((k - at for k in range(at + 1, len(string)) if string[k] == frame.page), never) for frame in self.frames]
        place = max(range(len(ahead)), key=lambda k: ahead[k])
        return place, "it is never used again" if ahead[place] == never else f"its next use is farthest, {ahead[place]} references on"


POLICIES: dict[str, type[Policy]] = {it.name: it for it in (Policy, Clock, Lru, Optimum, SecondChance, Nru, Aging, Lfu, Mru, Clock2,
                                                            WsClock)}
FOUR = ("fifo", "clock", "lru", "optimum")
NAMES = tuple(POLICIES)


def is_write(word: str) -> bool:
    return re.fullmatch(r"\d+w|.+:w", word) is not None


def page_in(word: str) -> str:
    """The page of a reference, which may be a write: 5w, or any word with :w after it."""
    return word.removesuffix("w").removesuffix(":") if is_write(word) else word


def marks_of(policy: Policy) -> list[str]:
    """What the policy keeps of each page; of a free frame a blank, where others have a mark."""
    return [policy.mark(frame) if frame.page is not None else " " if policy.has_hand else "" for frame in policy.frames]


@dataclass
class Playing:
    """A policy that plays a string."""
    policy: Policy
    options: Options
    film: list[Step] = field(default_factory=list)

    def refer(self, at: int, word: str) -> None:
        table, page = self.policy.table, page_in(word)
        table.at = at
        place, out, why = table.place_of(page), None, ""
        hit = place is not None
        if place is None:
            place = table.place_of(None)
            if place is None:
                place, why = self.policy.victim()
                out = table.frames[place].page
            elif self.policy.has_hand:
                table.hand = (place + 1) % len(table.frames)
            table.frames[place] = Frame(page, table.come(), seen=at + 1)
        self.use(table.frames[place], at, hit, is_write(word))
        if self.options.every and (at + 1) % self.options.every == 0:
            self.policy.tick()
        self.film.append(self.step(page, hit, place, out, why))

    def use(self, frame: Frame, at: int, hit: bool, writes: bool) -> None:
        frame.used = frame.used or hit or self.options.arrival == "marked"
        frame.changed = frame.changed or writes
        frame.last = at
        frame.count += 1

    def step(self, page: str, hit: bool, place: int, out: str | None, why: str) -> Step:
        frames = self.policy.frames
        return {"page": page, "hit": hit, "frames": [frame.page for frame in frames], "used": [frame.used for frame in frames],
                "marks": marks_of(self.policy), "hand": self.policy.table.hand, "place": place, "out": out, "why": why}


def play(name: str, count: int, string: Sequence[str], arrival: str = "marked", options: Options | None = None) -> list[Step]:
    """What happens at each reference: whether it hits, and the frames after it."""
    chosen = options or Options(arrival)
    references = [word for word in string if word != TICK]
    first = len(chosen.start)
    frames = [Frame(page, k - first, k - first, used, changed) for k, (page, used, changed) in enumerate(chosen.start)] + [Frame()
            for _ in range(count - first)]
    table = Table(frames, [page_in(word) for word in references], chosen.tau or 2 * count, hand=first % count)
    playing = Playing(POLICIES[name](table), chosen)
    at = 0
    for word in string:
        if word == TICK:
            playing.policy.tick()
            if playing.film:
                playing.film[-1] = {**playing.film[-1], "used": [frame.used for frame in table.frames], "marks": marks_of(playing.policy)}
        else:
            playing.refer(at, word)
            at += 1
    return playing.film


def misses(film: Sequence[Step]) -> int:
    return sum(not step["hit"] for step in film)


# What is printed

def shown(name: str, step: Step) -> list[str]:
    """The frames after a reference, with the policy's marks and its hand."""
    policy = POLICIES[name]
    cells = [(page or FREE) + mark for page, mark in zip(step["frames"], step["marks"])]
    if policy.has_hand:
        cells = [(">" if k == step["hand"] else " ") + cell for k, cell in enumerate(cells)]
    return cells


def frames_text(*counts: int) -> str:
    """Numbers of frames in words."""
    return " and ".join(map(str, counts)) + (" frame" if counts == (1,) else " frames")


def heading(name: str, *counts: int) -> str:
    legend = POLICIES[name].legend
    return f"{name}, {frames_text(*counts)}" + (f"; {legend}" if legend else "")


Films = list[tuple[int, list[Step]]]    # for each number of frames what happens at each reference


def tell(name: str, films: Films, times: tuple[float, float] | None) -> Iterator[str]:
    """A line for each reference; those of several numbers of frames side by side."""
    yield heading(name, *(count for count, _ in films))
    string = [step["page"] for step in films[0][1]]
    wide = max([1] + [len(page) for page in string])
    blocks = [list(block_of(name, film)) for _, film in films]
    widths = [max(map(len, block), default=0) for block in blocks]
    for at, page in enumerate(string):
        told = " | ".join(f"{block[at]:{width}}" for block, width in zip(blocks, widths))
        notes = [f"{film[at]['out']} leaves{f' the {count}' if len(films) > 1 else ''}: {film[at]['why']}" for count,
                 film in films if film[at]["out"]]
        yield f"  {page:>{wide}}  {told}   {'; '.join(notes)}".rstrip()
    for count, film in films:
        of = f" with {frames_text(count)}" if len(films) > 1 else ""
        yield f"  misses {misses(film)} of {len(film)}{of}{access_time(misses(film), len(film), times)}"


def block_of(name: str, film: list[Step]) -> Iterator[str]:
    """For each reference whether it hits, and the frames after it."""
    cell = max([1] + [len(text) for step in film for text in shown(name, step)])
    for step in film:
        yield f"{'hit' if step['hit'] else 'miss':4}  {' '.join(f'{text:{cell}}' for text in shown(name, step))}"


def grid(name: str, count: int, film: list[Step]) -> Iterator[str]:
    return grid_of(heading(name, count), film, [shown(name, step) for step in film])


def grid_of(title: str, film: list[Step], columns: list[list[str]]) -> Iterator[str]:
    """A column for each reference: its page, the frames after it, and a star where it missed."""
    cell = max([1] + [len(text) for step, column in zip(film, columns) for text in (step["page"], *column)])
    yield title
    yield "  " + " ".join(f"{step['page']:^{cell}}" for step in film).rstrip()
    yield "  " + "-" * ((cell + 1) * len(film) - 1)
    for row in zip(*columns):
        yield "  " + " ".join(f"{text:^{cell}}" for text in row).rstrip()
    yield "  " + " ".join(f"{'' if step['hit'] else '*':^{cell}}" for step in film).rstrip()
    yield f"  misses {misses(film)} of {len(film)}"


def access_time(missed: int, count: int, times: tuple[float, float] | None) -> str:
    if not times or not count:
        return ""
    memory, fault = times
    return f"; effective access time {plain(memory)} + {missed}/{count} * {plain(fault)} = {plain(memory + missed * fault / count)}"


def plain(number: float) -> str:
    """A number with two places at most, and none where they are 0."""
    return f"{number:.2f}".rstrip("0").rstrip(".")
