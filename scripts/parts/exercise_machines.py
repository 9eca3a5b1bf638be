"""Exercises on machines: the replies to their events, and what their runs cost. What is right is what `paged` says."""
from __future__ import annotations

import functools
import random
import re
import tempfile
from collections.abc import Iterator, Sequence
from fractions import Fraction
from typing import Any

from answers import Amount, Asked, Fact, Names, Replied
from exercise_base import STACK, TEXT, TOP, Part, Variant, drive, exercise, paged, unlike
from exercise_times import loop_source


# 7. A shootdown with two harts

TWO_HARTS = """        la   a0, child
        li   a1, 0
        li   a2, 0
        li   a7, 1024           # starts a hart at child
        ecall
        nop
        nop
        nop
        nop
        nop
child:  nop
        nop
        nop
        nop
        nop
        nop
        nop
        nop""".split("\n")


class Uses:
    """Which hart reaches page 16 by which translation, event by event, with the words for each reply."""

    def __init__(self) -> None:
        self.doomed: dict[int, int | None] = {}    # by harts: at which event the translation was doomed
        self.walked: dict[int, int] = {}
        self.came = 0
        self.asked: int | None = None
        self.freed: int | None = None
        self.asked_unused: int | None = None    # when the page was asked that nothing uses

    def heed(self, number: int, line: str, reply: str) -> str:
        """The reason for a reply to the event of this number."""
        event, *numbers = line.split()
        told: str = getattr(self, event)(number, reply, *map(int, numbers))
        return told

    def pagein(self, number: int, reply: str, _: int, page: int) -> str:
        if page == TEXT:
            self.came = number
        return "the page was in no frame"

    def step(self, number: int, reply: str, _: int, hart: int) -> str:
        if reply.startswith("absent"):
            self.doomed.pop(hart, None)
            if hart not in self.walked:
                return (f"hart {hart} never ran, so that it has no translation of page 16, and its walk finds V clear since event "
                        f"{self.asked}")
            return (f"hart {hart} has no translation of page 16 left, and its walk finds V clear since event {self.asked}; "
                    "all that it had cached is dropped")
        if reply.startswith("refused"):
            return f"hart {hart} was not started, or is done"
        if hart in self.doomed:
            doomed = self.doomed[hart]
            end = f" and that event {doomed} doomed: no walk, so that nothing is set" if doomed else ""
            return f"hart {hart} runs by the translation that it walked for at event {self.walked[hart]}{end}"
        self.doomed[hart], self.walked[hart] = None, number
        return f"hart {hart} has no translation of page 16, and walks: this sets the accessed bit"

    def sweep(self, number: int, reply: str) -> str:
        if reply.startswith("refused"):
            return "no page is resident any more, so that none can be asked"
        found = re.search(r"/(\d+)", reply)
        if found is None or int(found[1]) != TEXT:
            return self.sweep_unused(number, reply)
        since, self.asked = self.asked or self.came, number
        walks = [f"hart {hart} at event {at}" for hart, at in self.walked.items() if at > since]
        self.doomed = {hart: doomed or number for hart, doomed in self.doomed.items()}
        if reply.endswith("one"):
            return f"a walk has set the bit: {', '.join(walks)}" if walks else "it came in with its bit set"
        return f"no walk led to the page since event {since}, which cleared the bit; {self.after_zero(reply)}"

    def sweep_unused(self, number: int, reply: str) -> str:
        before, self.asked_unused = self.asked_unused, number
        if reply.endswith("one"):
            return "it came in with its bit set, and has not been asked before"
        return f"event {before} cleared its bit, and nothing uses the page; {self.after_zero(reply)}"

    @staticmethod
    def after_zero(reply: str) -> str:
        return "it is cold, so that it leaves" if reply.startswith("victim") else "it was hot, so that it only turns cold"

    def notice(self, number: int, reply: str, _: int, hart: int) -> str:
        had = self.doomed.get(hart)
        if had:
            del self.doomed[hart]
        return f"hart {hart} drops the translation that event {had} doomed" if had else f"hart {hart} has no doomed translation to drop"

    def collect(self, number: int, reply: str, _: int, page: int) -> str:
        if reply == "not yet":
            verb = "has" if len(self.doomed) == 1 else "have"
            return f"hart {' and hart '.join(map(str, sorted(self.doomed)))} still {verb} a translation of the page"
        if reply == "freed":
            self.freed = number
            return "no hart has a translation of the page, and it was not changed"
        return f"page 16 is not leaving: its frame was freed at event {self.freed}"


def reasons(lines: Sequence[str], replies: Sequence[str]) -> list[str]:
    uses = Uses()
    return [uses.heed(number, line, reply) for number, (line, reply) in enumerate(zip(lines, replies), 1)]


def cut_after(replies: list[str], last: str, more: int, stops: str = "refused 6") -> int | None:
    """How many events stand up to the first with this reply and some more, before one that is not to be seen; None where it does not
    come."""
    if last not in replies:
        return None
    count = replies.index(last) + 1
    rest = replies[count:count + more]
    return count + (rest.index(stops) if stops in rest else len(rest))


def numbered(lines: Sequence[str], first: int = 1) -> list[str]:
    """Events with their numbers, by which they can be answered."""
    return [f"  {number:2}  {line}" for number, line in enumerate(lines, first)]


def event_parts(lines: Sequence[str], replies: Sequence[str], whys: Sequence[str], only_page: int | None, first: int = 1) -> list[Part]:
    """The reply to each event, from the event of the first number on."""
    parts = []
    for number, (line, reply, why) in enumerate(zip(lines, replies, whys), first):
        page = int(line.split()[2]) if line.startswith(("pagein", "collect")) else None
        answer = Replied(reply, only_page, event_page=page, shown=reply, form="a reply of those above, as `absent 99`")
        parts.append(Part(line, answer, why, number))
    return parts


def answer_lines(lines: Sequence[str], replies: Sequence[str], wide: int, first: int = 1) -> list[str]:
    return [f"{number:2}  {line:{wide}} {reply}" for number, (line, reply) in enumerate(zip(lines, replies), first)]


@exercise(7, "a shootdown with two harts")
def shootdown(draw: random.Random) -> Variant:
    before = ["pagein 0 16"] + ["step 0 0"] * 6
    ran = [draw.randrange(0, 3), draw.randrange(0, 3)]
    before += ["step 0 0"] * ran[0] + ["step 0 1"] * ran[1] + ["sweep"] * 3
    after = [draw.choice(("collect 0 16", "collect 0 16", "notice 0 0", "notice 0 1", "step 0 0", "step 0 1")) for _ in range(20)]
    replies = drive(4, 4, before + after, TWO_HARTS)
    count = cut_after(replies[len(before):], "freed", draw.randrange(1, 4)) or 20
    lines, replies = before + after[:count], replies[:len(before) + count]
    told = replies[len(before):]
    question = ["Two harts on one page, 16, by a machine of four frames (its sixth instruction starts hart 1):", "",
                *("  " + line for line in TWO_HARTS), "",
                "These events come first, the last of them is the page's turn to leave:", "",
                *("  " + line for line in answer_lines(before, replies, 14)), "", "Say the reply to each of those that follow:", "",
                *numbered(lines[len(before):], len(before) + 1), "",
                "The replies are `ran`; `absent 16`; `noticed`; `not yet`, `freed`, and `refused 7` (the page is not leaving); `refused "
                "2` (no such hart",
                "was started, or it is done). The number of a refusal may be left out."]
    first = len(before) + 1
    parts = event_parts(lines[len(before):], told, reasons(lines, replies)[len(before):], TEXT, first)
    return Variant({"lines": lines, "frames": 4, "told": len(before), "source": TWO_HARTS}, question,
                   answer_lines(lines[len(before):], told, 14, first), told, parts,
                   6 <= count <= 12 and "freed" in told and "not yet" in told[:told.index("freed")])


# 5. Page faults

def fault_reasons(source: list[str], uses: list[Any], lines: list[str]) -> Iterator[tuple[str, str]]:
    """What comes of each event of one program on frames for all its pages, and why."""
    here: dict[int, int] = {}
    at = 0
    for number, line in enumerate(lines, 1):
        page = int(line.split()[2]) if line.startswith("pagein") else None
        if page in here:
            yield "refused", f"page {page} has been in its frame since event {here[page]}"
        elif page == 99:
            yield "refused", "the process has no page 99"
        elif page is not None:
            here[page] = number
            yield "mapped", "the page was in no frame, and a frame was free"
        elif TEXT not in here:
            yield "absent", "the instruction itself is on page 16, which is in no frame"
        else:
            used = uses[at][0] if at < len(uses) and uses[at] else None
            text = " ".join(source[at].split("#")[0].split())
            if used and used not in here:
                yield "absent data", (f"`{text}` uses page {used} (0x{used:X}), which is in no frame; the instruction is tried again "
                                      "at the next step")
            else:
                at += 1
                yield "ran data" if used else "ran", f"`{text}` needs page 16" + (f" and page {used}" if used
                                                                                  else " alone") + ", in its frame"


@exercise(5, "page faults, one event after another")
def faults(draw: random.Random) -> Variant:
    kinds = [draw.choice(("lw", "sw", "add")) for _ in range(6)]
    pages = [draw.randrange(3) for _ in kinds]
    source = ["        lui  s0, 0x7FFC0        # page 0x7FFC0, in decimal 524224", "        lui  s1, 0x7FFC1", "        lui  s2, 0x7FFC2"]
    source += [f"        {kind:4} t0, 0(s{page})" if kind != "add" else "        add  t0, t0, t0" for kind, page in zip(kinds, pages)]
    source += ["        nop"] * 6
    uses: list[Any] = [None, None, None] + [[STACK + page, kind] if kind != "add" else None for kind, page in zip(kinds, pages)]
    lines = [draw.choice(("step 0 0", f"pagein 0 {STACK + draw.randrange(3)}", "pagein 0 99")),
             draw.choice(("step 0 0", "pagein 0 16")), "pagein 0 16"]
    while len(lines) < 14:
        page = draw.choice((16, 99, STACK, STACK, STACK + 1, STACK + 1, STACK + 2, STACK + 2))
        lines.append(draw.choice(("step 0 0", "step 0 0", f"pagein 0 {page}")))
    expected = [kind for kind, _ in fault_reasons(source, uses, lines)]
    behind = expected[expected.index("absent data"):] if "absent data" in expected else []
    if "ran data" not in behind or "mapped" not in behind or "refused" not in expected or expected.count("ran") < 3:
        return Variant({}, [], [], [], [], False)
    replies = drive(4, 4, lines, source)
    question = ["A program on a machine of four frames, none of whose pages is in memory yet:", "", *("  " + line for line in source), "",
                "Say the reply to each event:", "", *numbered(lines), "",
                "The replies are `ran`; `absent P`, where P is the page that is needed; `mapped`; `refused 4` (the page does not exist, "
                "or is in a frame).",
                "The number of a refusal may be left out."]
    return Variant({"lines": lines, "frames": 4, "uses": uses, "source": source, "told": 0}, question,
                   answer_lines(lines, replies, 18), replies,
                   event_parts(lines, replies, [why for _, why in fault_reasons(source, uses, lines)], None))


# 6. The accessed bit

NOPS = ["        nop"] * 40


@exercise(6, "what the accessed bit says")
def accessed(draw: random.Random) -> Variant:
    lines = ["pagein 0 16"] + ["pagein 0 524224"] * draw.randrange(2)
    lines += [draw.choice(("step 0 0", "step 0 0", "sweep", "sweep", "notice 0 0")) for _ in range(24)] + ["sweep"]
    replies = drive(4, 4, lines, NOPS)
    victim = f"victim 0/{TEXT}"
    count = cut_after(replies, victim, 0) or len(lines)
    lines, replies = lines[:count], replies[:count]
    question = ["A program of instructions that do nothing lies on page 16; page 524224 is one of its stack's, which it does not use. "
                "Say what each question",
                "(sweep) is answered: of which page, and one, zero or victim.", "", *numbered(lines)]
    told = [reply for line, reply in zip(lines, replies) if line == "sweep"]
    has_both = f"asked 0/{TEXT} zero" in told and f"asked 0/{TEXT} one" in told[1:]
    shows = 8 <= count <= 16 and victim in told and has_both and "refused 6" not in told
    parts = accessed_parts(lines, replies) if shows else []
    return Variant({"lines": lines, "frames": 4, "source": NOPS, "told": 0, "only": "sweep"}, question,
                   answer_lines(lines, replies, 16), told, parts, shows)


def accessed_parts(lines: list[str], replies: list[str]) -> list[Part]:
    """The questions, each with why this page is asked and why this is the answer."""
    chosen = iter(choices(lines, replies))
    return [Part(f"{line} (event {number})", asked(reply), f"{next(chosen)}; {why}", number)
            for number, (line, reply, why) in enumerate(zip(lines, replies, reasons(lines, replies)), 1) if line == "sweep"]


def asked(reply: str) -> Asked:
    found = re.search(r"\d+/(\d+)", reply)
    assert found is not None
    word = "victim" if reply.startswith("victim") else reply.split()[-1]
    return Asked(int(found[1]), word, reply, "a page and a word, as `99 one`")


def choices(lines: list[str], replies: list[str]) -> list[str]:
    """Why each question is of its page, by what the list held before it."""
    script: list[str] = []
    names: list[str] = []
    for line, reply in zip(lines, replies):
        if line.startswith("pagein"):
            script.append(f"admit 0/{line.split()[2]}")
        elif line == "sweep":
            names.append(re.findall(r"\d+/\d+", reply)[0])
            script += ["list", "one" if reply.endswith("one") else "zero"]
    with tempfile.NamedTemporaryFile("w", encoding="utf-8") as it:
        it.writelines(f"{line}\n" for line in script)
        it.flush()
        lists = [line for line in paged(["clock", "4", it.name]) if line.startswith("share ")]
    return [choice(name, line) for name, line in zip(names, lists)]


def choice(name: str, line: str) -> str:
    """Why the list asks this page, by the line that tells it."""
    kinds = dict(entry.split("=") for entry in line.partition(": ")[2].split())
    held = [kind for kind in kinds.values() if kind != "shadow"]
    share, hot = int(line.split()[1]), held.count("hot")
    if len(held) == 1:
        why = "it is the only one in a frame"
    elif hot == len(held):
        why = "no page is cold, and it is the first of the hot ones"
    elif kinds[name] == "hot":
        why = f"{hot} hot ones are more than {4 - share} (4 frames less the cold pages' share of {share}), and it is the first of them"
    elif hot == len(held) - 1:
        why = "it is the only one that is not hot"
    else:
        why = "the cold hand comes to it before the other"
    return f"page {name.split('/')[1]} is asked, as {why}"


# 17. Belady's anomaly by a program

@functools.cache
def count_line(words: tuple[str, ...], sources: tuple[tuple[str, ...], ...] = ()) -> tuple[int, int]:
    """The page-ins of a run on one thread, and the steps of its processes. Students of a class ask for the same ones."""
    with tempfile.TemporaryDirectory() as folder:
        files: list[str] = []
        for number, source in enumerate(sources):
            files.append(f"{folder}/{number}.s")
            with open(files[-1], "w", encoding="utf-8") as it:
                it.writelines(f"{line}\n" for line in source)
        told = paged(["run", "--serial", *words, *files])
    steps = sum(int(line.split()[-2]) for line in told if re.match(r"process \d+ .* steps$", line))
    return int(next(line for line in told if line.startswith("frames ")).split()[3]), steps


@exercise(17, "Belady's anomaly by a program")
def anomaly(draw: random.Random) -> Variant:
    least = draw.randrange(35, 43)
    frames = sorted({least, least + 1, *draw.sample(range(24, 64), 4)})
    page_ins = [count_line(("--frames", str(count), f"{TOP}/examples/by_rows.s"))[0] for count in frames]
    worse = [count for before, count, more, less in zip(frames, frames[1:], page_ins[1:], page_ins) if more > less]
    own = draw.choice(frames)
    question = ["examples/by_rows.s fills a table of 64 pages row by row, and then reads it row by row. Its text is one page more. "
                "It ran on these numbers of",
                "frames (scripts/compare-frames has such tables):", "", "  frames  page-ins",
                *(f"  {count:6}  {many:8}" for count, many in zip(frames, page_ins)), "",
                "a. Which numbers of frames cost more page-ins than the row above?",
                f"b. How many page-ins would it be with LRU on {own} frames?", "c. And with LRU on 65 frames?"]
    lru = 2 * 64 + 1
    why = "LRU drops each page of the table before the loop comes back to it, and never the text: 64 to fill, 64 to read, and the text"
    more = "more page-ins than with fewer frames: that is Belady's anomaly, which a stack policy as LRU can't have"
    parts = [Part("a", Names([str(count) for count in worse], ", ".join(map(str, worse)), "numbers of frames, as 12, 34"), more),
             Part("b", page_ins_of(lru), why), Part("c", page_ins_of(65), "each page has a frame: it comes in once")]
    answers = [f"a. {', '.join(map(str, worse))}", f"b. {lru}: {why}", "c. 65: each page comes in once"]
    return Variant({"frames": frames, "own": own}, question, answers, [page_ins, worse, lru, 65], parts, bool(worse))


def page_ins_of(count: int) -> Amount:
    return Amount(Fraction(count), shown=str(count), form="a number, as 12")


# 18. A thrashing curve

@exercise(18, "a thrashing curve over the number of processes")
def thrashing_curve(draw: random.Random) -> Variant:
    pages, fit = draw.randrange(2, 5), draw.randrange(2, 4)
    frames = max(4, (pages + 1) * fit + draw.randrange(0, pages))
    slice_, rounds = draw.choice((10, 20, 40)), draw.choice((20, 30))
    source = loop_source(pages, rounds)
    runs = [count_line(("--frames", str(frames), "--slice", str(slice_)), (tuple(source),) * count) for count in range(1, 6)]
    rates = [f"{steps / page_ins:.1f}" for page_ins, steps in runs]
    fits = frames // (pages + 1)
    falls = next((k for k, (page_ins, steps) in enumerate(runs, 1) if 2 * steps * runs[0][0] < page_ins * runs[0][1]), None)
    question = [f"Each of some processes runs this program, on {frames} frames for all of them, by turns of {slice_} instructions:", "",
                *("  " + line for line in source), "",
                f"./paged run --serial --frames {frames} --slice {slice_} with one to five of them printed:", "",
                "  processes  steps  page-ins", *(f"  {k:9}  {steps:5}  {page_ins:8}" for k, (page_ins, steps) in enumerate(runs, 1)), "",
                "a. How many pages does each process use in its loop?", "b. For how many processes have the frames room for all of these?",
                "c. to g. How many instructions ran for each page-in with 1, 2, 3, 4 and 5 processes (one place)?",
                "h. With how many processes is that less than half of what it is with one, for the first time?"]
    parts = [Part("a", count_of(pages + 1), f"the page of its text, and {pages} of its stack"),
             Part("b", count_of(fits), f"{frames} frames hold {fits} times {pages + 1} pages")]
    parts += [Part(letter, rate_of(steps, page_ins), f"{steps} / {page_ins}") for letter, (page_ins, steps) in zip("cdefg", runs)]
    parts.append(Part("h", count_of(falls or 0),
                      f"with one it is {rates[0]}, with {falls} it is {rates[(falls or 1) - 1]}: the machine thrashes"))
    answers = [f"a. {pages + 1}", f"b. {fits}", *(f"{part.name}. {part.right}: {part.why}" for part in parts[2:7]), f"h. {falls}"]
    return Variant({"pages": pages, "rounds": rounds, "frames": frames, "slice": slice_}, question, answers,
                   [pages + 1, fits, runs, rates, falls], parts, falls is not None and fits < falls)


def count_of(count: int) -> Amount:
    return Amount(Fraction(count), shown=str(count), form=f"a number, as {unlike(count, 7, 9)}")


def rate_of(steps: int, page_ins: int) -> Amount:
    facts = (Fact(Fraction(steps), ("step",), True), Fact(Fraction(page_ins), ("page-in",), True))
    return Amount(Fraction(steps, page_ins), places=1, shown=f"{steps / page_ins:.1f}", form="a number with one place, as 123.4",
                  facts=facts)
