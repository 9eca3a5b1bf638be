"""Exercises on which page leaves: policies by hand, and working sets."""
from __future__ import annotations

import random
import textwrap
from fractions import Fraction
from typing import Any

import by_hand
from answers import Amount, Amounts, Fact, Named, Names, Verdict, stops_any, stops_no_one
from exercise_base import Part, Rules, Variant, exercise, unlike

ARRIVAL = {"marked": "CLOCK's mark is set by each reference, also by the one that brings its page in.",
           "clear": "CLOCK's mark is set by a reference that hits, and not by the one that brings its page in."}


# 8. Policies by hand

@exercise(8, "FIFO, CLOCK, LRU and the optimum by hand", arrival=("marked", "clear"))
def policies(draw: random.Random, rules: Rules) -> Variant:
    frames, pages = draw.choice((3, 3, 3, 4)), draw.randrange(5, 8)
    string = [str(draw.randrange(1, pages + 1)) for _ in range(14)]
    films = {name: by_hand.play(name, frames, string, arrival=rules["arrival"]) for name in by_hand.FOUR}
    missed = {name: by_hand.misses(film) for name, film in films.items()}
    ends = {name: sorted(page for page in film[-1]["frames"] if page) for name, film in films.items() if name != "optimum"}
    question = [f"A string of references, and {frames} frames, which are free at first:", "", "  " + " ".join(string), "",
                *textwrap.wrap(ARRIVAL[rules["arrival"]] + " Its hand begins at the first frame, and goes on from the frame that was filled "
                               "last. Of pages that are never used again the optimum may drop any.", 140), "",
                "How many references miss a. by FIFO, b. by CLOCK, c. by LRU, d. by the optimum?",
                "Which pages are in frames at the end e. by FIFO, f. by CLOCK, g. by LRU?"]
    answers = [f"{letter}. {name} {count}" for letter, (name, count) in zip("abcd", missed.items())]
    answers += [f"{letter}. {name} {' '.join(end)}" for letter, (name, end) in zip("efg", ends.items())]
    parts = [Part(letter, misses_of(missed[name], len(string)), why_missed(name, films[name])) for letter,
             name in zip("abcd", by_hand.FOUR)]
    parts += [Part(letter, Names(end, " ".join(end), "pages in any order, as 1 8 9"), why_held(name, films[name], end)) for letter,
              (name, end) in zip("efg", ends.items())]
    inexact = [missed[name] for name in ("fifo", "clock", "lru")]
    shows = missed["optimum"] < min(inexact) and len(set(inexact)) > 1
    option = "" if rules["arrival"] == "marked" else "--arrival clear "
    return Variant({"frames": frames, "string": string}, question, answers, [missed, ends], parts, shows,
                   f"scripts/by-hand --frames {frames} {option}{' '.join(string)} shows each step.")


def misses_of(count: int, references: int) -> Amount:
    facts = (Fact(Fraction(references - count), ("hit",)), Fact(Fraction(references), ("reference",), True))
    return Amount(Fraction(count), shown=str(count), form=f"a number, as {unlike(count, 12, 11)}", nouns=("miss", "fault", "page"),
                  facts=facts)


def why_missed(name: str, film: list[dict[str, Any]]) -> str:
    return f"by {name} these miss: " + ", ".join(f"{k} ({step['page']})" for k, step in enumerate(film, 1) if not step["hit"])


def why_held(name: str, film: list[dict[str, Any]], end: list[str]) -> str:
    """When each page that is in a frame at the end came in, and for which other."""
    came = {step["page"]: (k, step["out"]) for k, step in enumerate(film, 1) if not step["hit"]}
    latest = sorted(end, key=lambda page: came[page][0])
    told = (f"{page} at {came[page][0]}" + (f" for {came[page][1]}" if came[page][1] else "") for page in latest)
    return f"by {name} these came in last: {', '.join(told)}"


# 14. Thrashing

@exercise(14, "working sets, and when memory thrashes")
def thrashing(draw: random.Random) -> Variant:
    window = draw.choice((4, 5, 6))
    strings = [[draw.choice("ABCDEFG"[:draw.randrange(2, 8)]) for _ in range(12)] for _ in range(3)]
    sizes = [len(set(string[-window:])) for string in strings]
    frames = max(1, sum(sizes) + draw.choice((-2, -1, 0, 1)))
    question = [f"Three processes share {frames} frames. These are the last 12 pages that each has used, the latest at the right:", "",
                *(f"  process {k}: {' '.join(string)}" for k, string in enumerate(strings)), "",
                f"a. How large is the working set of each, by a window of {window} references?",
                "b. Do they fit together, or does the machine thrash?",
                "c. If it thrashes: which one process could be stopped so that the two others fit? Name each process",
                "for which this is true."]
    fits = sum(sizes) <= frames
    stops = [k for k in range(3) if sum(sizes) - sizes[k] <= frames]
    answers = [f"a. {', '.join(map(str, sizes))}",
               ("b. they fit" if fits else "b. it thrashes") + f": together {sum(sizes)} pages in {frames} frames",
               "c. " + ("none has to be" if fits else ", ".join(f"process {k}" for k in stops) or "none alone is enough")]
    windows = "; ".join(f"process {k}: {' '.join(string[-window:])}" for k, string in enumerate(strings))
    together = f"{' + '.join(map(str, sizes))} = {sum(sizes)} pages, and there are {frames} frames"
    parts = [Part("a", set_sizes(sizes), f"the different pages in the last {window}: {windows}"),
             Part("b", Verdict(fits, "they fit" if fits else "it thrashes", "a word for it, `fit` or `thrash`"), together),
             Part("c", to_stop(fits, stops), together + ("" if fits else ": what is left has to fit"))]
    return Variant({"strings": strings, "window": window, "frames": frames}, question, answers, [sizes, fits, stops if not fits else []],
                   parts)


def set_sizes(sizes: list[int]) -> Amounts:
    """The sizes in the order of the processes, or by these."""
    named = [Named(f"process {k}", rf"\b(?:process|proc\.?|p|wss?|w)[ _]*\(?{k}\b\)?(?: has| uses| needs)?|(?<![\w:=]){k}(?=\s*[:=]\s*\d)",
                   Fraction(size))
             for k, size in enumerate(sizes)]
    return Amounts(named, ", ".join(map(str, sizes)), "three numbers in the order of the processes, as 7, 8, 9")


def to_stop(fits: bool, stops: list[int]) -> Names:
    """The processes that can be stopped. No name is right where none has to be, or none is enough."""
    if fits or not stops:
        return Names([], "none", "names of processes, as 7 and 8, or `none`", stops_no_one(fits))
    return Names([str(k) for k in stops], ", ".join(map(str, stops)), "names of processes, as 7 and 8, or `none`",
                 stops_any if len(stops) == 3 else None)


# 23. Policies with bits

BITS = {"second-chance": "second chance (the oldest page leaves; if it was used, its mark is cleared and it counts as new, and the next "
                         "oldest is looked at)",
        "nru": "NRU (the page in the first frame of the lowest class leaves; a class is 2 R + M)",
        "aging": "aging (the page with the lowest counter leaves, of equals the one in the first frame; a tick moves each counter of 8 "
                 "bits to the right by one, and R "
                 "to its left end)"}


@exercise(23, "second chance, NRU and aging by their bits")
def bits(draw: random.Random) -> Variant:
    frames, pages, every = 4, draw.randrange(6, 8), draw.choice((4, 5))
    string = [str(draw.randrange(1, pages + 1)) + draw.choice(("", "", "w")) for _ in range(16)]
    films = {name: by_hand.play(name, frames, string, options=by_hand.Options(every=every)) for name in BITS}
    missed = {name: by_hand.misses(film) for name, film in films.items()}
    ends = {name: sorted(page for page in film[-1]["frames"] if page) for name, film in films.items()}
    question = [f"A string of references, and {frames} frames, which are free at first (w is a write, which sets M; each reference sets "
                f"R):", "", "  " + " ".join(string), "",
                f"A tick of the clock follows each {every} references. It clears R for NRU and aging. The policies are", "",
                *(f"  {line}" for text in BITS.values() for line in textwrap.wrap(text, 140)), "",
                "How many references miss a. by second chance, b. by NRU, c. by aging?",
                "Which pages are in frames at the end d. by second chance, e. by NRU, f. by aging?"]
    parts = [Part(letter, misses_of(missed[name], len(string)), why_missed(name, films[name])) for letter, name in zip("abc", BITS)]
    parts += [Part(letter, Names(ends[name], " ".join(ends[name]), "pages in any order, as 1 2 8 9"),
                   why_held(name, films[name], ends[name])) for letter, name in zip("def", BITS)]
    answers = [f"{part.name}. {name} {part.right}" for part, name in zip(parts, [*BITS, *BITS])]
    shows = len(set(missed.values())) > 1 and len(set(map(tuple, ends.values()))) > 1
    return Variant({"frames": frames, "every": every, "string": string}, question, answers, [missed, ends], parts, shows,
                   f"scripts/by-hand --frames {frames} --every {every} --policy {','.join(BITS)} {' '.join(string)} shows each step.")
