"""What an exercise with variants is made of, and the machine that its answers come from."""
from __future__ import annotations

import dataclasses
import os
import random
import re
import subprocess
import tempfile
from collections.abc import Callable, Iterable, Mapping
from dataclasses import dataclass, field
from typing import Any

from answers import Answer

TOP = os.path.dirname(os.path.dirname(os.path.dirname(os.path.realpath(__file__))))
PAGED = f"{TOP}/paged"
MOST_DRAWS = 200
TEXT, STACK = 0x10, 0x7FFC0    # pages of a program's text and of its stack


class Fault(Exception):
    """Why there is no exercise, no sheet or no marks."""


@dataclass
class Part:
    """One thing that is asked: what it is called, what is right, and why it is."""
    name: str
    answer: Answer
    why: str
    event: int | None = None    # its number, where it is an event's reply

    @property
    def right(self) -> str:
        return self.answer.shown

    @property
    def form(self) -> str:
        return self.answer.form


@dataclass
class Variant:
    given: dict[str, Any]
    question: list[str]
    answers: list[str]
    results: list[Any]
    parts: list[Part] = field(default_factory=list)
    shows: bool = True    # whether it has what its exercise is for
    help: str = ""    # what shows the answers in another way, which no sheet has

    def __post_init__(self) -> None:
        words = frozenset(re.findall(r"[a-z]+", " ".join(self.question).lower()))
        for part in self.parts:
            if dataclasses.is_dataclass(part.answer):
                part.answer.question = words


Rules = Mapping[str, str]    # the rule that is used, by what it is of


@dataclass
class Exercise:
    title: str
    make: Callable[[random.Random, Rules], Variant]
    rules: dict[str, tuple[str, ...]]    # where textbooks differ: what it is of, and the rules, the usual one first


EXERCISES: dict[int, Exercise] = {}


def exercise(number: int, title: str, **rules: tuple[str, ...]) -> Callable[[Callable[..., Variant]], Callable[..., Variant]]:
    """Keeps what makes the variants of an exercise. It gets the rules only where it has any."""
    def keep(function: Callable[..., Variant]) -> Callable[..., Variant]:
        def without_rules(draw: random.Random, _: Rules) -> Variant:
            return function(draw)
        make: Callable[..., Variant] = function
        if not rules:
            make = without_rules
        EXERCISES[number] = Exercise(title, make, rules)
        return function
    return keep


def variant(number: int, seed: object, rules: Rules | None = None) -> Variant:
    """The variant of a seed: the first of its draws that shows what the exercise is for."""
    made_for = EXERCISES[number]
    chosen = {of: (rules or {}).get(of, choices[0]) for of, choices in made_for.rules.items()}
    for more in range(MOST_DRAWS):
        made = made_for.make(random.Random(f"{number}/{seed}" + (f"/{more}" if more else "")), chosen)
        if made.shows:
            return made
    raise Fault(f"no draw of seed {seed} makes a variant of exercise {number}")


def paged(words: Iterable[str]) -> list[str]:
    """What `paged` prints."""
    done = subprocess.run([PAGED, *words], stdout=subprocess.PIPE, check=False)
    if done.returncode == 2:
        raise Fault("the machine did not play this variant")
    return done.stdout.decode().split("\n")[:-1]


def drive(frames: int, slots: int, lines: Iterable[str], source: Iterable[str]) -> list[str]:
    """What `paged drive` replies to a script, on one process that runs a source."""
    with tempfile.TemporaryDirectory() as folder:
        for name, text in (("script", lines), ("program.s", source)):
            with open(f"{folder}/{name}", "w", encoding="utf-8") as it:
                it.writelines(f"{line}\n" for line in text)
        return paged(["drive", "--frames", str(frames), "--slots", str(slots), f"{folder}/script", f"{folder}/program.s"])


def unlike(right: object, *examples: object) -> str:
    """The first of the examples that is not right, for the form of an answer."""
    return str(next(example for example in examples if str(example) != str(right)))
