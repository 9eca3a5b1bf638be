"""Replacement policies that someone wrote as a class in Python: played, with checks, and the strings on which they are marked."""
from __future__ import annotations

import importlib.util
import os
import random
import sys
import traceback
from collections.abc import Sequence
from typing import Any, Protocol

from by_hand import FREE, Step


class Policy(Protocol):
    def hit(self, page: str) -> object:
        """The page is in a frame, and was used."""

    def miss(self, page: str) -> str | None:
        """The page comes in; the page that leaves, None while a frame is free."""


class Broken(Exception):
    """What a policy did that none may do."""


def load(file: str) -> type[Any]:
    """The class Policy of a file."""
    spec = importlib.util.spec_from_file_location("own_policy_of_someone", file)
    if spec is None or spec.loader is None:
        raise Broken(f"{file}: the name of a policy's file ends in .py")
    module = importlib.util.module_from_spec(spec)
    try:
        spec.loader.exec_module(module)
    except FileNotFoundError:
        raise Broken(f"{file}: No such file or directory") from None
    except BaseException as why:    # whatever someone's code raises
        raise Broken(f"{file}: {in_words(why, file)}") from None
    made = getattr(module, "Policy", None)
    if not isinstance(made, type):
        raise Broken(f"{file}: there is no class Policy in it")
    lacks = [name for name in ("hit", "miss") if not callable(getattr(made, name, None))]
    if lacks:
        raise Broken(f"{file}: the class Policy has no {lacks[0]}(self, page)")
    return made


def in_words(why: BaseException, file: str) -> str:
    """An exception of someone's code, with its line."""
    if isinstance(why, SyntaxError):
        return (f"line {why.lineno}: " if why.lineno else "") + why.msg
    lines = [frame.lineno for frame in traceback.extract_tb(why.__traceback__)
             if os.path.basename(frame.filename) == os.path.basename(file)]
    return (f"line {lines[-1]}: " if lines else "") + f"{type(why).__name__}: {why}"


def play(made: type[Any], file: str, count: int, string: Sequence[str], shows: int = 0) -> tuple[int, list[Step]]:
    """The misses of a policy, and what is seen after each of the first references. It evicts only a page that it has, and only when it
    must."""
    frames: list[str | None] = [None] * count
    places: dict[str, int] = {}
    missed, film = 0, []
    at, page = 0, ""
    try:
        policy: Policy = made(count)
        for at, page in enumerate(string, 1):
            hit, victim = page in places, None
            if hit:
                policy.hit(page)
            else:
                missed += 1
                victim = checked(policy.miss(page), places, count)
                place = places.pop(victim) if victim is not None else len(places)
                frames[place], places[page] = page, place
            if at <= shows:
                film.append({"page": page, "hit": hit, "frames": list(frames), "out": victim})
    except Broken as why:
        raise Broken(f"{file}: at reference {at}, to page {page}, with {count} frames: {why}") from None
    except Exception as why:    # pylint: disable=broad-exception-caught
        raise Broken(f"{file}: at reference {at}, to page {page}, with {count} frames: {in_words(why, file)}") from None
    return missed, film


def checked(victim: object, places: dict[str, int], count: int) -> str | None:
    """A page that may leave."""
    if victim is None:
        if len(places) == count:
            raise Broken("miss() returned None, but all frames are full")
        return None
    if not isinstance(victim, str) or victim not in places:
        raise Broken(f"miss() returned {victim!r}, which is in no frame")
    if len(places) < count:
        raise Broken(f"miss() returned {victim!r}, but a frame is free")
    return victim


def cells(step: Step) -> list[str]:
    return [page or FREE for page in step["frames"]]


# Strings that nobody sees before the marks

def hidden_strings(key: str) -> dict[str, list[str]]:
    """Strings of several kinds, by a secret word."""
    made = {}
    for kind, function in (("loop", loop), ("some often", some_often), ("scans", scans), ("phases", phases)):
        made[kind] = [str(page) for page in function(random.Random(f"own policy/{kind}/{key}"))]
    return made


def loop(draw: random.Random) -> list[int]:
    """A loop over more pages than frames, with a few others between."""
    pages = draw.randrange(18, 23)
    return [page if draw.random() < 0.95 else draw.randrange(100, 130) for _ in range(60) for page in range(pages)]


def some_often(draw: random.Random) -> list[int]:
    """A few pages often, others seldom."""
    weights = [1 / (rank + 1) for rank in range(60)]
    return draw.choices(draw.sample(range(200), 60), weights, k=1500)


def scans(draw: random.Random) -> list[int]:
    """Pages that are used again and again, and scans over pages that are used once."""
    string: list[int] = []
    for scan in range(12):
        string += [draw.randrange(12) for _ in range(80)] + list(range(1000 + 40 * scan, 1000 + 40 * scan + draw.randrange(20, 40)))
    return string


def phases(draw: random.Random) -> list[int]:
    """Sets of pages that change from time to time."""
    string: list[int] = []
    for phase in range(10):
        pages = [100 * phase + k for k in range(draw.randrange(8, 20))] + [draw.randrange(50) for _ in range(4)]
        string += [draw.choice(pages) for _ in range(150)]
    return string


def told(text: str) -> None:
    print(f"own-policy: {text}", file=sys.stderr)
