"""Which accesses of a run no synchronization orders, by vector clocks: each hart has one, that says up to which of its own times it knows what each
hart did. A hart that synchronizes gives its clock on, and another one takes it."""
from collections import defaultdict
from typing import NamedTuple

from recorded_steps import AMO, FENCE, LOAD, LR, SC, SPAWN, STORE, Step

HARTS = 8
READS, WRITES = 2, 1    # of four bits of a fence, in the order iorw
ACQUIRES, RELEASES = 2, 1    # aq and rl
ATOMICS = (AMO, LR, SC)
Last = dict[int, tuple[int, Step]]    # of each hart its last access, and when it was


class Race(NamedTuple):
    """Two steps of two harts that touch a byte, the first one before the second one, which nothing orders."""
    address: int
    first: tuple
    second: tuple


def is_acquire(fence):
    """Whether a fence orders loads before it with all accesses behind it."""
    return bool(fence >> 4 & READS) and fence & 3 == READS | WRITES


def is_release(fence):
    """Whether a fence orders all accesses before it with stores behind it."""
    return fence >> 4 & 3 == READS | WRITES and bool(fence & WRITES)


def synchronizing_words(steps):
    """The words that synchronize: which an atomic instruction touches; or which is stored to right after a fence that releases, and loaded right
    before one that acquires, with no access in between."""
    atomic, stored, loaded = set[int](), set[int](), set[int]()
    last: dict[int, Step] = {}
    for step in steps:
        before = last.get(step.hart)
        if step.kind in ATOMICS:
            atomic.add(step.address & ~3)
        elif step.kind == STORE and before and before.kind == FENCE and is_release(before.value):
            stored.add(step.address & ~3)
        elif step.kind == FENCE and before and before.kind == LOAD and is_acquire(step.value):
            loaded.add(before.address & ~3)
        last[step.hart] = step
    return atomic | stored & loaded


def shared_words(steps):
    """The words that several harts touch."""
    harts: defaultdict[int, int] = defaultdict(int)
    for step in steps:
        for word in words_of(step):
            harts[word] |= 1 << step.hart
    return {word for word, them in harts.items() if them & them - 1}


def words_of(step):
    return range(step.address & ~3, step.address + step.size, 4) if step.kind in (LOAD, STORE) else ()


def join(clock, other):
    for hart, time in enumerate(other):
        if time > clock[hart]:
            clock[hart] = time


class Clocks:
    """The clock of each hart; what it would give on by a plain store, which is its clock at its last fence that releases; what its loads have found,
    which a fence that acquires takes; and what each synchronizing word gives on. With `is_sequential` all accesses to these words synchronize."""

    def __init__(self, is_sequential):
        self.is_sequential = is_sequential
        self.clocks = [[0] * HARTS for _ in range(HARTS)]
        self.released = [[0] * HARTS for _ in range(HARTS)]
        self.found = [[0] * HARTS for _ in range(HARTS)]
        self.given = {}
        self.clocks[0][0] = 1

    def start(self, hart, started):
        self.clocks[started] = [*self.clocks[hart]]
        self.clocks[started][started] = 1
        self.clocks[hart][hart] += 1

    def fence(self, hart, fence):
        if is_acquire(fence):
            join(self.clocks[hart], self.found[hart])
        if is_release(fence):
            self.released[hart] = [*self.clocks[hart]]
            self.clocks[hart][hart] += 1

    def load(self, hart, word, acquires):
        if word in self.given:
            join(self.clocks[hart] if acquires or self.is_sequential else self.found[hart], self.given[word])

    def store(self, hart, word, releases, goes_on):
        """A store of an atomic instruction goes on with what was given before it. A plain one begins anew."""
        given = self.given.get(word) if goes_on or self.is_sequential else None
        self.given[word] = given or [0] * HARTS
        join(self.given[word], self.clocks[hart] if releases or self.is_sequential else self.released[hart])
        if releases or self.is_sequential:
            self.clocks[hart][hart] += 1

    def synchronize(self, step, word):
        acquires, releases = bool(step.value & ACQUIRES), bool(step.value & RELEASES)
        if step.kind in (LOAD, LR, AMO) or step.kind == SC and acquires:    # an SC has found what its LR has
            self.load(step.hart, word, acquires)
        if step.kind in (STORE, SC, AMO):
            self.store(step.hart, word, releases, step.kind != STORE)


def races(steps, is_sequential=False):
    """The races of a run, given by a list of its steps: of each access and the last ones of each other hart to the same byte."""
    synchronizing, shared = synchronizing_words(steps), shared_words(steps)
    clocks = Clocks(is_sequential)
    last: dict[int, tuple[Last, Last]] = {}    # of each byte, of stores and of loads
    for step in steps:
        if step.kind == SPAWN:
            clocks.start(step.hart, step.value)
        elif step.kind == FENCE:
            clocks.fence(step.hart, step.value)
        elif step.kind in ATOMICS:
            clocks.synchronize(step, step.address & ~3)
        else:
            for word in words_of(step):
                if word in synchronizing:
                    clocks.synchronize(step, word)
                elif word in shared:
                    yield from races_of_word(step, word, clocks.clocks[step.hart], last)


def races_of_word(step, word, clock, last):
    told = set()
    for byte in range(max(step.address, word), min(step.address + step.size, word + 4)):
        stores, loads = last.setdefault(byte, ({}, {}))
        for before in (stores,) if step.kind == LOAD else (stores, loads):
            for hart, (time, other) in before.items():
                if hart != step.hart and time > clock[hart] and other not in told:
                    told.add(other)
                    yield Race(byte, other, step)
        (loads if step.kind == LOAD else stores)[step.hart] = (clock[step.hart], step)
