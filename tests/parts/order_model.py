"""Which accesses of a run nothing orders, for tests/test-suites: by a graph of its steps, with no clocks. An edge leads from each step to the next one
of its hart, from a start to the first step of the hart, and from what released to what acquired. One step comes before another one if a path leads
there. Steps are tuples (hart, kind, address, size, value): loads and stores; `amo`, `lr`, `sc` with aq as 2 and rl as 1; `fence` with the upper bits of
the instruction; `spawn` with the started hart."""
import collections
import random

ATOMIC = ("amo", "lr", "sc")
FENCES = (0x031, 0x023, 0x033, 0x0F5, 0x0FF, 0x011, 0x022, 0x013, 0x021)


def releases(fence):
    before, behind = fence // 16 % 16, fence % 16
    return before % 4 == 3 and behind % 2 == 1


def acquires(fence):
    before, behind = fence // 16 % 16, fence % 16
    return before // 2 % 2 == 1 and behind % 4 == 3


def synchronizing(steps):
    """Words that an atomic touches, or that have a store with such a fence before it and a load with such a fence behind it, next to one another."""
    found = {it[2] // 4 for it in steps if it[1] in ATOMIC}
    pairs = [pair for hart in range(8) for mine in [[it for it in steps if it[0] == hart]] for pair in zip(mine, mine[1:])]
    stored = {two[2] // 4 for one, two in pairs if one[1] == "fence" and releases(one[4]) and two[1] == "store"}
    loaded = {one[2] // 4 for one, two in pairs if two[1] == "fence" and acquires(two[4]) and one[1] == "load"}
    return found | stored & loaded


def comes_before(steps, words, is_sequential):
    """Of each step which others come before it, as bits."""
    edges: collections.defaultdict[int, list[int]] = collections.defaultdict(list)
    last_of: dict[int, int] = {}
    started: dict[int, int] = {}
    sources: collections.defaultdict[int, list[int]] = collections.defaultdict(list)    # of a word: what a load of it takes from, up to now
    fence_of: dict[int, int] = {}    # the last fence that releases
    waiting: collections.defaultdict[int, list[int]] = collections.defaultdict(list)    # what loads have found
    for at, (hart, kind, address, _, value) in enumerate(steps):
        if hart in last_of:
            edges[at].append(last_of[hart])
        elif hart in started:
            edges[at].append(started[hart])
        last_of[hart] = at
        if kind == "spawn":
            started[value] = at
        if kind == "fence":
            if acquires(value):
                edges[at] += waiting[hart]
            if releases(value):
                fence_of[hart] = at
        if kind in ("fence", "spawn") or address // 4 not in words:
            continue
        word = address // 4
        is_atomic = kind in ATOMIC
        if kind in ("load", "lr", "amo") or kind == "sc" and value & 2:
            if is_sequential or is_atomic and value & 2:
                edges[at] += sources[word]
            else:
                waiting[hart] += sources[word]
        if kind in ("store", "sc", "amo"):
            source = at if is_sequential or is_atomic and value & 1 else fence_of.get(hart)
            before = sources[word] if is_sequential or is_atomic else []
            sources[word] = before + ([] if source is None else [source])
    before = []
    for at in range(len(steps)):
        bits = 0
        for it in edges[at]:
            bits |= before[it] | 1 << it
        before.append(bits)
    return before


def unordered(steps, is_sequential=False):
    """Each pair of steps that races: an access, and the last load or store of another hart to one of its bytes."""
    words = synchronizing(steps)
    before, found = comes_before(steps, words, is_sequential), set()
    for at, (hart, kind, address, size, _) in enumerate(steps):
        for byte in range(address, address + size) if kind in ("load", "store") else ():
            if byte // 4 in words:
                continue
            touched = [it for it in range(at) if steps[it][1] in ("load", "store") and steps[it][0] != hart
                       and steps[it][2] <= byte < steps[it][2] + steps[it][3] and "store" in (kind, steps[it][1])]
            for other in range(8):
                for their_kind in ("load", "store"):
                    last = [it for it in touched if steps[it][0] == other and steps[it][1] == their_kind][-1:]
                    found |= {(it, at) for it in last if not before[at] >> it & 1}
    return found


def random_steps(seed):
    """A run of up to four harts that use two words of data, two that synchronize, and one that may do so."""
    draw = random.Random(seed)
    steps, alive = [], [0]
    for _ in range(draw.randrange(10, 60)):
        hart = draw.choice(alive)
        kind = draw.choice(("load", "store", "load", "store", "fence", "fence", *ATOMIC, "touch", "touch", "spawn"))
        if kind == "spawn" and len(alive) < 4:
            steps.append((hart, "spawn", 0, 0, len(alive)))
            alive.append(len(alive))
        elif kind == "fence":
            steps.append((hart, "fence", 0, 0, draw.choice(FENCES)))
        elif kind in ATOMIC:
            steps.append((hart, kind, draw.choice((0x2000, 0x2004)), 4, draw.randrange(4)))
        elif kind == "touch":
            steps.append((hart, draw.choice(("load", "store")), draw.choice((0x2000, 0x2004, 0x3000)), 4, 0))
        elif kind in ("load", "store"):
            size = draw.choice((1, 2, 4))
            steps.append((hart, kind, draw.choice((0x1000, 0x1004)) + draw.randrange(0, 4, size), size, 0))
    return steps
