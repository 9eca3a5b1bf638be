"""Policies of textbooks, written apart from scripts/parts/by_hand.py: each plays (page, is it a write) and returns its misses and the pages
that are in frames at the end. `every` references a tick of the clock follows; 0 is none."""
from collections import OrderedDict, deque
from typing import Any

Entry = list[Any]    # a page, and what is known of it


def second_chance(frames, string):
    """A queue of pages with R: the front goes to the back while it has R, which it loses."""
    queue, used, missed = deque[str](), set[str](), 0
    for page, _ in string:
        if page not in queue:
            missed += 1
            if len(queue) == frames:
                while queue[0] in used:
                    used.discard(queue[0])
                    queue.rotate(-1)
                queue.popleft()
            queue.append(page)
        used.add(page)
    return missed, sorted(queue)


def nru(frames, string, every):
    """Slots, and of each page the letters that it has."""
    slots: list[str | None] = [None] * frames
    letters: dict[str, str] = {}
    missed = 0
    for at, (page, writes) in enumerate(string, 1):
        if page not in slots:
            missed += 1
            classes = [-1 if held is None else ("", "M", "R", "MR").index(letters[held]) for held in slots]
            slots[classes.index(min(classes))] = page
            letters[page] = ""
        letters[page] = ("M" if writes or "M" in letters[page] else "") + "R"
        if every and at % every == 0:
            letters = {held: text.replace("R", "") for held, text in letters.items()}
    return missed, sorted(filter(None, slots))


def aging(frames, string, every):
    """Counters as texts of eight digits."""
    slots: list[str | None] = [None] * frames
    counters: dict[str, str] = {}
    used, missed = set[str](), 0
    for at, (page, _) in enumerate(string, 1):
        if page not in slots:
            missed += 1
            shown = ["" if held is None else counters[held] for held in slots]
            slots[shown.index(min(shown))] = page
            counters[page] = "0" * 8
            used.discard(page)
        used.add(page)
        if every and at % every == 0:
            counters = {held: ("1" if held in used else "0") + counters[held][:7] for held in filter(None, slots)}
            used = set()
    return missed, sorted(filter(None, slots))


def lfu(frames, string):
    """Of pages with the fewest uses the one that came first, by a dictionary in the order of coming."""
    uses, missed = OrderedDict[str, int](), 0
    for page, _ in string:
        if page in uses:
            uses[page] += 1
            continue
        missed += 1
        if len(uses) == frames:
            del uses[next(held for held, count in uses.items() if count == min(uses.values()))]
        uses[page] = 1
    return missed, sorted(uses)


def mru(frames, string):
    stack, missed = list[str](), 0
    for page, _ in string:
        if page in stack:
            stack.remove(page)
        else:
            missed += 1
            if len(stack) == frames:
                stack.pop()
        stack.append(page)
    return missed, sorted(stack)


def clock2(frames, string):
    """A ring that is turned, so that the hand is at its front: each entry is [page, u, m]."""
    ring, missed = deque[Entry](), 0
    for page, writes in string:
        entry = next((held for held in ring if held[0] == page), None)
        if entry is None:
            missed += 1
            entry = [page, 1, 0]
            if len(ring) < frames:
                ring.append(entry)
            else:
                leave_two_bits(ring)
                ring.append(entry)
        entry[1] = 1
        entry[2] |= writes
    return missed, sorted(held[0] for held in ring)


def leave_two_bits(ring):
    while True:
        for wanted in ((0, 0), (0, 1)):
            for _ in range(len(ring)):
                entry = ring[0]
                if tuple(entry[1:]) == wanted:
                    ring.popleft()
                    return
                if wanted == (0, 1):
                    entry[1] = 0
                ring.rotate(-1)


def wsclock(frames, string, tau):
    """The same ring with [page, R, M, when it was used]."""
    ring, missed = deque[Entry](), 0
    for now, (page, writes) in enumerate(string, 1):
        entry = next((held for held in ring if held[0] == page), None)
        if entry is None:
            missed += 1
            entry = [page, True, False, now]
            if len(ring) == frames:
                leave_working_set(ring, now, tau)
            ring.append(entry)
        entry[1] = True
        entry[2] = entry[2] or writes
    return missed, sorted(held[0] for held in ring)


def leave_working_set(ring, now, tau):
    is_first, is_written = True, False
    while is_first or is_written:
        for _ in range(len(ring)):
            entry = ring[0]
            old = not entry[1] and now - entry[3] > tau
            if entry[1]:
                entry[1], entry[3] = False, now
            if old and not entry[2]:
                ring.popleft()
                return
            if old:
                entry[2], is_written = False, True
            ring.rotate(-1)
        if not is_first:
            break
        is_first = False
    clean = next((place for place, entry in enumerate(ring) if not entry[2]), 0)
    ring.rotate(-clean)
    ring.popleft()
