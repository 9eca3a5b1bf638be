"""Which hart has which lock after some steps of a run. A word is taken for a lock if atomic instructions change it from 0 to something else, and nothing
changes it from one value other than 0 to another one, as is done to a counter."""
from recorded_steps import AMO, LOAD, LR, SC, STORE


class Lock:
    """The step that took a lock last, the one that gave it back since then, and the last one of each hart that has found it taken."""

    def __init__(self, taken):
        self.taken, self.given_back, self.tries = taken, None, {}


class Locks:
    """The locks by their addresses, as steps are taken in."""

    def __init__(self):
        self.locks, self.reserved, self.others, self.atomic = {}, {}, set(), set()

    def take(self, step):
        word = step.address & ~3
        if step.kind == LR:
            self.reserved[step.hart] = word, step
            self.atomic.add(word)
            if step.old:
                self.try_lock(word, step)
        elif step.kind in (AMO, SC):
            self.atomic.add(word)
            old = step.old if step.kind == AMO else self.found_by_lr(step, word)
            self.change(word, step, old, step.new)
        elif step.kind == STORE and word in self.atomic:
            self.change(word, step, None, step.new)

    def found_by_lr(self, step, word):
        """What the LR before an SC has found."""
        at, before = self.reserved.get(step.hart, (None, None))
        return before.old if at == word else None

    def change(self, word, step, old, new):
        lock = self.locks.get(word)
        if new == 0:
            if lock and not lock.given_back:
                lock.given_back = step
        elif old == 0 and new is not None:
            self.locks[word] = Lock(step)
        elif old is not None and old == new:
            self.try_lock(word, step)
        else:
            self.others.add(word)    # a counter, or a word that is given on in another way

    def try_lock(self, word, step):
        if word in self.locks:
            self.locks[word].tries[step.hart] = step

    def found(self):
        return {word: lock for word, lock in sorted(self.locks.items()) if word not in self.others}


def locks_of(steps):
    """The locks after some steps."""
    locks = Locks()
    for step in steps:
        if step.kind != LOAD:
            locks.take(step)
    return locks.found()
