"""CLOCK: a hand goes round, clears the marks of used pages, and takes the first page without one."""


class Policy:
    def __init__(self, frames):
        self.ring, self.used, self.hand = [None] * frames, {}, 0

    def hit(self, page):
        self.used[page] = True

    def miss(self, page):
        while self.used.get(self.ring[self.hand]):
            self.used[self.ring[self.hand]] = False
            self.hand = (self.hand + 1) % len(self.ring)
        victim, self.ring[self.hand] = self.ring[self.hand], page
        self.used.pop(victim, None)
        self.used[page] = True    # marked on arrival
        self.hand = (self.hand + 1) % len(self.ring)
        return victim
