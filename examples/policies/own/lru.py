"""Least recently used: the page leaves whose last use is longest ago."""


class Policy:
    def __init__(self, frames):
        self.frames, self.stack = frames, {}    # a dictionary keeps the order in which its keys came

    def hit(self, page):
        del self.stack[page]
        self.stack[page] = True

    def miss(self, page):
        victim = None
        if len(self.stack) == self.frames:
            victim = next(iter(self.stack))
            del self.stack[victim]
        self.stack[page] = True
        return victim
