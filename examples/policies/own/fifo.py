"""First in, first out: the page leaves that came in first."""


class Policy:
    def __init__(self, frames):
        self.frames, self.queue = frames, []

    def hit(self, page):
        """The page is in a frame, and was used: FIFO does not care."""

    def miss(self, page):
        """The page comes in. What is returned leaves: None while a frame is free."""
        victim = self.queue.pop(0) if len(self.queue) == self.frames else None
        self.queue.append(page)
        return victim
