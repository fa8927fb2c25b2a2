"""A line on a terminal that says how far a tool has come."""
import sys
import time


class Progress:
    """Tells how far a tool has come, a few times a second, where standard error is a terminal. Else it tells nothing."""

    def __init__(self, what: str):
        self.what, self.total, self.count, self.next = what, 0, 0, 0.0
        self.is_shown = sys.stderr is not None and sys.stderr.isatty()

    def begin(self, total: int):
        """So many steps are to come."""
        self.total, self.count = total, 0

    def step(self):
        """One step more."""
        self.count += 1
        if self.is_shown and self.count % 1024 == 0:
            self.show()

    def show(self):
        now = time.monotonic()
        if now >= self.next:
            self.next = now + 0.2
            share = 100 * self.count // self.total if self.total else 0
            sys.stderr.write(f"\r{self.what}: {share} % of {self.total // 2:,} lines\x1b[K")
            sys.stderr.flush()

    def end(self):
        """Takes the line away."""
        if self.is_shown:
            sys.stderr.write("\r\x1b[K")
            sys.stderr.flush()
