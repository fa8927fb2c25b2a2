"""Looks at a journal by `bnc show`, and what is shown of them."""
from __future__ import annotations

import os
import subprocess
import time
from dataclasses import dataclass, field

from .faults import WRONG, Fault, printable
from .program import NO_PROGRAM

BAR = 24
COUNTS = ("events", "nodes", "cuts", "open")


@dataclass
class Look:
    """What `bnc show` told: its status and lines, when it was called, and how long it took, in seconds."""

    status: int
    lines: list[str]
    when: float
    took: float
    is_held: bool | None = None
    counts: dict[str, int] = field(default_factory=dict)
    best: str = ""

    def refusal(self) -> str:
        """The line of a look that failed."""
        return self.lines[0] if self.lines else f"bnc show ended with status {self.status}"

    def is_finished(self) -> bool:
        """Whether no node is left to settle."""
        return self.counts.get("open") == 0


@dataclass
class Rates:
    """What is kept over the looks: the most open nodes."""

    most_open: int = 0

    def add(self, look: Look) -> None:
        self.most_open = max(self.most_open, look.counts["open"])


def is_held(journal: str) -> bool | None:
    """Whether a run has the journal, as /proc/locks tells; none where it can't be told. No lock is tried, since that could keep a run out."""
    try:
        entry = os.stat(journal)
        with open("/proc/locks", encoding="ascii") as locks:
            lines = locks.read().split("\n")
    except OSError:
        return None
    place = f"{os.major(entry.st_dev):02x}:{os.minor(entry.st_dev):02x}:{entry.st_ino}"
    return any(place in line.split() for line in lines)


def take_look(program: str, journal: str) -> Look:
    """Calls `bnc show`. `Fault`: the program doesn't start, or tells something else than counts."""
    began = time.time()
    try:
        ran = subprocess.run([program, "show", "--", journal], stdin=subprocess.DEVNULL, capture_output=True, text=True, errors="replace", check=False)
    except OSError as error:
        raise Fault(NO_PROGRAM, program, f"can't be called: {error.strerror}") from None
    status = ran.returncode if ran.returncode >= 0 else 128 - ran.returncode
    look = Look(status, ran.stdout.splitlines(), began, time.time() - began, is_held(journal))
    if not look.status:
        read_counts(look, program)
    return look


def read_counts(look: Look, program: str) -> None:
    """Reads the lines of a look. `Fault`: they aren't those of `bnc show`."""
    words = dict(line.split(" ", 1) for line in look.lines if " " in line)
    try:
        look.counts = {name: int(words[name]) for name in COUNTS}
        look.best = words["best"]
    except (KeyError, ValueError):
        raise Fault(WRONG, program, "show told something else than events, nodes, cuts, open and best") from None


def rate(look: Look, last: Look | None, name: str) -> tuple[int, float]:
    """By how much a count has grown since the last look, and how much that is in a second."""
    if last is None:
        return 0, 0.0
    grown = look.counts[name] - last.counts[name]
    return grown, grown / max(look.when - last.when, 0.001)


def bar(part: int, whole: int) -> str:
    """A bar of a part of a whole."""
    filled = round(BAR * part / whole) if whole else 0
    return "[" + "#" * filled + "." * (BAR - filled) + "]"


def state(look: Look) -> str:
    """What the search is at, in words."""
    if look.is_finished():
        return "finished: infeasible" if look.best == "none" else f"finished: optimal {look.best}"
    return {True: "a run has the journal", False: "no run has the journal", None: "not finished"}[look.is_held]


def page(journal: str, look: Look, last: Look | None, rates: Rates) -> list[str]:
    """The lines for a terminal. The bar is of the open nodes: it tells nothing of how long a search takes."""
    clock = time.strftime("%H:%M:%S", time.localtime(look.when))
    lines = [f"{printable(journal)}  {clock}  {state(look)}"]
    for name in ("events", "nodes"):
        grown, second = rate(look, last, name)
        lines.append(f"{name:7}{look.counts[name]:14,}  {grown:+12,} since the last look  {second:12,.1f} a second")
    lines.append(f"cuts   {look.counts['cuts']:14,}")
    lines.append(f"open   {look.counts['open']:14,}  {bar(look.counts['open'], rates.most_open)} of {rates.most_open:,}, the most seen")
    lines.append(f"best   {look.best:>14}")
    return lines


def plain_line(look: Look, last: Look | None) -> str:
    """The line of a look for a file or a pipe."""
    clock = time.strftime("%H:%M:%S", time.localtime(look.when))
    counts = "  ".join(f"{name} {look.counts[name]}" for name in COUNTS)
    grown, _ = rate(look, last, "events")
    _, second = rate(look, last, "nodes")
    end = f"  {state(look)}" if look.is_finished() else ""
    return f"{clock}  {counts}  best {look.best}  events {grown:+}  nodes {second:.1f} a second{end}"
