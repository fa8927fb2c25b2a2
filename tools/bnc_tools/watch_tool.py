"""The command `bnc-watch`."""
from __future__ import annotations

import argparse
import os
import shutil
import stat
import sys
import time

from .faults import INTERRUPTED, UNREAD, Fault, run, unreadable
from .program import find_program
from .words import Parser
from .watching import Look, Rates, page, plain_line, take_look

ABOUT = "Shows how far a search has come, again and again, until it is finished. Each look is a call of `bnc show`, which changes nothing."
MORE = """\
On a terminal the lines of a look stand over those of the last; else each look is one line. It waits at least five times as long as the last look
took. It ends when the search is finished, and at Ctrl-C (status 130). A journal that bnc refuses ends it with the status of bnc. Where there is no
program, the status is 127."""
LOOK_SHARE = 5
FAULT_DISK = 6
# A journal that is being mended, or not begun yet, is looked at again so many times.
PATIENCE = 5


def seconds(word: str) -> float:
    """The number of `--every`."""
    try:
        value = float(word)
    except ValueError:
        value = 0.0
    if not 0.05 <= value <= 86400:
        raise argparse.ArgumentTypeError("a number from 0.05 to 86400 is wanted")
    return value


def parser() -> Parser:
    made = Parser("bnc-watch", ABOUT, MORE)
    made.add_argument("journal", metavar="JOURNAL", help="the search's journal")
    made.add_argument("--every", metavar="SECONDS", type=seconds, default=2.0, help="the least time between two looks (2)")
    made.add_argument("--bnc", metavar="PROGRAM", help="the program; without it the one beside this tool, or on the PATH")
    return made


def need_journal(path: str) -> None:
    """`Fault`: there is no such file, or it is no plain one."""
    try:
        kind = os.stat(path).st_mode
    except OSError as error:
        raise unreadable(path, error) from None
    if not stat.S_ISREG(kind):
        raise Fault(UNREAD, path, "is a folder" if stat.S_ISDIR(kind) else "is no plain file")


def patient_look(program: str, journal: str, every: float) -> Look:
    """A look; one that meets a journal that is being mended is made again. `Fault`: the journal is refused."""
    for _ in range(PATIENCE):
        need_journal(journal)
        look = take_look(program, journal)
        if look.status != FAULT_DISK:
            break
        time.sleep(every)
    if look.status:
        raise Fault(look.status, journal, look.refusal())
    return look


def watch(program: str, journal: str, every: float) -> None:
    """Looks until the search is finished."""
    on_terminal, last, height = sys.stdout.isatty(), None, 0
    rates = Rates()
    while True:
        look = patient_look(program, journal, every)
        rates.add(look)
        if on_terminal:
            width = shutil.get_terminal_size().columns
            lines = [line[: width - 1] for line in page(journal, look, last, rates)]
            print(f"\x1b[{height}A\x1b[J" if height else "", "\n".join(lines), sep="", flush=True)
            height = len(lines)
        else:
            print(plain_line(look, last), flush=True)
        if look.is_finished():
            return
        last = look
        time.sleep(max(every, LOOK_SHARE * look.took))


def action(words: list[str]) -> int:
    call = parser().parse_args(words)
    program = find_program(call.bnc)
    try:
        watch(program, call.journal, call.every)
    except KeyboardInterrupt:
        return INTERRUPTED
    return 0


def main(words: list[str] | None = None) -> int:
    return run("bnc-watch", action, sys.argv[1:] if words is None else words)
