#!/usr/bin/env python3
"""Tries bnc-watch on searches that run, are finished, and are no searches at all."""
import os
import pty
import select
import signal
import subprocess
import sys
import time

from trial import TOOLS, TOP, Trial, main

WATCH = os.path.join(TOOLS, "bnc-watch")


def odd_knapsack(count: int) -> str:
    """A model without a feasible point: numbers that are even, and a sum that is odd. Without cuts its tree has about 2 to the count nodes."""
    numbers = [2 * (37 * at % 101 + 50) for at in range(count)]
    entries = [f" x{at} need {number}" for at, number in enumerate(numbers)]
    bounds = [f" BV bnd x{at}" for at in range(count)]
    head = ["NAME odd", "ROWS", " N cost", " E need", "COLUMNS", " m1 'MARKER' 'INTORG'", *entries, " m2 'MARKER' 'INTEND'", "RHS"]
    return "\n".join([*head, f" rhs need {sum(numbers) // 2 | 1}", "BOUNDS", *bounds, "ENDATA", ""])


def start_search(trial: Trial, count: int, journal: str) -> subprocess.Popen:
    """Starts a search, and waits until its journal is there."""
    model = trial.write(f"odd{count}.mps", odd_knapsack(count))
    search = trial.start(trial.program, "solve", model, trial.path(journal), "/dev/null", "--cuts", "0")
    while search.poll() is None and not os.path.exists(trial.path(journal)):
        time.sleep(0.02)
    return search


def finished(trial: Trial) -> None:
    """A finished journal: one look."""
    model = os.path.join(TOP, "examples", "knapsack.mps")
    trial.run(trial.program, "solve", model, "done.journal", "done.cert")
    ran = trial.run(WATCH, "done.journal", "--bnc", trial.program)
    trial.need("a finished search: one line, and the end", ran.status == 0 and ran.out.count("\n") == 1 and "finished: optimal -15" in ran.out, str(ran))


def running(trial: Trial) -> None:
    """A search that ends while it is watched, and one that is left by Ctrl-C."""
    search = start_search(trial, 7, "small.journal")
    ran = trial.run(WATCH, "small.journal", "--bnc", trial.program, "--every", "0.1")
    search.wait()
    trial.need("a search that ends: the watch ends with it", ran.status == 0 and "finished: infeasible" in ran.out, str(ran))
    search = start_search(trial, 16, "large.journal")
    words = [WATCH, trial.path("large.journal"), "--bnc", trial.program, "--every", "0.1"]
    watch = subprocess.Popen(words, stdout=subprocess.PIPE, stderr=subprocess.PIPE)
    first, second = watch.stdout.readline(), watch.stdout.readline()
    watch.send_signal(signal.SIGINT)
    _, error = watch.communicate(timeout=120)
    trial.need("Ctrl-C ends it quietly", watch.returncode == 130 and not error, f"{watch.returncode} {error!r}")
    trial.need("a running search: rates since the last look", b"events +" in second and b"best none" in first, f"{first} {second}")
    on_terminal(trial)
    search.terminate()
    search.wait()


def on_terminal(trial: Trial) -> None:
    """On a terminal the lines of a look stand over those of the last."""
    master, slave = pty.openpty()
    watch = subprocess.Popen([WATCH, trial.path("large.journal"), "--bnc", trial.program, "--every", "0.1"], stdout=slave, stderr=slave)
    os.close(slave)
    text, end = b"", time.time() + 120
    while text.count(b"best") < 2 and time.time() < end:
        if select.select([master], [], [], 1)[0]:
            text += os.read(master, 65536)
    watch.send_signal(signal.SIGINT)
    watch.wait(timeout=120)
    os.close(master)
    good = b"\x1b[6A\x1b[J" in text and b"[####" in text and b"a second" in text and b"Traceback" not in text
    trial.need("a terminal: a bar and rates, in one place", good, repr(text[-600:]))


def refusals(trial: Trial) -> None:
    """Files that are no journals, and programs that aren't there."""
    with_program = ("--bnc", trial.program)
    trial.refuses("no such file", 5, "none.journal: can't be read", WATCH, "none.journal", *with_program)
    os.mkdir(trial.path("folder"))
    trial.refuses("a folder", 5, "folder: is a folder", WATCH, "folder", *with_program)
    trial.write("empty.journal", "")
    trial.refuses("an empty file", 4, "empty.journal: refused journal NoModel", WATCH, "empty.journal", *with_program)
    model = os.path.join(TOP, "examples", "knapsack.mps")
    trial.refuses("a model", 4, "refused journal NotAJournal", WATCH, model, *with_program)
    with open(trial.path("done.journal"), "rb") as journal:
        data = bytearray(journal.read())
    data[len(data) // 2] ^= 255
    trial.write("broken.journal", bytes(data))
    trial.refuses("a damaged journal", 4, "refused journal Damaged", WATCH, "broken.journal", *with_program)
    trial.environment = {"PATH": trial.folder}
    trial.refuses("no program on the PATH", 127, "bnc is not on the PATH", sys.executable, WATCH, "done.journal")
    trial.environment = {}
    trial.refuses("a program that isn't there", 127, "nowhere: is no program", WATCH, "done.journal", "--bnc", "nowhere")
    trial.refuses("another program", 1, "show told something else", WATCH, "done.journal", "--bnc", "/bin/true")


def cut_journals(trial: Trial) -> None:
    """A journal that is cut: the counts up to there, or a refusal in one line."""
    with open(trial.path("done.journal"), "rb") as journal:
        data = journal.read()
    wrong = ""
    for at in (1, 7, 9, len(data) // 3, len(data) // 2, len(data) - 1):
        path = trial.write("cut.journal", data[:at])
        watch = subprocess.Popen([WATCH, path, "--bnc", trial.program], stdout=subprocess.PIPE, stderr=subprocess.PIPE, text=True)
        first = watch.stdout.readline()
        # a watch of a finished search ends by itself, and a signal would meet the interpreter on its way out
        if first and "finished" not in first:
            watch.send_signal(signal.SIGINT)
        _, error = watch.communicate(timeout=120)
        if not ("events" in first and not error or "cut.journal: refused journal" in error and error.count("\n") == 1):
            wrong = f"cut at {at}: {first!r} {error!r}"
    trial.need("journals that are cut", not wrong, wrong)


def cases(trial: Trial) -> None:
    finished(trial)
    running(trial)
    cut_journals(trial)
    refusals(trial)


if __name__ == "__main__":
    main(cases)
