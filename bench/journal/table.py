"""Runs the plain and the proved program in turn, and prints what bench/journal.sh says."""

import os
import statistics
import subprocess
import sys
import time

BENCH = os.path.dirname(os.path.dirname(os.path.abspath(__file__)))
MODEL = ("knapsack", "50", "5", "1")
NODES = 61  # some 150 events
ROUNDS = 31  # many short ones, since a disk's syncs differ much from one another
SPENT = 8

folder, plain, proved = sys.argv[1:]
model, journal, copied, certificate = (os.path.join(folder, name) for name in ("model.mps", "journal", "copied", "certificate"))


def run(status, *words):
    """What a program prints, and the seconds that it spends outside its own code: in calls of the system, or waiting for them."""
    start = time.monotonic()
    process = subprocess.Popen(words, stdout=subprocess.PIPE, text=True)
    lines = process.stdout.read()
    _, ended, usage = os.wait4(process.pid, 0)
    seconds = time.monotonic() - start - usage.ru_utime
    process.stdout.close()
    if os.waitstatus_to_exitcode(ended) != status:
        sys.exit(f"{' '.join(words)}: ended with {os.waitstatus_to_exitcode(ended)}, {lines}")
    return lines, seconds


def search():
    """A search with a new journal."""
    if os.path.exists(journal):
        os.remove(journal)
    return run(SPENT, proved, "solve", model, journal, certificate, "--cuts", "0", "--nodes", str(NODES))[1]


def copy():
    """The frames of that journal, added to a new one."""
    if os.path.exists(copied):
        os.remove(copied)
    return run(0, plain, journal, copied)[1]


with open(model, "w", encoding="ascii") as file:
    subprocess.run([sys.executable, os.path.join(BENCH, "search", "models.py"), *MODEL], stdout=file, check=True)
search()
seconds = {search: [], copy: []}
for turn in range(ROUNDS):
    for call in (search, copy) if turn % 2 else (copy, search):
        seconds[call].append(call())
with open(journal, "rb") as file, open(copied, "rb") as other:
    if file.read() != other.read():
        sys.exit("plain Rust wrote another journal")
frames = int(run(0, plain, journal)[0])
own, base = (statistics.median(seconds[call]) for call in (search, copy))
print(f"the program {frames / own:8.0f} frames a second, plain Rust {frames / base:8.0f}")
print(f"the program takes {own / base:.2f} times plain Rust, by the medians of {ROUNDS} rounds of {frames} frames ({os.path.getsize(journal)} bytes)")
