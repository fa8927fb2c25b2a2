"""Runs the program with several numbers of workers in turn, and prints what bench/workers.sh says."""

import os
import subprocess
import sys
import time

import fine

BENCH = os.path.dirname(os.path.dirname(os.path.abspath(__file__)))
# kind, columns, rows, seed, budget of nodes, cuts
MODELS = (
    ("knapsack", 50, 5, 1, 40_001, 0),
    ("knapsack", 50, 5, 2, 40_001, 0),
    ("knapsack", 50, 5, 2, 20_001, 256),
)
WORKERS = (1, 2, 4)
RUNS = 5
DONE, SPENT = 0, 8
IN_MEMORY = "/dev/shm"
# A disk that syncs makes a thousand nodes a second or so: there each search ends at as many nodes.
NODES_ON_DISK = 4_001

folder, program, busy, place, microseconds = sys.argv[1:6]
# How many other programs keep a core busy meanwhile.
BUSY = int(busy)
# What the program is given, so that each sync takes so long.
SLOW = {"LD_PRELOAD": os.path.join(folder, "slow_sync.so"), "SYNC_MICROSECONDS": microseconds} if microseconds else {}
FAST = place == IN_MEMORY and not SLOW
journal, certificate = (os.path.join(folder, name) for name in ("journal", "certificate"))


def make(kind, columns, rows, seed):
    path = os.path.join(folder, f"{kind}-{columns}-{rows}-{seed}.mps")
    words = [sys.executable, os.path.join(BENCH, "search", "models.py"), kind, columns, rows, seed]
    with open(path, "w", encoding="ascii") as file:
        subprocess.run([str(word) for word in words], stdout=file, check=True)
    return path


def solve(model, budget, cuts, workers):
    """A search that ends or is spent, with its journal from the beginning: the nodes a second, and how many cores were in use."""
    if os.path.exists(journal):
        os.remove(journal)
    words = [program, "solve", model, journal, certificate, "--cuts", cuts, "--nodes", budget, "--workers", workers]
    began = time.monotonic()
    process = subprocess.Popen([str(word) for word in words], stdout=subprocess.PIPE, text=True, env={**os.environ, **SLOW})
    lines = process.stdout.read()
    _, ended, usage = os.wait4(process.pid, 0)
    seconds = time.monotonic() - began
    process.stdout.close()
    if os.waitstatus_to_exitcode(ended) not in (DONE, SPENT):
        sys.exit(f"{' '.join(map(str, words))}: ended with {os.waitstatus_to_exitcode(ended)}, {lines}")
    nodes = int(next(line.split()[1] for line in lines.splitlines() if line.startswith("nodes ")))
    return nodes / seconds, (usage.ru_utime + usage.ru_stime) / seconds


def row(name, model, budget, cuts):
    best = dict.fromkeys(WORKERS, (0, 0))
    for turn in range(RUNS):
        for workers in WORKERS[:: 1 if turn % 2 else -1]:
            best[workers] = max(best[workers], solve(model, budget, cuts, workers))
    one = best[WORKERS[0]][0]
    told = "".join(f"  {workers}: {rate:8,.0f} ratio {rate / one:4.2f} cores {cores:4.2f}" for workers, (rate, cores) in best.items())
    print(f"{name:26}{told}", flush=True)


def table():
    print(f"each line: of each number of workers the nodes a second, their ratio to those of one, and the cores in use; best of {RUNS}")
    for kind, columns, rows, seed, budget, cuts in MODELS:
        model = make(kind, columns, rows, seed)
        row(f"{kind} {columns} x {rows}, {seed}, cuts {cuts}", model, budget if FAST else min(budget, NODES_ON_DISK), cuts)
    if FAST:
        fine.fine(program, folder)
        fine.idle(program, folder, make)


if max(WORKERS) > (os.cpu_count() or 1):
    sys.exit(f"this machine has fewer than {max(WORKERS)} cores")
others = [subprocess.Popen([sys.executable, "-c", "while True: pass"]) for _ in range(BUSY)]
try:
    table()
finally:
    for other in others:
        other.kill()
