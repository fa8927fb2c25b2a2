"""Searches whose nodes take microseconds, and workers that find no node, for bench/workers.sh."""

import os
import signal
import subprocess
import time

# An equality knapsack of 5 columns, whose nodes take some microseconds.
COEFFICIENTS = (12223, 12224, 36674, 61119, 85569)
SIDE, BOUND = 89643481, 10_000
WORKERS = (1, 2, 4)
SECONDS, RUNS = 5, 3
# Columns and rows of a knapsack whose first linear program takes seconds, so that all but one of 16 workers find no node.
WIDE, TALL, IDLE = 900, 300, 16
MARK, HEAD = 8, 5


def model_text():
    columns = "\n".join(f" x{at} r {number}" for at, number in enumerate(COEFFICIENTS))
    bounds = "\n".join(f" UP b x{at} {BOUND}" for at in range(len(COEFFICIENTS)))
    marks = " m 'MARKER' 'INTORG'", " m 'MARKER' 'INTEND'"
    return f"NAME fine\nROWS\n N obj\n E r\nCOLUMNS\n{marks[0]}\n{columns}\n{marks[1]}\nRHS\n rhs r {SIDE}\nBOUNDS\n{bounds}\nENDATA\n"


def payloads(path):
    """How many payloads the journal has, as docs/JOURNAL.md has it."""
    with open(path, "rb") as file:
        journal = file.read()
    count, gate = 0, MARK
    while gate < len(journal) - 1 and journal[gate] == 1:
        count, gate = count + 1, gate + HEAD + int.from_bytes(journal[gate + 1 : gate + HEAD], "little")
    return count


def run_for(seconds, program, model, folder, workers):
    """A search that is killed after some seconds: its events, the cores in use, and how often a second a thread of it slept."""
    journal, certificate = (os.path.join(folder, name) for name in ("journal", "certificate"))
    if os.path.exists(journal):
        os.remove(journal)
    words = [program, "solve", model, journal, certificate, "--cuts", "0", "--nodes", "1000000000", "--workers", str(workers)]
    process = subprocess.Popen(words, stdout=subprocess.DEVNULL)
    time.sleep(seconds)
    process.send_signal(signal.SIGKILL)
    _, _, usage = os.wait4(process.pid, 0)
    return payloads(journal) - 2, (usage.ru_utime + usage.ru_stime) / seconds, usage.ru_nvcsw / seconds


def fine(program, folder):
    """Events a second of each number of workers, the most of some runs, beside those of one."""
    model = os.path.join(folder, "fine.mps")
    with open(model, "w", encoding="ascii") as file:
        file.write(model_text())
    best = dict.fromkeys(WORKERS, (0, 0))
    for _ in range(RUNS):
        for workers in WORKERS:
            events, cores, _ = run_for(SECONDS, program, model, folder, workers)
            best[workers] = max(best[workers], (events / SECONDS, cores))
    one = best[WORKERS[0]][0]
    told = "".join(f"  {workers}: {rate:8,.0f} ratio {rate / one:4.2f} cores {cores:4.2f}" for workers, (rate, cores) in best.items())
    print(f"{'events, 5 columns':26}{told}", flush=True)


def idle(program, folder, make):
    """What 15 workers use that find no node, while one solves a long linear program."""
    model = make("knapsack", WIDE, TALL, 1)
    _, cores, sleeps = run_for(SECONDS, program, model, folder, IDLE)
    print(f"{IDLE} workers, one node: {cores:4.2f} cores in use, {sleeps:,.0f} sleeps a second", flush=True)
