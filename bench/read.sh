#!/bin/sh
# How long the built program takes, and how much memory at most: on a model of 8,000 columns, and on one of near 32 MiB, the most that it
# reads. A line for each: the bytes of the model, the lines of the certificate, the least time of five runs and the peak of memory. Build
# the program first, by `make test` or `make build`.
. "$(dirname "$0")/common.sh"
prepare bnc_cli
[ -x /usr/bin/time ] || { echo "no /usr/bin/time: it measures the memory" >&2; exit 1; }
cd "$work"
python3 - "$proved" <<'END'
import subprocess
import sys
import time

COLUMNS = ROWS = 8000  # as many as a model may have
LIMIT = 33_554_432  # the bytes that it may have
SHORTEST = 15  # the bytes of the shortest line of an entry
RUNS = 5


def model(rows, entries):
    """All columns fixed at 3; each row's coefficients are above 0, so that its sum is at least its right side, 1."""
    lines = ["NAME bench", "ROWS", " N cost"] + [f" G row{i}" for i in range(rows)]
    lines += ["COLUMNS", " mark 'MARKER' 'INTORG'"]
    for j in range(COLUMNS):
        lines.append(f" column{j} cost {j - COLUMNS // 2}")
        for k in range(entries):
            lines.append(f" column{j} row{(7 * j + k) % rows} {1 + (j + k) % 9}")
    lines += [" mark 'MARKER' 'INTEND'", "RHS"] + [f" rhs row{i} 1" for i in range(rows)]
    lines += ["BOUNDS"] + [f" FX box column{j} 3" for j in range(COLUMNS)] + ["ENDATA", ""]
    return "\n".join(lines)


def largest(rows):
    """The model of this form with most entries that is within the limit."""
    fits, beyond = 1, min(rows, LIMIT // (SHORTEST * COLUMNS)) + 1
    while beyond - fits > 1:
        middle = (fits + beyond) // 2
        fits, beyond = (middle, beyond) if len(model(rows, middle)) <= LIMIT else (fits, middle)
    return model(rows, fits)


def measured(name):
    """The seconds and the KiB of one run. GNU time is told to start it, since what Python starts inherits Python's peak of memory."""
    begin = time.perf_counter()
    words = ["/usr/bin/time", "-q", "-f", "%M", "-o", "memory", sys.argv[1], "solve", name, "journal", "cert"]
    subprocess.run(words, stdout=subprocess.DEVNULL, check=True)
    seconds = time.perf_counter() - begin
    with open("memory") as file:
        return seconds, int(file.read())


for name, text in [("columns.mps", model(10, 1)), ("largest.mps", largest(ROWS))]:
    with open(name, "w") as file:
        file.write(text)
    runs = [measured(name) for _ in range(RUNS)]
    seconds, memory = min(run[0] for run in runs), max(run[1] for run in runs)
    with open("cert") as file:
        lines = sum(1 for _ in file)
    print(f"{name}  {len(text)} bytes  certificate {lines} lines  {1000 * seconds:.1f} ms  at most {memory / 1024:.1f} MiB")
END
