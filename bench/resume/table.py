"""Runs the programs in turn, and prints what bench/resume.sh says."""

import os
import random
import shutil
import subprocess
import sys

BENCH = os.path.dirname(os.path.dirname(os.path.abspath(__file__)))
sys.dont_write_bytecode = True
sys.path.append(os.path.join(os.path.dirname(BENCH), "tools"))

from bnc_tools.journal import GROUP, MARK, SPLIT, Payload, encodings, records, single_events

# kind, columns, rows, seed, budget of nodes, cuts: without cuts the journal has 50,002 events
LONG = (
    ("knapsack", 50, 5, 2, 50_001, 0),
    ("knapsack", 50, 5, 1, 20_001, 256),
)
# equality knapsacks with no objective, whose trees are deep: the coefficients, and the budget of nodes; each right side is the same
DEEP = (
    ("cuww1", (12223, 12224, 36674, 61119, 85569), 200_001),
    ("4 columns", (12223, 12224, 36674, 61119), 200_001),
)
RIGHT_SIDE = 89643481
# rows of large numbers, whose linear programs are cramped at many nodes: columns, rows, bits of a coefficient, and the budget of nodes
CRAMPED = (
    (8, 3, 25, 4_001),
    (12, 8, 25, 4_001),
)
# splits of a journal whose tree is a chain, alone, and with its leaves closed from either end
CHAIN = 100_000
RUNS = 5
SPENT = 8

folder, program = sys.argv[1:3]
others = sys.argv[3:4]
journal, older, copied, certificate = (os.path.join(folder, name) for name in ("journal", "older", "copied", "certificate"))


def run(*words, status=0):
    """What a program prints, its processor time in seconds, and the peak of its memory in bytes."""
    process = subprocess.Popen([str(word) for word in words], stdout=subprocess.PIPE, text=True)
    lines = process.stdout.read()
    _, ended, usage = os.wait4(process.pid, 0)
    process.stdout.close()
    if os.waitstatus_to_exitcode(ended) != status:
        sys.exit(f"{' '.join(map(str, words))}: ended with {os.waitstatus_to_exitcode(ended)}, {lines}")
    return lines, usage.ru_utime + usage.ru_stime, usage.ru_maxrss * 1024


def make(kind, columns, rows, seed):
    path = os.path.join(folder, f"{kind}-{columns}-{rows}-{seed}.mps")
    words = [sys.executable, os.path.join(BENCH, "search", "models.py"), kind, columns, rows, seed]
    with open(path, "w", encoding="ascii") as file:
        subprocess.run([str(word) for word in words], stdout=file, check=True)
    return path


def make_equality(name, coefficients):
    path = os.path.join(folder, name.replace(" ", "-") + ".mps")
    columns = "".join(f" x{j} row {number}\n" for j, number in enumerate(coefficients))
    bounds = "".join(f" UP bound x{j} 10000\n" for j in range(len(coefficients)))
    marked = f" m 'MARKER' 'INTORG'\n{columns} m 'MARKER' 'INTEND'\n"
    with open(path, "w", encoding="ascii") as file:
        file.write(f"NAME {name.split()[0]}\nROWS\n N cost\n E row\nCOLUMNS\n{marked}RHS\n rhs row {RIGHT_SIDE}\nBOUNDS\n{bounds}ENDATA\n")
    return path


def make_large(columns, rows, bits):
    """Equality rows whose coefficients are large and have little in common, so that fractions are soon too large; no point is near at hand."""
    numbers = random.Random(f"{columns} {rows} {bits}")
    path = os.path.join(folder, f"large-{columns}-{rows}-{bits}.mps")
    coefficients = [[numbers.randint(1, 1 << bits) for _ in range(columns)] for _ in range(rows)]
    lines = ["NAME large", "ROWS", " N cost"] + [f" E r{i}" for i in range(rows)] + ["COLUMNS", " m 'MARKER' 'INTORG'"]
    for j in range(columns):
        lines.append(f" x{j} cost {numbers.randint(1, 1000)}")
        lines += [f" x{j} r{i} {row[j]}" for i, row in enumerate(coefficients)]
    lines += [" m 'MARKER' 'INTEND'", "RHS"] + [f" rhs r{i} {2 * sum(row) + 1}" for i, row in enumerate(coefficients)]
    lines += ["BOUNDS"] + [f" UP box x{j} 1000" for j in range(columns)] + ["ENDATA", ""]
    with open(path, "w", encoding="ascii") as file:
        file.write("\n".join(lines))
    return path


def payloads_of_journal():
    with open(journal, "rb") as file:
        return [content for _, content in records(file, journal)]


def cramped_steps():
    """How many splits of the journal there are, and how many of these name a cramped run (docs/JOURNAL.md has the format)."""
    splits = cramped = 0
    for payload, encoding in encodings(payloads_of_journal()):
        if payload[0] == SPLIT:
            splits += 1
            cramped += Payload(payload, encoding).events()[0].reason == "cramped"
    return splits, cramped


def write_older():
    """Writes the journal as a program that knows encoding 1 alone would have: the same events in each payload, and no record of the upgrade."""
    payloads = payloads_of_journal()
    with open(older, "wb") as file:
        file.write(MARK)
        for payload in payloads[:1] + [in_encoding_1(payload, encoding) for payload, encoding in encodings(payloads)]:
            file.write(b"\x01" + len(payload).to_bytes(4, "little") + payload)
        file.write(b"\x00")


def in_encoding_1(payload, encoding):
    codes = single_events(payload, encoding)
    return b"".join([bytes([GROUP, len(codes)]) if len(codes) > 1 else b""] + codes)


def number(lines, name):
    return int(next(line.split()[1] for line in lines.splitlines() if line.startswith(name + " ")))


def solve(model, budget, cuts):
    """A search that is spent, with its journal from the beginning: its nodes, and its processor time in seconds."""
    if os.path.exists(journal):
        os.remove(journal)
    lines, seconds, _ = run(program, "solve", model, journal, certificate, "--cuts", cuts, "--nodes", budget, status=SPENT)
    return number(lines, "nodes"), seconds


def read_row(command, words, status, searched=None):
    """A line on a command that reads the journal; with another program, the ratio of their times. Where the time of the search is given, the ratio to
    that is printed too."""
    size, events = os.path.getsize(journal), number(run(program, "show", journal)[0], "events")
    seen = {name: [] for name in [program] + others}
    for _ in range(RUNS):
        for name, runs in seen.items():
            shutil.copyfile(journal, copied)  # a run that goes on may write to it
            runs.append(run(name, command, copied, *words, status=status))
    if len({lines for runs in seen.values() for lines, _, _ in runs}) != 1:
        sys.exit(f"{command}: other lines")
    least = [min(seconds for _, seconds, _ in runs) for runs in seen.values()]
    peak = max(memory for _, _, memory in seen[program])
    ratio = "".join(f"  ratio {least[0] / seconds:5.2f}" for seconds in least[1:])
    if searched:
        ratio += f"  {least[0] / searched:5.3f} of the search"
    print(f"{command:8} {events:,} events, {size / 1e6:.1f} MB: {least[0]:5.2f} s, {events / least[0]:9,.0f} events/s, peak {peak / size:.2f} times the journal{ratio}")


def older_row():
    """A line on the journal beside the same in encoding 1: their bytes, and the times of `show`."""
    write_older()
    size, older_size = os.path.getsize(journal), os.path.getsize(older)
    seen = {path: [] for path in (journal, older)}
    for _ in range(RUNS):
        for path, runs in seen.items():
            runs.append(run(program, "show", path))
    if len({lines for runs in seen.values() for lines, _, _ in runs}) != 1:
        sys.exit("show: other lines of the journal in encoding 1")
    own, other = (min(seconds for _, seconds, _ in runs) for runs in seen.values())
    print(f"in encoding 1 {older_size / 1e6:.1f} MB: the journal has {size / older_size:.3f} of its bytes, and is read in {own / other:.2f} of its time")


for kind, columns, rows, seed, budget, cuts in LONG:
    print(f"{kind} {columns} x {rows}, {seed}, cuts {cuts}:")
    solve(make(kind, columns, rows, seed), budget, cuts)
    read_row("show", (), 0)
    read_row("resume", (certificate, "--cuts", cuts, "--nodes", budget), SPENT)
    older_row()
for name, coefficients, budget in DEEP:
    nodes, searched = solve(make_equality(name, coefficients), budget, 0)
    print(f"equality knapsack, {name}: {nodes:,} nodes searched in {searched:.2f} s")
    read_row("show", (), 0, searched)
    read_row("resume", (certificate, "--cuts", 0, "--nodes", budget), SPENT, searched)
    older_row()
for columns, rows, bits, budget in CRAMPED:
    nodes, searched = solve(make_large(columns, rows, bits), budget, 0)
    splits, cramped = cramped_steps()
    print(f"rows of large numbers, {columns} x {rows}: {nodes:,} nodes searched in {searched:.2f} s, {cramped:,} of {splits:,} splits name a cramped run")
    read_row("show", (), 0, searched)
    read_row("resume", (certificate, "--cuts", 0, "--nodes", budget), SPENT, searched)
    older_row()
for order in ("", "deepest", "first"):
    with open(journal, "wb") as file:
        subprocess.run([sys.executable, os.path.join(BENCH, "resume", "chain.py"), str(CHAIN), order], stdout=file, check=True)
    print(f"a chain of {CHAIN:,} splits" + (f", closed from the {order} leaf on:" if order else ":"))
    read_row("show", (), 0)
