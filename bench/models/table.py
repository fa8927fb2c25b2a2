"""Solves small models of kinds that people solve with the program, and with `glpsol` and `cbc` where they are installed, and prints a table in
Markdown: how many columns and rows, the program's nodes and nodes a second, its time to the answer with the options as they are if none is given and
without cuts, and the other solvers' times. Times are of the processor; each run is stopped after a minute. Where another solver has another answer, the table says which: theirs are in floating point, so
they are compared to a thousandth. `cbc` takes some models in free MPS for fixed ones, so it gets what `glpsol` writes.
"""
import fractions
import os
import re
import resource
import shutil
import subprocess
import sys

HERE = os.path.dirname(os.path.abspath(__file__))
EXAMPLES = os.path.join(HERE, "..", "..", "examples")
# kind, seed, sizes
MODELS = (
    ("knapsack", 1, 30, 5),
    ("knapsack", 1, 40, 5),
    ("knapsack", 1, 50, 5),
    ("knapsack", 1, 60, 5),
    ("assign", 1, 10, 4),
    ("assign", 1, 15, 5),
    ("assign", 1, 20, 5),
    ("assign", 1, 24, 6),
    ("cover", 1, 60, 40),
    ("cover", 1, 120, 120),
    ("cover", 1, 120, 300),
    ("schedule", 1, 5),
    ("schedule", 1, 6),
    ("schedule", 1, 7),
    ("schedule", 1, 8),
    ("lots", 1, 12),
    ("lots", 1, 18),
    ("lots", 1, 24),
    ("lots", 1, 36),
    ("bins", 1, 8, 4),
    ("bins", 1, 12, 6),
    ("bins", 1, 16, 8),
    ("shifts", 1, 7),
    ("shifts", 1, 28),
)
OWN = ("assignment", "blend", "coins", "knapsack", "parity")
MINUTE = 60
NEAR = fractions.Fraction(1, 1000)

program, folder = sys.argv[1:]


def limit():
    resource.setrlimit(resource.RLIMIT_CPU, (MINUTE, MINUTE + 5))


def run(*words):
    """What a command prints and its processor time in seconds; none is printed where it took more than a minute."""
    process = subprocess.Popen(words, cwd=folder, stdout=subprocess.PIPE, stderr=subprocess.STDOUT, text=True, preexec_fn=limit)
    told = process.stdout.read()
    _, ended, usage = os.wait4(process.pid, 0)
    process.stdout.close()
    return None if os.WIFSIGNALED(ended) else told, usage.ru_utime + usage.ru_stime


def forget(*names):
    """Removes files of an earlier run."""
    for name in names:
        if os.path.exists(f"{folder}/{name}"):
            os.remove(f"{folder}/{name}")


def words_told(told):
    """The lines of the program, as a word and its value."""
    return dict(line.split(" ", 1) if " " in line else (line, "") for line in told.splitlines())


def solve(model, *options):
    """The program's answer (none where it took over a minute), its nodes and its seconds."""
    forget("journal", "certificate")
    told, seconds = run(program, "solve", model, "journal", "certificate", *options)
    shown = words_told(told or run(program, "show", "journal")[0])
    if told is None:
        return None, int(shown["nodes"]), seconds
    return "infeasible" if "infeasible" in shown else fractions.Fraction(shown["optimal"]), int(shown["nodes"]), seconds


def by_glpsol(model):
    forget("glpsol.out")
    told, seconds = run("glpsol", "--freemps", model, "--write", "glpsol.out")
    if told is None:
        return None, seconds
    with open(f"{folder}/glpsol.out", encoding="ascii") as file:
        found = re.search(r"^s mip \d+ \d+ (\w) (\S+)", file.read(), re.M)
    return "infeasible" if found[1] != "o" else fractions.Fraction(found[2]), seconds


def by_cbc(model):
    forget("fixed.mps", "cbc.out")
    run("glpsol", "--freemps", model, "--check", "--wmps", "fixed.mps")
    told, seconds = run("cbc", "fixed.mps", "solve", "solution", "cbc.out")
    if told is None:
        return None, seconds
    with open(f"{folder}/cbc.out", encoding="ascii") as file:
        first = file.readline()
    return "infeasible" if "nfeasible" in first else fractions.Fraction(first.split()[-1]), seconds


OTHERS = [(name, by) for name, by in (("glpsol", by_glpsol), ("cbc", by_cbc)) if shutil.which("glpsol") and shutil.which(name)]


def size_of(path):
    """How many columns and rows a model has."""
    with open(path, encoding="ascii") as file:
        lines = [line.split() for line in file if not line.startswith("*")]
    heads = {line[0]: at for at, line in enumerate(lines) if line and line[0] in ("ROWS", "COLUMNS", "RHS", "RANGES", "BOUNDS", "ENDATA")}
    first = min(at for name, at in heads.items() if at > heads["COLUMNS"])
    columns = {line[0] for line in lines[heads["COLUMNS"] + 1 : first] if "'MARKER'" not in line}
    return len(columns), sum(1 for line in lines[heads["ROWS"] + 1 : heads["COLUMNS"]] if line[0] != "N")


def agrees(one, other):
    """Whether two answers are the same, where both are there."""
    if one is None or other is None or "infeasible" in (one, other):
        return one is None or other is None or one == other
    return abs(one - other) <= NEAR * max(1, abs(one))


def spelled(answer, seconds):
    return f"over {MINUTE} s" if answer is None else f"{seconds:.2f} s"


def row(name, path):
    columns, rows = size_of(path)
    answer, nodes, seconds = solve(path)
    same, _, plain = solve(path, "--cuts", "0")
    if not agrees(answer, same):
        sys.exit(f"{name}: {answer} with cuts, {same} without")
    cells = [name, f"{columns} x {rows}", f"{nodes:,}", f"{nodes / seconds:,.0f}", spelled(answer, seconds), spelled(same, plain)]
    for other, by in OTHERS:
        theirs, took = by(path)
        told = "" if agrees(answer, theirs) else f", says {theirs if theirs == 'infeasible' else float(theirs)}"
        cells.append(spelled(theirs, took) + told)
    print("| " + " | ".join(cells) + " |", flush=True)


def make(kind, seed, *sizes):
    path = os.path.join(folder, "-".join(map(str, (kind, seed, *sizes))) + ".mps")
    words = [sys.executable, os.path.join(HERE, "models.py"), kind, seed, *sizes]
    with open(path, "w", encoding="ascii") as file:
        subprocess.run([str(word) for word in words], stdout=file, check=True)
    return path


def main():
    heads = ["model", "columns x rows", "nodes", "nodes/s", "bnc", "bnc --cuts 0"] + [name for name, _ in OTHERS]
    print("| " + " | ".join(heads) + " |")
    print("|---|---|" + "---:|" * (len(heads) - 2))
    for name in OWN:
        row(f"examples/{name}", os.path.abspath(os.path.join(EXAMPLES, f"{name}.mps")))
    for model in MODELS:
        kind, seed, *sizes = model
        row(f"{kind} {' by '.join(map(str, sizes))}", make(kind, seed, *sizes))


main()
