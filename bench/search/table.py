"""Makes the models, runs both programs on them, and prints their processor times, the least of five runs each."""
import os
import subprocess
import sys

HERE = os.path.dirname(os.path.abspath(__file__))
# kind, columns, rows, seed, budget of nodes
MODELS = (
    ("knapsack", 50, 5, 1, 20_001),
    ("knapsack", 50, 5, 2, 20_001),
    ("knapsack", 100, 10, 1, 5_001),
    ("knapsack", 100, 10, 3, 5_001),
    ("cover", 120, 300, 1, 101),
    ("cover", 120, 300, 2, 101),
)
# knapsacks in quarters: columns, rows, seed, budget of nodes
DECIMALS = (
    (50, 5, 1, 20_001),
    (100, 10, 1, 5_001),
)
RUNS = 5
SPENT = 8

plain, proved, folder = sys.argv[1:]
journal, certificate = os.path.join(folder, "journal"), os.path.join(folder, "certificate")


def run(status, *words):
    """What a program prints, in words, and its processor time in seconds."""
    process = subprocess.Popen([str(word) for word in words], stdout=subprocess.PIPE, text=True)
    told = process.stdout.read().split()
    _, ended, usage = os.wait4(process.pid, 0)
    process.stdout.close()
    if os.waitstatus_to_exitcode(ended) != status:
        sys.exit(f"{' '.join(map(str, words))}: ended with {os.waitstatus_to_exitcode(ended)}, {told}")
    return told, usage.ru_utime + usage.ru_stime


def search_plain(path, budget):
    """The nodes and the pivots of a search that is spent, and its time."""
    (_, nodes, _, ending, pivots, *_), seconds = run(0, plain, "search", path, budget)
    if ending != "spent":
        sys.exit(f"{path}: {ending}")
    return int(nodes), int(pivots), seconds


def search_proved(path, budget):
    """The nodes of the same search, and its time."""
    if os.path.exists(journal):
        os.remove(journal)
    told, seconds = run(SPENT, proved, "solve", path, journal, certificate, "--cuts", 0, "--nodes", budget)
    return int(told[told.index("nodes") + 1]), seconds


def make(kind, columns, rows, seed):
    path = os.path.join(folder, f"{kind}-{columns}-{rows}-{seed}.mps")
    words = [sys.executable, os.path.join(HERE, "models.py"), kind, columns, rows, seed]
    with open(path, "w", encoding="ascii") as file:
        subprocess.run([str(word) for word in words], stdout=file, check=True)
    return path


def search_row(name, path, budget):
    """Nodes and pivots a second; the tree is the same in both, and so are the pivots, which plain Rust counts."""
    runs = [(search_plain(path, budget), search_proved(path, budget)) for _ in range(RUNS)]
    nodes, pivots, _ = runs[0][0]
    if any(own[0] != nodes for _, own in runs):
        sys.exit(f"{name}: plain Rust makes {nodes} nodes, the program {runs[0][1][0]}")
    base, own = min(run[0][2] for run in runs), min(run[1][1] for run in runs)
    print(f"{name:22} {nodes / base:9,.0f} and {nodes / own:9,.0f} nodes/s  {pivots / base:11,.0f} and {pivots / own:11,.0f} pivots/s  ratio {own / base:5.2f}")


def decimals_row(columns, rows, seed, budget):
    """Nodes a second of a knapsack in whole numbers and in quarters. The prices aren't the same, so the trees need not be."""
    paths = [make(kind, columns, rows, seed) for kind in ("knapsack", "decimals")]
    runs = [[search_proved(path, budget) for _ in range(RUNS)] for path in paths]
    whole, quarters = (max(nodes / seconds for nodes, seconds in of) for of in runs)
    print(f"decimals {columns} x {rows}, {seed}:  {whole:9,.0f} nodes/s in whole numbers, {quarters:9,.0f} in quarters  ratio {whole / quarters:5.2f}")


print("each line: plain Rust, then the proved program, and the ratio of their processor times")
for kind, columns, rows, seed, budget in MODELS:
    search_row(f"{kind} {columns} x {rows}, {seed}", make(kind, columns, rows, seed), budget)
for columns, rows, seed, budget in DECIMALS:
    decimals_row(columns, rows, seed, budget)
