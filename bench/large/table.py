"""What bench/large.sh prints: table.py FOLDER PLAIN PROGRAM SECONDS"""
import os
import resource
import subprocess
import sys

FOLDER, PLAIN, PROGRAM, SECONDS = *sys.argv[1:4], int(sys.argv[4])
RUNS = 3
MOST_MEMORY = 4 << 30
KINDS = [("cover", [], 1), ("packing", [], 1), ("bounded", [], 1), ("decimal", [], 1), ("refuted", [], 1), ("knapsack", ["8000", "5"], 100)]


def limited():
    """A run's limits: its time of the processor and its memory."""
    resource.setrlimit(resource.RLIMIT_CPU, (SECONDS, SECONDS + 5))
    resource.setrlimit(resource.RLIMIT_AS, (MOST_MEMORY, MOST_MEMORY))


def run(*words):
    """What a program tells, its processor time in seconds, its peak of memory in bytes, and its status. GNU time starts it, since what Python starts
    inherits Python's peak of memory."""
    told = os.path.join(FOLDER, "time")
    words = ["/usr/bin/time", "-q", "-f", "%U %S %M", "-o", told, *words]
    done = subprocess.run(words, stdout=subprocess.PIPE, stderr=subprocess.DEVNULL, text=True, check=False, preexec_fn=limited)
    with open(told, encoding="ascii") as file:
        user, system, memory = file.read().split()[-3:]
    return done.stdout, float(user) + float(system), int(memory) * 1024, done.returncode


def main():
    journal, certificate, no_journal = (os.path.join(FOLDER, name) for name in ("journal", "certificate", "no_journal"))
    with open(no_journal, "w", encoding="ascii") as file:
        file.write("no journal")
    here = os.path.dirname(os.path.abspath(__file__))
    for kind, sizes, nodes in KINDS:
        model = os.path.join(FOLDER, f"{kind}.mps")
        with open(model, "wb") as file:
            subprocess.run([sys.executable, os.path.join(here, "models.py"), kind, *sizes], stdout=file, check=True)
        size = os.path.getsize(model)
        base = min(run(PLAIN, model)[1] for _ in range(RUNS))
        reads = [run(PROGRAM, "solve", model, no_journal, certificate) for _ in range(RUNS)]
        own, memory = min(it[1] for it in reads), max(it[2] for it in reads)
        print(f"{kind}: {size} bytes read in {1000 * own:.0f} ms, plain Rust in {1000 * base:.0f} ms, {own / base:.2f}; {memory / size:.1f} times the text", flush=True)
        for options in ([], ["--cuts", "0"]):
            for old in (journal, certificate):
                if os.path.exists(old):
                    os.remove(old)
            told, seconds, memory, status = run(PROGRAM, "solve", model, journal, certificate, "--nodes", str(nodes), *options)
            end = told.replace("\n", " ").strip() if status >= 0 and told else f"ended after {SECONDS} s"
            print(f"  solve --nodes {nodes} {' '.join(options)}: {end}; {seconds:.1f} s, {memory / (1 << 20):.0f} MiB, journal {os.path.getsize(journal)} bytes", flush=True)


main()
