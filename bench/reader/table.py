"""Runs the plain and the proved program on the texts of a folder in turn, and prints what bench/reader.sh says."""

import os
import subprocess
import sys

RUNS = 5
ENDS = {3: "refused", 4: "read"}  # the statuses of a model that is refused, and of a journal that is none

folder, plain, proved = sys.argv[1:]
no_journal, certificate = os.path.join(folder, "no_journal"), os.path.join(folder, "certificate")


def run(*words):
    """What a program tells, its processor time in seconds, its peak of memory in bytes, and its status."""
    # GNU time starts it, since what Python starts inherits Python's peak of memory
    words = ["/usr/bin/time", "-q", "-f", "%M", "-o", os.path.join(folder, "time"), *words]
    process = subprocess.Popen(words, stdout=subprocess.PIPE, stderr=subprocess.DEVNULL, text=True)
    told = process.stdout.read()
    _, ended, usage = os.wait4(process.pid, 0)
    process.stdout.close()
    with open(os.path.join(folder, "time"), encoding="ascii") as file:
        memory = int(file.read()) * 1024
    return told, usage.ru_utime + usage.ru_stime, memory, os.waitstatus_to_exitcode(ended)


def read_by_plain(text):
    """The seconds, and what was told: the size of the model, or the fault."""
    told, seconds, _, _ = run(plain, text)
    return seconds, told.split(maxsplit=2)[2].strip()


def read_by_proved(text):
    """The seconds, the peak of memory, and whether the text was refused."""
    told, seconds, memory, status = run(proved, "solve", text, no_journal, certificate)
    if status not in ENDS:
        sys.exit(f"{text}: status {status}, {told}")
    return seconds, memory, ENDS[status]


def times(text):
    """The least times of both programs, and all that the runs told."""
    runs = [(read_by_plain(text), read_by_proved(text)) for _ in range(RUNS)]
    return min(base[0] for base, _ in runs), min(own[0] for _, own in runs), runs


with open(no_journal, "wb") as file:
    file.write(b"no journal")
empty = os.path.join(folder, "empty")
with open(empty, "wb"):
    pass
start, own_start, _ = times(empty)
print(f"a start takes {start * 1000:.1f} ms in plain Rust, {own_start * 1000:.1f} ms of the program; the times below are without it")
for name in sorted(os.listdir(folder)):
    if not name.endswith(".mps"):
        continue
    text = os.path.join(folder, name)
    size = os.path.getsize(text)
    base, own, runs = times(text)
    base, own = max(base - start, 1e-4), max(own - own_start, 1e-4)
    memory = max(own_run[1] for _, own_run in runs)
    print(
        f"{name:16} {size:8} bytes  plain Rust {size / base / 1e6:6.0f} MB/s  the program {size / own / 1e6:6.0f} MB/s"
        f"  time ratio {own / base:5.2f}  at most {memory / size:4.1f} times the text  {runs[0][1][2]}; {runs[0][0][1]}"
    )
