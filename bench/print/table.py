"""Runs the plain and the proved program in turn, and prints what bench/print.sh says."""

import os
import subprocess
import sys

COLUMNS, RHS = 18, 17  # twice the sum of the columns is odd nowhere
RUNS = 5

folder, plain, proved = sys.argv[1:]
model, journal, certificate, printed = (os.path.join(folder, name) for name in ("model.mps", "journal", "certificate", "printed"))


def model_text():
    names = [f"x{column}" for column in range(COLUMNS)]
    yield "NAME equation\nROWS\n N cost\n E odd\nCOLUMNS\n m 'MARKER' 'INTORG'\n"
    yield from (f" {name} odd 2\n" for name in names)
    yield f" m 'MARKER' 'INTEND'\nRHS\n rhs odd {RHS}\nBOUNDS\n"
    yield from (f" BV b {name}\n" for name in names)
    yield "ENDATA\n"


def run(*words):
    """What a program prints, and its processor time in seconds."""
    process = subprocess.Popen(words, stdout=subprocess.PIPE, text=True)
    lines = process.stdout.read()
    _, ended, usage = os.wait4(process.pid, 0)
    process.stdout.close()
    if ended != 0:
        sys.exit(f"{' '.join(words)}: ended with {os.waitstatus_to_exitcode(ended)}, {lines}")
    return lines, usage.ru_utime + usage.ru_stime


def least(*words):
    return min(run(*words)[1] for _ in range(RUNS))


with open(model, "w", encoding="ascii") as file:
    file.writelines(model_text())
run(proved, "solve", model, journal, certificate, "--cuts", "0", "--nodes", "100000000")
size = os.path.getsize(certificate)
own = least(proved, "resume", journal, certificate, "--cuts", "0", "--nodes", "100000000") - least(proved, "show", journal)
base = min(int(run(plain, certificate, printed)[0]) for _ in range(RUNS)) / 1e9
with open(certificate, "rb") as file, open(printed, "rb") as other:
    derived = file.read().partition(b"\nDER ")[2].partition(b"\n")[2]
    if other.read() != derived:
        sys.exit("plain Rust printed other lines")
print(f"a certificate of {size / 1e6:.1f} MB: made and printed {size / own / 1e6:.0f} MB/s, printed by plain Rust {len(derived) / base / 1e6:.0f} MB/s,"
      f" time ratio {own / size / (base / len(derived)):.2f}")
