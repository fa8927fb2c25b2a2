#!/bin/sh
# What it costs to check the certificate of a long search: tools/bnc-check checks one of 1,175,717 derived lines, with --strict and without. It is
# that of an equation of 20 columns without a solution, whose tree has 587,859 nodes without cuts. The built program makes it, where there is one
# (`make test`, or `rt run` in crates/bnc_cli); else tests/people.d/models.py, in the same form. The script prints the derived lines, the length of
# the text, and for each check the seconds, those of the processor, and the peak of the memory.
set -e
cd "$(dirname "$0")/.."
work=$(mktemp -d /dev/shm/bench.XXXXXX)
trap 'rm -rf "$work"' EXIT
python3 - "$PWD/crates/bnc_cli/out/bnc_cli" "$work" <<'END'
import os
import subprocess
import sys
import time

# In a process of its own, since a process that is begun counts the memory of the one that begins it.
MAKE = """
import sys
sys.dont_write_bytecode = True
sys.path.append("tests/people.d")
import models
with open(sys.argv[1], "w", encoding="ascii") as file:
    file.writelines([models.equation(20, 17)] if sys.argv[2] == "model" else (line + "\\n" for line in models.EquationTree(20, 17).certificate()))
"""
program, work = sys.argv[1:]
model, journal, certificate = (os.path.join(work, name) for name in ("model.mps", "journal", "certificate"))
subprocess.run([sys.executable, "-c", MAKE, model, "model"], check=True)
if os.access(program, os.X_OK):
    subprocess.run([program, "solve", model, journal, certificate, "--nodes", "100000000", "--cuts", "0"], check=True, stdout=subprocess.DEVNULL)
else:
    print("there is no built program: tests/people.d/models.py makes the certificate")
    subprocess.run([sys.executable, "-c", MAKE, certificate, "certificate"], check=True)
with open(certificate, encoding="ascii") as file:
    lines = next(int(line.split()[1]) for line in file if line.startswith("DER "))
print(f"{lines:,} derived lines, {os.path.getsize(certificate) / 1e6:.1f} MB of text", flush=True)
for options in ([], ["--strict"]):
    start = time.monotonic()
    process = subprocess.Popen(["tools/bnc-check", model, certificate, *options], stdout=subprocess.PIPE, text=True)
    claim = process.stdout.read().strip()
    _, status, usage = os.wait4(process.pid, 0)
    if status != 0 or claim != "infeasible":
        sys.exit(f"status {status}: {claim}")
    print(f"bnc-check {' '.join(options)}: {time.monotonic() - start:.0f} s, {usage.ru_utime + usage.ru_stime:.0f} s of the processor,"
          f" peak memory {usage.ru_maxrss * 1024 / 1e6:.0f} MB", flush=True)
END
