#!/bin/sh
# Compares the turn lock with std's Mutex in plain Rust (bench/lock/plain.rs), in one run on one machine: nanoseconds of an enter and a
# leave beside those of a lock and an unlock, the least of five runs, and their ratio; alone, and by four threads. Then four threads each
# keep a turn for long: how many cores the program takes meanwhile, of which one works. Build the program first: `rt run` in
# crates/turn_lock_bench.
. "$(dirname "$0")/common.sh"
prepare turn_lock_bench lock
python3 - "$work/plain" "$proved" <<'END'
import os
import subprocess
import sys

TURNS = 1_000_000  # of one run, as in the programs


def least(times, line):
    work, time = line.split()[:2]
    times[work] = min(int(time), times.get(work, int(time)))


plain, proved = {}, {}
for _ in range(5):
    for line in subprocess.check_output([sys.argv[1]], text=True).splitlines():
        least(plain, line)
    for work in ("alone", "four"):
        least(proved, subprocess.check_output([sys.argv[2], work], text=True))
for work in ("alone", "four"):
    a, b = plain[work] / TURNS, proved[work] / TURNS
    print(f"{work:6} mutex {a:8.2f} ns  turn lock {b:8.2f} ns  ratio {b / a:5.2f}")
before = os.times()
wall = int(subprocess.check_output([sys.argv[2], "long"], text=True).split()[1])
after = os.times()
used = after.children_user + after.children_system - before.children_user - before.children_system
print(f"long   four threads that keep a turn for long, one after another: {used / (wall / 1e9):.2f} cores in use")
END
