#!/bin/sh
# Compares the crate fraction with the same rules in plain Rust (bench/fraction/plain.rs), in one run on one machine: a line for each size
# and operation with the nanoseconds of both, the least of five runs, and their ratio. Build the program first: `rt run` in
# crates/fraction_bench.
. "$(dirname "$0")/common.sh"
prepare fraction_bench fraction
for run in 1 2 3 4 5; do
    "$work/plain" >>"$work/plain.txt"
    "$proved" time >>"$work/proved.txt"
done
python3 - "$work/plain.txt" "$work/proved.txt" <<'END'
import sys

OPERATIONS = 100_000  # the pairs of all runs in the programs


def least(path):
    times = {}
    for line in open(path):
        size, operation, time, _ = line.split()
        times[size, operation] = min(int(time), times.get((size, operation), int(time)))
    return times


plain, proved = least(sys.argv[1]), least(sys.argv[2])
for key in plain:
    a, b = plain[key] / OPERATIONS, proved[key] / OPERATIONS
    print(f"{key[0]:6} {key[1]:8} plain {a:8.2f} ns  proved {b:8.2f} ns  ratio {b / a:5.2f}")
checked = proved["whole", "checked"]
print(f"whole numbers: add takes {proved['whole', 'add'] / checked:.2f} times a checked i128 addition")
END
