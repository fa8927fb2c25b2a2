#!/bin/sh
# How fast the built program's search and its dual simplex are, beside the same in plain Rust on whole numbers without events and without a journal
# (bench/search/plain.rs), in one run on one machine, on knapsacks and set covers (bench/search/models.py): nodes and pivots a second. The
# program's journal lies in memory (/dev/shm). Then the program alone on knapsacks in whole numbers and in quarters. Build the program first:
# `make test`, or `make build`.
. "$(dirname "$0")/common.sh"
prepare bnc_cli search /dev/shm
python3 bench/search/table.py "$work/plain" "$proved" "$work"
