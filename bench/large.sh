#!/bin/sh
# What the program needs for models of the greatest size, 8,000 columns and 8,000 rows with 25 entries each (bench/large/models.py), and for a
# knapsack of 8,000 columns: first how long it takes to read each, beside plain Rust (bench/reader/plain.rs), and in how many times the text's
# memory; then its search to the first split, or its first 100 nodes, with the time of the processor and the peak of memory. A run that isn't over
# after SECONDS_OF_A_RUN (600) of the processor is ended. Build the program first, by `make test` or `make build`; or name one as the first word.
given=${1:+$(realpath "$1")}
. "$(dirname "$0")/common.sh"
if [ -n "$given" ]; then
    proved=$given; work=$(mktemp -d "${TMPDIR:-/tmp}/bench.XXXXXX"); trap 'rm -rf "$work"' EXIT
    rustc --edition 2021 -O bench/reader/plain.rs -o "$work/plain"
else
    prepare bnc_cli reader
fi
python3 bench/large/table.py "$work" "$work/plain" "$proved" "${SECONDS_OF_A_RUN:-600}"
