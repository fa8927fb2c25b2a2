#!/bin/sh
# How fast the built program reads texts of near 32 MiB, the most that it reads: a model of 8,000 columns and 8,000 rows, and texts that are
# long in one way each, such as one line, one number or empty lines alone. Its journal is a file that is none, so it ends once the text was
# read. Beside it plain Rust (bench/reader/plain.rs), which reads the same texts into the same shape of data, in one run on one machine: the
# least processor time of five, without what a start takes, and the peak of memory. Build the program first: `make test`, or `make build`.
. "$(dirname "$0")/common.sh"
prepare bnc_cli reader
python3 bench/reader/texts.py "$work"
python3 bench/reader/table.py "$work" "$work/plain" "$proved"
