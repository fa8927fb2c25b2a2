#!/bin/sh
# How fast a certificate is made and printed: the built program solves an equation of 18 columns without a solution, and then resumes the
# finished search, which prints its certificate again into memory (/dev/shm). What `show` takes on the same journal, which is read alike, is
# taken off. Beside it plain Rust (bench/print/plain.rs), which has the same lines in memory and prints them by `write!`, each by one write to
# the file, as the program does; in one run on one machine, the least of five. Build the program first: `make test`, or `make build`.
. "$(dirname "$0")/common.sh"
prepare bnc_cli print /dev/shm
python3 bench/print/table.py "$work" "$work/plain" "$proved"
