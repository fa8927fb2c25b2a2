#!/bin/sh
# What the syncs of a journal cost: the built program's search, and plain Rust (bench/journal/plain.rs) that adds the same frames with the same
# writes and syncs to a journal of its own, in one run on one machine and one folder. It prints the events a second of both, of the time
# that they spend outside their own code, and the ratio. The folder of the files can be given; it should lie on a real disk.
# `bench/resume.sh` measures how a journal is read. Build the program first: `make test`, or `make build`.
. "$(dirname "$0")/common.sh"
prepare bnc_cli journal "${1:-}"
python3 bench/journal/table.py "$work" "$work/plain" "$proved"
