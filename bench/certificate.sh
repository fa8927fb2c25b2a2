#!/bin/sh
# What the certificate of a long search costs, beside a plain program that writes the same bytes (bench/certificate/table.py says how). All files
# lie in memory (/dev/shm), or in FOLDER: bench/certificate.sh [FOLDER]. Build the program first: `make test`, or `rt run` in crates/bnc_cli.
. "$(dirname "$0")/common.sh"
prepare bnc_cli certificate "${1:-/dev/shm}"
python3 bench/certificate/table.py "$proved" "$work/plain" "$work"
