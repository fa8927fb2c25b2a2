#!/bin/sh
# What a user can expect: small models of kinds that people solve (bench/models/models.py) and those of examples/, with the time to the answer, nodes
# a second, and the times of `glpsol` and `cbc` where they are installed (Debian: glpk-utils, coinor-cbc). Each is stopped after a minute. The
# journal lies in /dev/shm, or in FOLDER: bench/models.sh [FOLDER]. Build the program first: `make test`, or `make build`.
. "$(dirname "$0")/common.sh"
prepare bnc_cli "" "${1:-/dev/shm}"
python3 bench/models/table.py "$proved" "$work"
