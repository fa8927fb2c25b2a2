#!/bin/sh
# bench/workers.sh [BUSY [FOLDER [MICROSECONDS]]]: how many nodes a second several workers make beside one. Knapsacks are solved or spent at a
# number of nodes, by 1, 2 and 4 workers in turn. It prints the most nodes a second of each, their ratio to those of one worker, and the cores in
# use. BUSY other programs keep a core busy each meanwhile, by default none. The journal is in FOLDER, by default in memory (/dev/shm). Where
# MICROSECONDS are given, each sync takes as long, instead of what the disk takes.
#
# In memory it also prints the same of the events of an equality knapsack whose nodes take microseconds, and what 15 workers use that find no node.
# It says nothing on a machine with fewer cores than workers. Build the program first: `rt run` in crates/bnc_cli.
. "$(dirname "$0")/common.sh"
prepare bnc_cli "" "${2:-/dev/shm}"
if [ -n "${3:-}" ]; then cc -O1 -shared -fPIC bench/workers/slow_sync.c -o "$work/slow_sync.so"; fi
python3 bench/workers/table.py "$work" "$proved" "${1:-0}" "${2:-/dev/shm}" "${3:-}"
