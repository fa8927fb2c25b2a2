#!/bin/sh
# How fast a journal is read again. First `show` and `resume` of a journal in memory (/dev/shm) of 50,000 events without cuts, and of one of
# 20,000 nodes with 256 cuts: events a second, and the peak of the memory beside the journal's size. Then the same of journals of deep trees:
# of two equality knapsacks, beside the processor time of the search that wrote them. Then of journals with many steps that name a cramped
# run, beside the same, and `show` of a chain of 100,000 splits (resume/chain.py). Each journal of a search is also written in encoding 1:
# how many bytes it has beside that, and how long `show` takes. Where another program of the same commands is named, it
# reads the same journals, and the ratio to its time is printed too. Build the program first: `make test`, or `make build`.
. "$(dirname "$0")/common.sh"
prepare bnc_cli "" /dev/shm
python3 bench/resume/table.py "$work" "$proved" "$@"
