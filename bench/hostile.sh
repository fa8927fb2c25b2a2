#!/bin/sh
# What the dearest texts cost that a model of near 32 MiB can have, section by section, beside a plain text of that size: the built program reads
# each with `--nodes 1`, and a text that is refused is read as far as to its fault. A line for each text: its bytes, how the run ended, the least
# time of RUNS runs (3) and the peak of memory, and both beside those of the plain text. The 100,000 names that collide are chosen for the
# hash of the runtime with a fixed key; the program's key is random where the system gives one, so they cost there what other names do. The
# last lines set them beside 100,000 random names, with the program's key, and with the fixed one where `strace` can keep random bytes from
# it. They are names of further N rows: those don't count as rows. Build the program first, by `make test` or `make build`; or name one as
# the first word. It takes a minute of the processor to find the names.
given=${1:+$(realpath "$1")}
. "$(dirname "$0")/common.sh"
if [ -n "$given" ]; then proved=$given; work=$(mktemp -d "${TMPDIR:-/tmp}/bench.XXXXXX"); trap 'rm -rf "$work"' EXIT; else prepare bnc_cli; fi
[ -x /usr/bin/time ] || { echo "no /usr/bin/time: it measures the memory" >&2; exit 1; }
rustc --edition 2021 -O bench/hostile/colliding.rs -o "$work/colliding"
python3 bench/hostile/table.py "$work" "$proved" "${RUNS:-3}"
