# The opening of the scripts in this folder, which read it by `. "$(dirname "$0")/common.sh"`. It makes the repository the current folder.
set -e
cd "$(dirname "$0")/.."

# prepare CRATE [PLAIN [FOLDER]]: $proved is the built program of that crate, $work a folder for this run's files (in FOLDER, where it is
# given), and $work/plain the program of bench/PLAIN/plain.rs.
prepare() {
    proved=$PWD/crates/$1/out/$1
    [ -x "$proved" ] || { echo "no $proved: call make test, or rt run in crates/$1" >&2; exit 1; }
    work=$(mktemp -d "${3:-${TMPDIR:-/tmp}}/bench.XXXXXX")
    trap 'rm -rf "$work"' EXIT
    if [ -n "${2:-}" ]; then rustc --edition 2021 -O "bench/$2/plain.rs" -o "$work/plain"; fi
}
