#!/usr/bin/env bash
# rows_compare.sh [COUNT] [SEED]
#
# Runs peer/rows.py and the project's program `boundaries` on COUNT (1000) random cases of SEED (1)
# and compares what they print, byte for byte: the first differences, then one line; status 1 if
# anything differs. BOUNDARIES gives another path for the program.
set -eu
here=$(cd "$(dirname "$0")" && pwd)
program=${BOUNDARIES:-$(dirname "$here")/crates/boundaries/out/boundaries}
count=${1:-1000} seed=${2:-1}
work=$(mktemp -d)
trap 'rm -rf "$work"' EXIT
python3 "$here/rows_random.py" "$seed" "$count" > "$work/cases"
python3 "$here/rows.py" "$work/cases" > "$work/expected"
"$program" "$work/cases" > "$work/actual"
if ! diff "$work/expected" "$work/actual" > "$work/difference"; then
    head -20 "$work/difference"
    echo "seed $seed: the answers to $count cases differ"
    exit 1
fi
echo "seed $seed: $count cases, $(wc -l < "$work/expected") lines, no difference"
