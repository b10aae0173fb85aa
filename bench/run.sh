#!/usr/bin/env bash
# run.sh [--quick]
#
# Measures settle and recompute beside the peer and flat on long days and prints a Markdown table;
# README.md says what its columns mean. Before a day is measured, the programs must print the same
# bytes for it. --quick leaves out 10^7 commands. Status 1 if texts differ, 2 if something is missing.
#
# The time for a command leaves out the start of the program, taken from runs on a day without
# commands: on a short day it would count for more than the commands.
#
# SETTLE and RECOMPUTE give other programs; then nothing is built for them. RECOMPUTE set but empty
# leaves it out.
set -euo pipefail

here=$(cd "$(dirname "${BASH_SOURCE[0]}")" && pwd)
top=$(dirname "$here")

missing() {
    echo "run: $1" >&2
    exit 2
}

# Prints the path of a proved program, which is built if it is missing or older than a source.
built() { # NAME
    local program=$top/crates/$1/out/$1
    if [[ ! -x $program || -n $(find "$top/crates" -name out -prune -o -name '*.rt' -newer "$program" -print -quit) ]]; then
        echo "run: building $1 with all that it stands on" >&2
        (cd "$top/crates/$1" && rt run -- --version) >&2 || missing "$1 cannot be built"
    fi
    echo "$program"
}

# The day of a difference is left to look at.
compare() { # DAY PROGRAM
    cmp -s <($peer "$1") <($2 "$1") && return
    echo "run: $2 does not print what the peer prints for $1" >&2
    trap - EXIT
    exit 1
}

# Beside the programs given, the peer and flat.
measure() { # SHAPE COMMANDS RUNS NAME=PROGRAM ..
    local day=$work/$1-$2.day programs=("flat=$flat" "${@:4}")
    "$work/generate" "$1" "$2" "$day" 2>"$work/tally"
    echo "$1: $(<"$work/tally")" >>"$work/tallies"
    for program in "${programs[@]}"; do
        compare "$day" "${program#*=}"
    done
    python3 "$here/measure.py" "$3" "$1" "$2" "$day" "peer=$peer" "${programs[@]}"
    rm "$day"
}

lengths=(10000 100000 1000000 10000000)
case $#:${1-} in
    0:) ;;
    1:--quick) unset 'lengths[3]' ;;
    *) missing "usage: run.sh [--quick]" ;;
esac
for tool in rustc python3 /usr/bin/time; do
    command -v $tool >/dev/null || missing "there is no $tool"
done
settle=${SETTLE-$(built settle)}
recompute=${RECOMPUTE-$(built recompute)}
for program in "$settle" $recompute; do
    [[ -x $program ]] || missing "there is no program at $program"
done

work=$(mktemp -d)
trap 'rm -rf "$work"' EXIT
peer=$work/peer flat=$work/flat
rustc -O --edition 2024 -o "$peer" "$top/peer/peer.rs" || missing "the peer cannot be built"
rustc -O --edition 2024 -o "$flat" "$here/flat.rs" || missing "flat cannot be built"
rustc -O --edition 2024 -o "$work/generate" "$here/generate.rs" || missing "the generator cannot be built"

echo "| Shape | Commands | Program | Wall ms | CPU ms | ns a command | Wall / peer | CPU / peer | Peak KB |"
echo "|---|---:|---|---:|---:|---:|---:|---:|---:|"
# The shorter a day, the more runs; the longest would take too long.
runs=(41 15 7 3)
for place in "${!lengths[@]}"; do
    measure small "${lengths[place]}" "${runs[place]}" "settle=$settle"
done
for place in "${!lengths[@]}"; do
    measure large "${lengths[place]}" "${runs[place]}" "settle=$settle --full"
done
# It keeps every reading, so its time for a command grows with the day.
if [[ -n $recompute ]]; then
    for commands in 1000 3000 10000; do
        measure small $commands 3 "settle=$settle" "recompute=$recompute"
    done
fi
echo
sed 's/^/- /' "$work/tallies"
