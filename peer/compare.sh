#!/usr/bin/env bash
# compare.sh [--slow] [COUNT] [SEED]
#
# Runs the peer and the project's programs on COUNT (2000) random days of SEED (1) and compares
# standard output, byte for byte, and exit status. One line per difference, the counts at the end;
# status 1 if anything differs, 2 if something is missing or cannot be built.
#
# SETTLE and RECOMPUTE give other programs, with options if need be; set but empty leaves that one out.
# settle is run with --full, since the peer has no limits.
# --slow adds slow.py, which takes some 0.1 s a day.
set -euo pipefail

here=$(cd "$(dirname "${BASH_SOURCE[0]}")" && pwd)
crates=$(dirname "$here")/crates
programs=()

add() { # NAME PATH
    [[ -n $2 ]] || return 0
    if [[ ! -x ${2%% *} ]]; then
        echo "compare: there is no $1 at $2; build it in its folder with: rt run -- --version" >&2
        exit 2
    fi
    programs+=("$2")
}

slow=
if [[ ${1-} == --slow ]]; then
    slow=$here/slow.py
    shift
fi
count=${1:-2000} seed=${2:-1}
if [[ $# -gt 2 || ! $count =~ ^[0-9]+$ || ! $seed =~ ^[0-9]+$ ]]; then
    echo "usage: compare.sh [--slow] [COUNT] [SEED]" >&2
    exit 2
fi
add settle "${SETTLE-$crates/settle/out/settle --full}"
add recompute "${RECOMPUTE-$crates/recompute/out/recompute}"
add slow.py "$slow"

work=$(mktemp -d)
trap 'rm -rf "$work"' EXIT
for name in peer generate; do
    rustc -O --edition 2024 -o "$work/$name" "$here/$name.rs" || exit 2
done
"$work/generate" "$seed" "$count" "$work/days" || exit 2

compared=0 different=0
differs() { # DAY PROGRAM WHAT
    echo "seed $seed $(basename "$1"): $2: $3"
    different=$((different + 1))
}

# With no day at all the pattern must not stand for itself.
shopt -s nullglob
for day in "$work"/days/*.day; do
    status=0
    "$work/peer" "$day" >"$work/expected" 2>"$work/error" || status=$?
    for program in "${programs[@]}"; do
        its_status=0
        $program "$day" >"$work/actual" 2>"$work/error" || its_status=$?
        compared=$((compared + 1))
        cmp -s "$work/expected" "$work/actual" || differs "$day" "$program" "standard output"
        [[ $its_status == "$status" ]] || differs "$day" "$program" "status $its_status, not $status"
    done
done

echo "$count days, ${#programs[@]} programs, $compared comparisons, $different differences"
[[ $different == 0 ]]
