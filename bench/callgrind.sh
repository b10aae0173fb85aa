#!/usr/bin/env bash
# callgrind.sh [COMMANDS]
#
# Counts the instructions of one command of each kind and prints a Markdown table: those of a day of
# COMMANDS (20,000) commands and COUNT more of the kind, less those of the day alone, by COUNT. What
# the store holds is thus that of the shape near its end. For settle, beside it the peer.
# SETTLE gives another program than that of crates/settle.
set -euo pipefail

here=$(cd "$(dirname "${BASH_SOURCE[0]}")" && pwd)
top=$(dirname "$here")
commands=${1:-20000}
settle=${SETTLE:-$top/crates/settle/out/settle}
# So few that the room of the small shape suffices, and its open visits to be closed.
count=12

missing() {
    echo "callgrind: $1" >&2
    exit 2
}

[[ $# -le 1 && $commands =~ ^[0-9]+$ ]] || missing "usage: callgrind.sh [COMMANDS]"
for tool in rustc valgrind; do
    command -v $tool >/dev/null || missing "there is no $tool"
done
[[ -x $settle ]] || missing "there is no settle at $settle; build it in crates/settle with: rt run -- --version"

work=$(mktemp -d)
trap 'rm -rf "$work"' EXIT
rustc -O --edition 2024 -o "$work/peer" "$top/peer/peer.rs" || missing "the peer cannot be built"
rustc -O --edition 2024 -o "$work/generate" "$here/generate.rs" || missing "the generator cannot be built"

instructions() { # DAY PROGRAM [OPTION]
    valgrind --tool=callgrind --callgrind-out-file=/dev/null "${@:2}" "$1" 2>&1 >/dev/null |
        awk '/Collected/ { print $4; found = 1 } END { exit !found }'
}

generate() { # SHAPE DAY [KIND COUNT]
    "$work/generate" "$1" "$commands" "$work/$2" "${@:3}" 2>"$work/tally" || missing "$(<"$work/tally")"
}

echo "| Shape | Kind | settle | peer |"
echo "|---|---|---:|---:|"
for shape in small large; do
    full=()
    [[ $shape == small ]] || full=(--full)
    generate $shape plain
    plain=$(instructions "$work/plain" "$settle" "${full[@]}")
    plain_peer=$(instructions "$work/plain" "$work/peer")
    for kind in begins goes-on lengthens duplicate late closes still; do
        generate $shape more $kind $count
        more=$(instructions "$work/more" "$settle" "${full[@]}")
        more_peer=$(instructions "$work/more" "$work/peer")
        echo "| $shape | $kind | $(((more - plain) / count)) | $(((more_peer - plain_peer) / count)) |"
    done
    echo "| $shape | all of a day | $((plain / commands)) | $((plain_peer / commands)) |"
done
