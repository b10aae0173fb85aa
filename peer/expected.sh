#!/usr/bin/env bash
# Writes crates/scenarios/stdout anew: the peer's answer to every day that the program `scenarios` makes.
# Nothing of the answer comes from our own programs; only the days do.
set -eu
cd "$(dirname "$0")/.."
work=$(mktemp -d)
trap 'rm -rf "$work"' EXIT
rustc -O --edition 2024 peer/peer.rs -o "$work/peer"
mkdir "$work/days"
crates/scenarios/out/scenarios "$work/days" > "$work/names"
while read -r name; do
  echo "== $name"
  if ! "$work/peer" "$work/days/$name.cmd" 2> "$work/errors"; then
    echo "shorter than its terms"
  elif [ -s "$work/errors" ]; then
    echo "stopped at byte $(grep -o 'byte [0-9]*' "$work/errors" | cut -d' ' -f2)"
  fi
done < "$work/names" > crates/scenarios/stdout
wc -l crates/scenarios/stdout
