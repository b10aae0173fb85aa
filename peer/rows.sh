#!/usr/bin/env bash
# Writes crates/boundaries/stdout anew: what peer/rows.py answers to the cases of crates/boundaries/data.
# Nothing of the answer comes from our own programs.
set -eu
cd "$(dirname "$0")/../crates/boundaries/data"
xargs python3 ../../../peer/rows.py < ../args > ../stdout
wc -l ../stdout
