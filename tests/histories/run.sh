#!/usr/bin/env bash
# Replays each history of a folder and holds what is printed to the expected lines beside it; then
# a closed standard input and an output that takes nothing.
#
#   run.sh PROGRAM FOLDER
set -euo pipefail

program=$1
folder=$2
printed=$(mktemp)
trap 'rm -f "$printed"' EXIT

count=0
for history in "$folder"/*.history; do
    "$program" <"$history" >"$printed"
    diff -u "${history%.history}.expected" "$printed"
    count=$((count + 1))
done

# A read or a write that fails ends the program without a fault.
"$program" <&- >"$printed"
test ! -s "$printed"
"$program" <"$folder/case_6.history" >/dev/full

echo "replay: $count histories give their expected lines"
