#!/usr/bin/env bash
# The host tests under valgrind; each error that it reports is a failure.
#
#   run.sh VALGRIND FOLDER REPLAY CASES TEST...
set -euo pipefail

valgrind=$1
folder=$2
replay=$3
cases=$4
shift 4
histories=100

if ! command -v "$valgrind" >/dev/null; then
    echo "make valgrind needs Debian's package: valgrind" >&2
    exit 1
fi
check=("$valgrind" --quiet --error-exitcode=9 --leak-check=full)

# checked NAME PROGRAM: a program that runs this one under valgrind, for the tests that are given one.
checked() {
    local path=$folder/$1_under_valgrind
    printf '#!/bin/sh\nexec %s %s "$@"\n' "${check[*]}" "$2" >"$path"
    chmod +x "$path"
    echo "$path"
}

for test in "$@"; do
    "${check[@]}" "$folder/$test"
done
"${check[@]}" --trace-children=yes "$folder/serial" "$folder/display"
tests/example/run.sh "$(checked display "$folder/display")" examples/captures/line.{capture,expected}
"${check[@]}" "$folder/differential" 1
# stored SUBJECT FILE: the lines of that subject, which the line behind it ends.
stored() { awk -v subject="= $1" '/^= /{on=($0==subject)} on' "crates/run_cases/$2"; }
for subject in ash session cutter display; do
    stored "$subject" stdin | "${check[@]}" "$cases" | diff -u <(stored "$subject" stdout) -
    echo "$subject: the stored cases give their stored answers"
done

replay_checked=$(checked replay "$replay")
tests/histories/run.sh "$replay_checked" examples/histories
"$folder/replay_test" "$replay_checked" "$histories" 1
echo "valgrind: no errors"
