#!/usr/bin/env bash
# The text tool in both directions on a stored pair; the line of a history, which shows the example where
# a frame broke; and its failures: each is told and has a status.
#
#   run.sh PROGRAM HISTORY TEXT EXAMPLE BROKEN_HISTORY EXPECTED_LINE
set -euo pipefail

program=$1
history=$2
text=$3
example=$4
broken=$5
expected=$6
test=history_text
work=$(mktemp -d)
trap 'rm -rf "$work"' EXIT
. "$(dirname "${BASH_SOURCE[0]}")/../shared/expect.sh"

"$program" read <"$history" >"$work/text"
diff -u "$text" "$work/text"
"$program" write <"$text" >"$work/history"
cmp "$history" "$work/history"

"$program" line <"$broken" >"$work/line"
shown=$("$example" "$work/line" | grep refused)
[ "$shown" = "$expected" ] || fail "the line of $broken: $shown"

# A history has no line end, so that standard output keeps it back until it is flushed.
expect_failure 1 "No space left on device" "$program" read <"$history" >/dev/full
expect_failure 1 "No space left on device" "$program" write <"$text" >/dev/full
expect_failure 1 "No space left on device" "$program" line <"$history" >/dev/full
expect_failure 1 "Is a directory" "$program" read <"$work"
printf 'bytes 7' >"$work/wrong"
expect_failure 1 "line 1: bytes are pairs" "$program" write <"$work/wrong"
expect_failure 1 "the field at byte 0 is broken" "$program" read <"$work/wrong"
expect_failure 1 "the field at byte 0 is broken" "$program" line <"$work/wrong"
expect_failure 2 "usage" "$program" </dev/null
expect_failure 2 "usage" "$program" sideways </dev/null

echo "history_text: the stored pair in both directions, the line of a history, and its failures are told"
