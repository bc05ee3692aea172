#!/usr/bin/env bash
# The example on its capture, from a file, from standard input and through pipes; and where there is
# nothing to read, or nowhere to print, it says so, fails, and ends.
#
#   run.sh PROGRAM CAPTURE EXPECTED
set -euo pipefail

program=$1
capture=$2
expected=$3
test=example
work=$(mktemp -d)
trap 'rm -rf "$work"' EXIT
. "$(dirname "${BASH_SOURCE[0]}")/../shared/expect.sh"
printed=$work/printed

# Status 124 is that of `timeout`: the program did not end.
run() {
    timeout 10 "$program" "$@"
}

# expect_lines WHAT COMMAND...: the command ends well and prints the expected lines.
expect_lines() {
    local what=$1 status=0
    shift
    "$@" >"$printed" || status=$?
    [ "$status" -eq 0 ] || fail "$what: ended with $status"
    diff -u "$expected" "$printed" || fail "$what: other lines"
}

expect_lines "from a file" run "$capture"
expect_lines "from standard input" run <"$capture"
cat "$capture" | expect_lines "from a pipe" run
expect_lines "from a pipe named as the argument" run <(cat "$capture")

# A FIFO ends when its writer does.
mkfifo "$work/fifo"
: >"$printed"
exec 3<>"$work/fifo"
expect_lines "from a FIFO" run "$work/fifo" 3>&- &
example=$!
cat "$capture" >&3
for ((waited = 0; waited < 200; waited++)); do
    [ "$(wc -l <"$printed")" -eq "$(wc -l <"$expected")" ] && break
    sleep 0.05
done
exec 3>&-
wait "$example"

expect_failure 1 "fifo: not one byte came" run "$work/fifo"
expect_failure 1 "standard input: not one byte came" run </dev/null
expect_failure 1 "standard output: No space left on device" run "$capture" >/dev/full
expect_failure 1 "standard output: No space left on device" run <"$capture" >/dev/full
expect_failure 1 "standard output: Bad file descriptor" run "$capture" >&-
expect_failure 1 "missing: No such file or directory" run "$work/missing"
expect_failure 1 "$work: Is a directory" run "$work"
expect_failure 2 "usage" run "$capture" "$capture"
expect_failure 2 "parenb parodd" run --help

echo "example: the capture gives its expected lines, from a file, standard input and pipes, and failures are told"
