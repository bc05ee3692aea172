# For the tests of programs, which name themselves in `test` and have a folder `work`.

fail() {
    echo "$test: $*" >&2
    exit 1
}

# expect_failure STATUS WORDS COMMAND...: the command ends with the status and says the words on
# standard error. Its input and output are those of the call.
expect_failure() {
    local wanted=$1 words=$2 status=0
    shift 2
    "$@" 2>"$work/said" || status=$?
    [ "$status" -eq "$wanted" ] || fail "$words: ended with $status"
    grep -qF "$words" "$work/said" || fail "$words: said $(cat "$work/said")"
}
