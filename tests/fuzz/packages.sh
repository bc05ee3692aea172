#!/usr/bin/env bash
# Says which of Debian's packages the fuzzers still need.
#
#   packages.sh CLANG
set -euo pipefail

clang=$1
missing=()

need() {
    command -v "$1" >/dev/null || missing+=("$2")
}

need objcopy binutils
need "$clang" clang
if command -v "$clang" >/dev/null; then
    runtime=$("$clang" -print-resource-dir)/lib/linux/libclang_rt.fuzzer-x86_64.a
    version=$("$clang" -dumpversion)
    [ -f "$runtime" ] || missing+=("libclang-rt-${version%%.*}-dev")
fi

if [ ${#missing[@]} -ne 0 ]; then
    echo "make fuzz needs Debian's packages: ${missing[*]}" >&2
    exit 1
fi
