#!/usr/bin/env bash
# Fuzzes one target for a time, from the seeds and from what earlier runs have kept, and says what
# was run and reached. It fails where the target did.
#
#   run.sh FOLDER TARGET SECONDS LENGTH SEED...
set -euo pipefail

folder=$1
target=$2
seconds=$3
length=$4
shift 4

corpus=$folder/$target.corpus
faults=$folder/$target.faults
log=$folder/$target.log
mkdir -p "$corpus" "$faults"
cp "$@" "$corpus"

if ! COVERAGE=$folder/$target.met "$folder/$target" -max_total_time="$seconds" \
    -max_len="$length" -timeout=10 -rss_limit_mb=1024 -print_final_stats=1 \
    -artifact_prefix="$faults/" "$corpus" >"$log" 2>&1; then
    grep -v '^#[0-9]' "$log" | tail -n 60 >&2
    echo "fuzz: $target FAILED, the input is in $faults" >&2
    exit 1
fi

# The instructions that no input has reached, of the compiled code.
paste -d ' ' "$folder/$target.met" "$folder/$target.listing" | sed -n 's/^0 //p' \
    >"$folder/$target.unmet"

inputs=$(sed -n 's/^stat::number_of_executed_units: *//p' "$log")
edges=$(sed -n 's/.*DONE  *cov: \([0-9]*\) .*/\1/p' "$log")
reached=$(sed -n 's/^coverage: //p' "$log")
kept=$(find "$corpus" -type f | wc -l)
echo "fuzz: $target, $inputs inputs in $seconds s, $kept kept, no fault"
echo "  $reached; $edges edges of the code that it is held to"
