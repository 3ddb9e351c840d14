#!/bin/sh
# Refuses each of the first 40 allocations of a run in turn, or those from FIRST to LAST. Of the stored run of `encode`, and of
# the decoding of what it writes, the status must be 9 and nothing be written, or all be as where nothing is refused.
#
#   sh bench/refused_memory.sh [FIRST LAST]
#
# It builds the program anew each time, proving nothing (`rt try`): half a minute an allocation.
. "$(dirname "$0")/common.sh"
crate=$top/crates/xsx
mkdir "$folder/cases"
cp "$crate/stdin" "$folder/cases/encode"
cp "$crate/args" "$folder/cases/encode.args"
cp "$crate/stdout" "$folder/cases/decode"
printf 'decode\n--form\nxs\n' >"$folder/cases/decode.args"

# What a run prints of the two commands, the first in order of name: the output of each that ended with 0.
printed() {
    printf '== decode\n'
    if [ "$1" = 0 ]; then cat "$crate/stdin"; echo; fi
    printf '== encode\n'
    if [ "$2" = 0 ]; then cat "$crate/stdout"; echo; fi
}

cd "$crate"
for allocation in $(seq "${1:-1}" "${2:-40}"); do
    rt try --fail-alloc "$allocation" --cases "$folder/cases" >"$folder/output" 2>"$folder/said" || true
    decode=$(sed -n 's/^case=decode run=ended status=\([09]\) .*/\1/p' "$folder/said")
    encode=$(sed -n 's/^case=encode run=ended status=\([09]\) .*/\1/p' "$folder/said")
    if [ -z "$decode" ] || [ -z "$encode" ]; then
        echo "allocation $allocation: $(grep '^case=' "$folder/said")" >&2
        exit 1
    fi
    printed "$decode" "$encode" | cmp - "$folder/output"
    echo "allocation $allocation: decode ends with $decode, encode with $encode"
done
