#!/bin/sh
# Counts instructions a sample of the choice of a slice's candidate, and of all that writing the slice takes: 3840 by 16 pixels in
# 4:2:2 with drawn coefficients, at so many bits a pixel (4 where none are given). The choice is what is counted of the rows and the
# search among the candidates, each with all that it calls. A run that writes the slice eleven times less one that writes it once,
# by ten.
# It uses the built program (crates/xs_choice_bench/out/xs_choice_bench, after `rt run` there or a whole `rt ci`) and valgrind.
#
#   sh bench/choice.sh [BITS]
. "$(dirname "$0")/common.sh"
program=$(built xs_choice_bench 'rt run -- 30720 1')
command -v valgrind >/dev/null || { echo 'no valgrind: skipped' >&2; exit 0; }
samples=$((3840 * 16 * 2))
share=$((3840 * 16 * ${1:-4} / 8))

# The instructions of each function with those that it calls, where the slice is written so many times.
count() {
    valgrind --tool=callgrind --callgrind-out-file="$folder/calls" "$program" "$share" "$1" 2>/dev/null
    callgrind_annotate --inclusive=yes --threshold=100 "$folder/calls" |
        sed -n 's/^ *\([0-9,]*\) *([^)]*) *\(.*\)$/\1 \2/p' | sed 's/ \[.*//; s/ [^ :]*:/ /' | tr -d , >"$folder/$1"
}

count 1
count 11
awk -v n="$samples" 'NR == FNR { once[$2] += $1; next } { often[$2] += $1 }
    END { for (name in often) if (name ~ /^xs_/) { own = (often[name] - once[name]) / 10 / n; if (own >= 0.05) printf "%9.2f %s\n", own, name } }' \
    "$folder/1" "$folder/11" | sort -rn
