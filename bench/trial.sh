#!/bin/sh
# Times the large trial, with the fewest and the most workers and feeders. Each run has to say the same, in 68 slices; then small
# trials are compared with a slow program that is written straight from docs/FORMAT.md (bench/reference.py), where there is python3.
# It uses the built program (crates/xsx/out/xsx, after `rt run` there or a whole `rt ci`).
#
#   sh bench/trial.sh [SEED]
. "$(dirname "$0")/common.sh"

program=$(built xsx 'rt run')
seed=${1:-7}

for threads in '--workers 1 --feeders 1' '--workers 4 --feeders 2' '--workers 16 --feeders 8'; do
    # shellcheck disable=SC2086
    "$timer" -p "$program" trial --seed "$seed" --width 1920 --height 1080 --share 20000 $threads >"$folder/said" 2>"$folder/time"
    [ "$(head -n 1 "$folder/said")" = 'slices 68' ] || { echo "not 68 slices: $threads" >&2; exit 1; }
    [ -e "$folder/first" ] || cp "$folder/said" "$folder/first"
    cmp -s "$folder/first" "$folder/said" || { echo "says something else: $threads" >&2; exit 1; }
    # 1920 x 1080 luma samples, and as many of the two others together
    awk -v threads="$threads" '$1 == "real" { printf "%s: %.2f s, %.0f ns a sample\n", threads, $2, $2 * 1e9 / 4147200 }' "$folder/time"
done
cat "$folder/first"

command -v python3 >/dev/null || exit 0
for words in "--seed $seed" "--seed $seed --width 66 --height 37 --share 900" '--seed 4294967295 --width 100 --share 3000' '--share 64'; do
    # shellcheck disable=SC2086
    "$program" trial $words >"$folder/one" 2>&1 || true
    # shellcheck disable=SC2086
    nice python3 "$top/bench/reference.py" trial $words >"$folder/other" 2>&1 || true
    cmp "$folder/one" "$folder/other"
done
