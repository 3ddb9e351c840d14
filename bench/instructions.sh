#!/bin/sh
# Counts instructions and times nanoseconds a sample to encode and to decode one picture: 1920x1080, 4:2:2, 10 bits, ffmpeg's Mandelbrot
# set, at so many bits a pixel (4 where none are given). Instructions hang on what else the machine does only by how often a worker
# looks for a slice that is whole; times, which are those of all processors together, hang on it.
# It uses the built program (crates/xsx/out/xsx, after `rt run` there or a whole `rt ci`), ffmpeg, valgrind and GNU time.
#
#   sh bench/instructions.sh [BITS]
. "$(dirname "$0")/common.sh"
program=$(built xsx 'rt run')
command -v ffmpeg >/dev/null && command -v valgrind >/dev/null || { echo 'no ffmpeg or no valgrind: skipped' >&2; exit 0; }
samples=$((1920 * 1080 * 2))

# Runs a command from one file to another, once counted and once timed.
count() {
    input=$1
    output=$2
    shift 2
    valgrind --tool=cachegrind --cache-sim=no --cachegrind-out-file=/dev/null "$program" "$@" <"$input" 2>"$folder/count" >"$output"
    "$timer" -f '%U %S' -o "$folder/cost" "$program" "$@" <"$input" >"$output"
    read -r user system <"$folder/cost"
    sed -n 's/,//g; s/.*I *refs: *//p' "$folder/count" |
        awk -v n="$samples" -v t="$user $system" -v what="$1" \
            '{ split(t, s, " "); printf "%s: %.0f instructions and %.0f ns a sample\n", what, $1 / n, (s[1] + s[2]) * 1e9 / n }'
}

ffmpeg -v error -f lavfi -i mandelbrot=size=1920x1080 -frames:v 1 -pix_fmt yuv422p10le -f rawvideo "$folder/in.raw"
count "$folder/in.raw" "$folder/sent.rtp" encode --width 1920 --height 1080 --depth 10 --share $((1920 * 16 * ${1:-4} / 8))
count "$folder/sent.rtp" "$folder/back.raw" decode
