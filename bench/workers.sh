#!/bin/sh
# Times `encode` with 1, 2 and 4 workers, and prints its peak memory: ten pictures of 3840x2160, 4:2:2, 10 bits, ffmpeg's Mandelbrot set,
# at so many bits a pixel (4 where none are given). The codestreams must be alike. Seconds are those that passed, of the best of
# three runs, and those that the processors spent in it; they hang on what else the machine does.
# It uses the built program (crates/xsx/out/xsx, after `rt run` there or a whole `rt ci`), ffmpeg and GNU time.
#
#   sh bench/workers.sh [BITS]
. "$(dirname "$0")/common.sh"
program=$(built xsx 'rt run')
command -v ffmpeg >/dev/null || { echo 'no ffmpeg: skipped' >&2; exit 0; }
pictures=10
width=3840

# Ten pictures are encoded by so many workers, three times.
encode() {
    for round in 1 2 3; do
        "$timer" -f '%e %U %S %M' -o "$folder/cost" "$program" encode --form xs --width "$width" --height 2160 --depth 10 \
            --share $((width * 16 * bits / 8)) --workers "$1" <"$folder/in.raw" >"$folder/sent.$1"
        cat "$folder/cost"
    done | sort -n | head -1
}

bits=${1:-4}
ffmpeg -v error -f lavfi -i mandelbrot="size=${width}x2160" -frames:v "$pictures" -pix_fmt yuv422p10le -f rawvideo "$folder/in.raw"
echo "$(getconf _NPROCESSORS_ONLN) processors; load $(cut -d ' ' -f 1-3 /proc/loadavg)"
for workers in 1 2 4; do
    encode "$workers" | awk -v n="$pictures" -v w="$workers" \
        '{ printf "%d workers: %.3f s a picture, %.3f s of processors, %d MB at most\n", w, $1 / n, ($2 + $3) / n, $4 / 1024 }'
    cmp "$folder/sent.1" "$folder/sent.$workers"
done
