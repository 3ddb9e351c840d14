#!/bin/sh
# Times the encoder and the decoder on pictures of growing size, a pattern and noise, with one wavelet level and with five across
# and two down: the cost of a sample must not grow with the picture. Each picture must come back. Times are those of
# all processors together.
# It uses the built program (crates/xsx/out/xsx, after `rt run` there or a whole `rt ci`), and GNU time.
. "$(dirname "$0")/common.sh"
program=$(built xsx 'rt run')

# Runs a command from one file to another; says what it is, how many bytes came, and what a sample of the picture cost.
timed() {
    what=$1
    input=$2
    output=$3
    shift 3
    "$timer" -f '%U %S %M' -o "$folder/cost" "$program" "$@" <"$input" >"$output"
    read -r user system kilobytes <"$folder/cost"
    awk -v n="$samples" -v u="$user" -v s="$system" -v k="$kilobytes" -v b="$(wc -c <"$output")" -v what="$what" \
        'BEGIN { printf "%-30s %10d bytes  %7.2f s  %6.1f ns a sample  %5.1f bytes of memory a sample\n", what, b, u + s, (u + s) * 1e9 / n, k * 1024 / n }'
}

# A slice has four lines of the picture.
for layout in '1 0 4' '5 2 1'; do
    read -r across down slice <<LAYOUT
$layout
LAYOUT
    for size in 512x512 2048x2048 8192x2048; do
        width=${size%x*}
        height=${size#*x}
        samples=$((width * height))
        for kind in pattern noise; do
            make_picture "$kind" "$samples" >"$folder/picture"
            timed "encode ${across}x$down $kind $size" "$folder/picture" "$folder/stream" encode --form xs --width "$width" \
                --height "$height" --format mono --nlx "$across" --nly "$down" --slice "$slice" --quant deadzone \
                --share 89598
            timed "decode ${across}x$down $kind $size" "$folder/stream" "$folder/back" decode --form xs
            cmp "$folder/picture" "$folder/back"
        done
    done
done
