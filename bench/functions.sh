#!/bin/sh
# Counts instructions a sample by function while one picture is encoded and its codestream decoded: 3840x2160, 4:2:2, 10 bits, ffmpeg's
# Mandelbrot set, at so many bits a pixel (4 where none are given). What the compiler inlined counts for the function that it went into.
# - The split is what stands under xs_splitter; the scaling of its rows is inlined into the workers' std::thread::fork::chunks_from.
# - The join is what stands under xs_picture::decode::decoder::decode_coefs, into which all of xs_stripe, xs_joiner and their kernels goes.
# - The choice of candidates is what stands under xs_sizes and xs_slice_write::choice. A second run of the encoder at 32 bits a pixel,
#   where the first candidate fits, has the same counts of lines and one candidate a slice: what the first run has more under these
#   names is the rest of its candidates.
# - valgrind counts an instruction a byte where memset fills by `rep stosb`.
# It uses the built program (crates/xsx/out/xsx, after `rt run` there or a whole `rt ci`), ffmpeg and valgrind.
#
#   sh bench/functions.sh [BITS]
. "$(dirname "$0")/common.sh"
program=$(built xsx 'rt run')
command -v ffmpeg >/dev/null && command -v valgrind >/dev/null || { echo 'no ffmpeg or no valgrind: skipped' >&2; exit 0; }
width=3840
height=2160
samples=$((width * height * 2))

# The functions that have at least a twentieth of an instruction a sample in a run from one file to another, and the whole; the first word
# says what is run.
count() {
    what=$1
    input=$2
    output=$3
    shift 3
    valgrind --tool=callgrind --callgrind-out-file="$folder/calls" "$program" "$@" <"$input" 2>/dev/null >"$output"
    echo "$what, instructions a sample:"
    callgrind_annotate --threshold=100 "$folder/calls" | sed -n 's/^ *\([0-9,]*\) *([^)]*) *\(.*\)$/\1 \2/p' |
        awk -v n="$samples" '{ gsub(",", "", $1); own = $1 / n; $1 = ""; sub(/ \[.*/, ""); sub(/^ *[^:]*:/, ""); if (own >= 0.05) printf "%9.2f %s\n", own, $0 }'
}

encode() {
    count "encode at $1 bits a pixel" "$folder/in.raw" "$2" encode --form xs --width $width --height $height --depth 10 \
        --share $((width * 16 * $1 / 8))
}

ffmpeg -v error -f lavfi -i mandelbrot=size=${width}x$height -frames:v 1 -pix_fmt yuv422p10le -f rawvideo "$folder/in.raw"
encode "${1:-4}" "$folder/sent.xs"
encode 32 "$folder/long.xs"
count "decode at ${1:-4} bits a pixel" "$folder/sent.xs" "$folder/back.raw" decode --form xs
