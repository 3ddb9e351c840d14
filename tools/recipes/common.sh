# What the recipes begin with: `. "$(dirname "$0")/common.sh"`. They use ffmpeg with ffprobe, and the program `xsx`: the one that
# $XSX names, else the one that stands here (tools/build.sh), else the one on the path.
set -eu

here=$(cd "$(dirname "$0")" && pwd)
program=${XSX:-$here/../../crates/xsx/out/xsx}
[ -x "$program" ] || program=$(command -v xsx) || { echo "no xsx: 'sh tools/build.sh' builds it, and XSX=tools/try.sh does without" >&2; exit 1; }
command -v ffmpeg >/dev/null && command -v ffprobe >/dev/null || { echo 'no ffmpeg with ffprobe' >&2; exit 1; }
folder=$(mktemp -d)
trap 'rm -rf "$folder"' EXIT

# Sets width, height and raw of a file: its size, with an even number of columns, and how ffmpeg names its samples.
measure() {
    size=$(ffprobe -v error -select_streams v:0 -show_entries stream=width,height -of csv=p=0:s=x "$1" | head -n 1)
    width=$((${size%%x*} / 2 * 2))
    height=${size#*x}
    height=${height%%x*}
    raw="-f rawvideo -pix_fmt yuv422p10le -s ${width}x$height"
}

# Writes so many frames of a file as raw pictures: 4:2:2 samples of 10 bits. What a file says of turning is left aside, as in its size.
take_frames() {
    ffmpeg -v error -noautorotate -i "$1" -frames:v "$2" -vf "crop=$width:$height:0:0" -f rawvideo -pix_fmt yuv422p10le "$3"
}

# Encodes raw pictures at about so many bits a pixel, with these other words. A slice is 16 lines by default.
encode() {
    share=$((width * 16 * $1 / 8))
    shift
    "$program" encode --width "$width" --height "$height" --depth 10 --share "$share" "$@"
}

# How far raw pictures are from others, in dB; `inf` where they are equal.
psnr() {
    # The words of $raw are split at blanks, on purpose.
    ffmpeg -v info $raw -i "$1" $raw -i "$2" -lavfi psnr -f null - 2>&1 | sed -n 's/.*average:\([^ ]*\) .*/\1/p'
}

size_of() {
    wc -c <"$1" | tr -d ' '
}
