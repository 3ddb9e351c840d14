#!/bin/sh
# Takes a picture of any kind that ffmpeg reads to 4:2:2 samples of 10 bits, encodes it at 2, 4, 8 and 48 bits a pixel, decodes that, and
# prints the bytes that were sent and how far what came back is from what went in (ffmpeg's PSNR, in dB); 48 bits a pixel are room
# enough for a picture of which nothing is cut off.
# It uses the built program (crates/xsx/out/xsx, after `rt run` there or a whole `rt ci`), and ffmpeg with ffprobe.
#
#   sh bench/picture.sh PICTURE
. "$(dirname "$0")/common.sh"
program=$(built xsx 'rt run')
command -v ffmpeg >/dev/null || { echo "no ffmpeg: skipped" >&2; exit 0; }
source=$1
size=$(ffprobe -v error -select_streams v:0 -show_entries stream=width,height -of csv=p=0:s=x "$source" | head -1)
# An even number of columns, as 4:2:2 has in ffmpeg.
width=$((${size%x*} / 2 * 2))
height=${size#*x}
raw="-f rawvideo -pix_fmt yuv422p10le -s ${width}x$height"
ffmpeg -v error -i "$source" -frames:v 1 -vf "crop=$width:$height:0:0" -f rawvideo -pix_fmt yuv422p10le "$folder/in.raw"
echo "$source: ${width}x$height, $(wc -c <"$folder/in.raw") bytes of samples"
for bits in 2 4 8 48; do
    share=$((width * 16 * bits / 8))
    "$program" encode --width "$width" --height "$height" --depth 10 --share "$share" <"$folder/in.raw" >"$folder/sent.rtp"
    "$program" decode <"$folder/sent.rtp" >"$folder/back.raw"
    ratio=$(ffmpeg -v info $raw -i "$folder/in.raw" $raw -i "$folder/back.raw" -lavfi psnr -f null - 2>&1 |
        sed -n 's/.*PSNR \(.*\) min.*/\1/p')
    echo "$bits bits a pixel, share $share: sent in $(wc -c <"$folder/sent.rtp") bytes, PSNR $ratio"
done
