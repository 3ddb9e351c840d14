#!/bin/sh
# Sends the first frames of a film (10 where no number is given) in packets over two paths, of which each loses every third packet,
# but never the same one, and receives them; leaves what came as a film without loss. Then it receives one path by itself.
# It uses python3 for the paths.
#
#   sh tools/recipes/film.sh SOURCE BACK.mkv [FRAMES [BITS]]
. "$(dirname "$0")/common.sh"

measure "$1"
take_frames "$1" "${3:-10}" "$folder/in.raw"
encode "${4:-4}" <"$folder/in.raw" >"$folder/sent.rtp"
python3 "$here/lose.py" 3 0 <"$folder/sent.rtp" >"$folder/one.rtp"
python3 "$here/lose.py" 3 1 <"$folder/sent.rtp" >"$folder/other.rtp"

cat "$folder/other.rtp" "$folder/one.rtp" | "$program" decode >"$folder/back.raw"
"$program" decode <"$folder/sent.rtp" | cmp - "$folder/back.raw"
ffmpeg -v error -y $raw -i "$folder/back.raw" -c:v ffv1 "$2"
echo "$2: received over two paths as of all packets, $(size_of "$folder/sent.rtp") bytes, PSNR $(psnr "$folder/in.raw" "$folder/back.raw")"

echo 'of one path alone:'
"$program" decode <"$folder/one.rtp" 2>&1 >/dev/null | head -n 3
