#!/bin/sh
# Takes a picture, or the first frame of a film, through xsx at so many bits a pixel (4 where none are given), and leaves what comes
# back as a PNG. Says how many bytes were sent, and how far what came back is from what went in.
#
#   sh tools/recipes/picture.sh SOURCE BACK.png [BITS]
. "$(dirname "$0")/common.sh"

measure "$1"
take_frames "$1" 1 "$folder/in.raw"
encode "${3:-4}" <"$folder/in.raw" >"$folder/sent.rtp"
"$program" decode <"$folder/sent.rtp" >"$folder/back.raw"
ffmpeg -v error -y $raw -i "$folder/back.raw" -frames:v 1 "$2"
echo "$2: ${width}x$height, $(size_of "$folder/in.raw") bytes of samples, sent in $(size_of "$folder/sent.rtp"), PSNR $(psnr "$folder/in.raw" "$folder/back.raw")"
