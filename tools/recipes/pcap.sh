#!/bin/sh
# Sends a picture, or the first frame of a film, at so many bits a pixel (4 where none are given) as a pcap file of RTP packets to UDP port
# 5004, which tshark and Wireshark open, and takes the picture out of the file again. Where tshark is there, it shows the first packets.
#
#   sh tools/recipes/pcap.sh SOURCE SENT.pcap [BITS]
. "$(dirname "$0")/common.sh"

measure "$1"
take_frames "$1" 1 "$folder/in.raw"
encode "${3:-4}" --form pcap <"$folder/in.raw" >"$2"
"$program" decode --form pcap <"$2" >"$folder/back.raw"
echo "$2: ${width}x$height, $(size_of "$folder/in.raw") bytes of samples, a file of $(size_of "$2"), PSNR $(psnr "$folder/in.raw" "$folder/back.raw")"
if command -v tshark >/dev/null; then
    tshark -r "$2" -d udp.port==5004,rtp 2>/dev/null | head -n 3
fi
