#!/bin/sh
# Shows what `encode --form pcap` writes of a small picture to tshark: as many RTP packets with good IPv4 checksums as there are records.
# The file has the bytes that the reference makes of the same words. Then files that editcap writes of it, with nanoseconds, and files in
# the other order of bytes are decoded to the same samples. It uses the built program (crates/xsx/out/xsx, after `rt run` there or a
# whole `rt ci`), and needs python3, tshark and editcap.
#
#   sh bench/pcap.sh
. "$(dirname "$0")/common.sh"

program=$(built xsx 'rt run')
for tool in python3 tshark editcap; do
    command -v $tool >/dev/null || { echo "no $tool: skipped" >&2; exit 0; }
done
words='encode --form pcap --width 32 --height 17 --format mono --nlx 2 --share 274 --chunk 64'

head -c 544 /dev/zero | tr '\0' '\200' >"$folder/raw"
"$program" $words <"$folder/raw" >"$folder/sent.pcap"
[ "$(wc -c <"$folder/sent.pcap")" -eq 907 ]
python3 "$top/bench/reference.py" $words <"$folder/raw" | cmp - "$folder/sent.pcap"

tshark -r "$folder/sent.pcap" 2>/dev/null | wc -l >"$folder/all"
tshark -r "$folder/sent.pcap" -o ip.check_checksum:TRUE -d udp.port==5004,rtp -Y 'rtp && ip.checksum.status == "Good"' 2>/dev/null |
    wc -l | cmp - "$folder/all"
echo "all $(cat "$folder/all") records are RTP packets with good checksums"

editcap -F nsecpcap "$folder/sent.pcap" "$folder/nanoseconds.pcap"
python3 "$top/bench/pcap_files.py" big <"$folder/sent.pcap" >"$folder/big.pcap"
tshark -r "$folder/big.pcap" 2>/dev/null | wc -l | cmp - "$folder/all"
for file in sent nanoseconds big; do
    "$program" decode --form pcap <"$folder/$file.pcap" | cmp - "$folder/raw"
done
echo "files with nanoseconds and in the other order of bytes are decoded to the same samples"
