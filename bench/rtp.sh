#!/bin/sh
# Decodes captures by the program and by the reference: packets in any order, repeated in another guise, lost, damaged, among packets
# that are no offers, with boxes before the header. Some of the runs of `encode` that the packets come from are compared as well. Where
# offers disagree, the answer must be that of some choice among them; a capture with more than 64 choices is left out. Pcap files as well:
# as they are written, with records that are stepped over, and damaged.
# It uses the built program (crates/xsx/out/xsx, after `rt run` there or a whole `rt ci`), and python3.
#
#   sh bench/rtp.sh [SEED [COUNT]]
. "$(dirname "$0")/common.sh"
compare_cases rtp 1000 "$@"
compare_cases pcap 300 "$@"
