#!/bin/sh
# Encodes pictures at random settings by the program with 1, 2, 4 and 16 workers, and decodes random captures with as many workers and 1
# to 8 feeders: packets in any order, repeated in another guise, lost, damaged, among packets that are no offers, with boxes before
# the header. Output, notes and status have to be those of the reference each time; where senders disagree, those of some choice among
# them. A capture with more than 64 choices is left out.
# It uses the built program (crates/xsx/out/xsx, after `rt run` there or a whole `rt ci`), and python3.
#
#   sh bench/threads.sh [SEED [COUNT]]
. "$(dirname "$0")/common.sh"

program=$(built xsx 'rt run')
command -v python3 >/dev/null || { echo "no python3: skipped" >&2; exit 0; }
nice python3 "$top/bench/threads.py" "${1:-1}" "${2:-1000}" "$program"
