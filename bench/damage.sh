#!/bin/sh
# Decodes damaged codestreams by the program and by the reference: bytes changed, put in, left out or cut off, and headers with other
# segments and values. Notes, statuses and the pictures before the damage must be alike.
# It uses the built program (crates/xsx/out/xsx, after `rt run` there or a whole `rt ci`), and python3.
#
#   sh bench/damage.sh [SEED [COUNT]]
. "$(dirname "$0")/common.sh"
compare_cases damage 500 "$@"
