#!/bin/sh
# Decodes random codestreams by the program and by the reference: segments in any order, every mode of every band, raw counts, both
# run modes, signs apart, both quantisers, long packet headers, any weights, quantisation and refinement, filler, and padding of ones.
# It uses the built program (crates/xsx/out/xsx, after `rt run` there or a whole `rt ci`), and python3.
#
#   sh bench/modes.sh [SEED [COUNT]]
. "$(dirname "$0")/common.sh"
compare_cases modes 1000 "$@"
