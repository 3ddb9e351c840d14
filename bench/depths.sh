#!/bin/sh
# Encodes grey pictures of many sizes at every number of wavelet levels, with nothing cut off, by the program and by a slow one that
# is written straight from docs/FORMAT.md (bench/reference.py), and decodes each codestream by both: all bytes must be alike.
# It uses the built program (crates/xsx/out/xsx, after `rt run` there or a whole `rt ci`), and python3.
#
#   sh bench/depths.sh [SEED [COUNT]]
. "$(dirname "$0")/common.sh"
compare_cases depths 560 "$@"
