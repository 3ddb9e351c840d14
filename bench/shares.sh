#!/bin/sh
# Encodes small pictures of every format and depth at random shares and settings by the program and by the reference, and decodes each
# codestream by both: all bytes, notes and statuses must be alike. The commands' words are tried the same way, some of them bad.
# It uses the built program (crates/xsx/out/xsx, after `rt run` there or a whole `rt ci`), and python3.
#
#   sh bench/shares.sh [SEED [COUNT]]
. "$(dirname "$0")/common.sh"
compare_cases shares 1000 "$@"
compare_cases words 1000 "$@"
