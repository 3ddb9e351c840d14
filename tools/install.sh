#!/bin/sh
# Puts the proved program and its manual page under a folder, and nothing else: PREFIX/bin/xsx and PREFIX/share/man/man1/xsx.1.
# The program is the one at crates/xsx/out/xsx, which only a proof leaves there (`rt ci`, or tools/build.sh). Where there is
# none, or a source is newer, tools/build.sh comes first.
#
#   sh tools/install.sh PREFIX
set -eu

top=$(cd "$(dirname "$0")/.." && pwd)
program=$top/crates/xsx/out/xsx
[ $# -eq 1 ] || { echo 'one word is wanted: the folder to install under' >&2; exit 1; }

if [ ! -x "$program" ] || [ -n "$(find "$top/crates" \( -name '*.rt' -o -name '*.antt' \) -newer "$program" -print | head -n 1)" ]; then
    sh "$top/tools/build.sh" >&2
fi
mkdir -p "$1/bin" "$1/share/man/man1"
install -m 755 "$program" "$1/bin/xsx"
install -m 644 "$top/docs/xsx.1" "$1/share/man/man1/xsx.1"
