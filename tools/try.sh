#!/bin/sh
# Runs the program with these words on standard input, built anew without a proof (`rt try`: about a minute a run, and at most 1 MiB of
# output). It can stand for the program in a recipe, for a picture of up to 640x360 or so:
#
#   XSX=tools/try.sh sh tools/recipes/picture.sh SOURCE BACK.png
set -eu

cd "$(dirname "$0")/../crates/xsx"
exec rt try -- "$@"
