#!/bin/sh
# Proves the program and all that it stands on, builds it, and leaves it at crates/xsx/out/xsx. The kit leaves no program that is not
# proved: `rt try` builds one without proof in about a minute, runs it once and keeps nothing (tools/try.sh does so). The first
# run proves every crate below the program and is long; a later one proves what changed.
#
#   sh tools/build.sh
set -eu

top=$(cd "$(dirname "$0")/.." && pwd)
# What the prover says goes to standard error; standard output has the bytes of the stored example, which are dropped.
(cd "$top/crates/xsx" && rt run >/dev/null)
echo "$top/crates/xsx/out/xsx"
