#!/bin/sh
# Counts the lines of the crates that the program stands on, and of all: code with its contracts (src/), definitions (specs/) and
# proofs (proofs/), without empty lines.
#
#   sh tools/figures.sh
set -eu

cd "$(dirname "$0")/../crates"

# Lines of a folder of these crates.
lines() {
    part=$1
    shift
    for crate in "$@"; do
        [ ! -d "$crate/$part" ] || find "$crate/$part" -type f -exec cat {} +
    done | grep -c .
}

row() {
    what=$1
    shift
    echo "$what: $# crates, $(lines src "$@") lines of code, $(lines specs "$@") of definitions, $(lines proofs "$@") of proofs"
}

# The crates at or below one, by crates.txt.
below() {
    awk -v top="$1" '
        /^[a-z_]+.*:/ { split($0, part, ":"); split(part[1], head, " "); uses[head[1]] = part[2] }
        function visit(name,   list, n, i) {
            if (seen[name] || !(name in uses)) return
            seen[name] = 1
            print name
            n = split(uses[name], list, " ")
            for (i = 1; i <= n; i++) visit(list[i])
        }
        END { visit(top) }' ../crates.txt
}

# The names are split at blanks, on purpose.
row 'the program' $(below xsx)
row 'all' $(ls)
