#!/bin/sh
# Splits and joins planes of many sizes by xs_wave, components by xs_splitter and xs_joiner, and the slices of pictures by xs_stripe, odd
# sizes and the smallest among them, with random numbers and with the greatest, and compares each with a slow program in plain Rust that is
# written straight from the formulas (bench/sizes/plain). What is compared is a hash of all numbers of each result. It uses rt and rustc,
# and works on a copy of the crates in a folder of its own, where bench/sizes/rattle runs without a proof.
. "$(dirname "$0")/common.sh"

for crate in "$top"/crates/*; do
    mkdir -p "$folder/crates/${crate##*/}"
    for part in src specs proofs; do
        [ ! -d "$crate/$part" ] || cp -r "$crate/$part" "$folder/crates/${crate##*/}/$part"
    done
done
mkdir -p "$folder/crates/wave_sizes/src"
for part in "$top"/bench/sizes/rattle/*.rattle; do
    name=${part##*/}
    cp "$part" "$folder/crates/wave_sizes/src/${name%.rattle}.rt"
done
cp "$top/crates.txt" "$folder/crates.txt"
echo 'wave_sizes: xs_io xs_params xs_geometry xs_wave xs_splitter xs_joiner xs_stripe' >>"$folder/crates.txt"

rustc -O --edition 2021 -o "$folder/plain" "$top/bench/sizes/plain/main.rs"
"$folder/plain" >"$folder/wanted"
(cd "$folder/crates/wave_sizes" && rt try --seconds 900) >"$folder/given" 2>"$folder/notes" || { cat "$folder/notes" >&2; exit 1; }
grep -E '^(plane|component|picture) ' "$folder/given" >"$folder/found"
cmp "$folder/wanted" "$folder/found"
for kind in plane component picture; do
    echo "$(grep -c "^$kind " "$folder/wanted") results of kind $kind: all the same"
done
