#!/bin/sh
# Sends a picture of 256x64 samples in RTP packets over two paths, of which each loses about every second packet, in reverse
# order, and shows that what is received of both is the picture; and what is said where a packet is lost on both.
#
#   sh tools/demo.sh            runs the proved program where it stands, else one that is built without proving anything
#                               (`rt try`, about a minute each time), and says which
#   sh tools/demo.sh --prove    proves every crate and builds the program first (`rt run`; long the first time)
#
# The files stay in a new folder, which is named at the end.
set -eu

top=$(cd "$(dirname "$0")/.." && pwd)
crate=$top/crates/xsx
program=$crate/out/xsx
folder=$(mktemp -d)
picture=$folder/picture.raw
sent=$folder/sent.rtp
width=256
height=64
encode="encode --format mono --quant deadzone --width $width --height $height --share 2000 --chunk 256"

# A ramp over twice the width. Row r of the picture is cut from it at place r, so that the ramp slants.
make_picture() {
    column=0
    while [ "$column" -lt $((2 * width)) ]; do
        printf "\\$(printf %03o $((column / 2 % 256)))"
        column=$((column + 1))
    done >"$folder/ramp"
    row=0
    while [ "$row" -lt "$height" ]; do
        tail -c +$((row + 1)) "$folder/ramp" | head -c "$width"
        row=$((row + 1))
    done >"$picture"
    rm "$folder/ramp"
}

size_of() {
    wc -c <"$1" | tr -d ' '
}

# Cuts a capture into frames: a packet behind its length of two bytes. Frame n is the file n in the folder.
cut_frames() {
    total=$(size_of "$1")
    place=0
    count=0
    mkdir -p "$2"
    while [ "$place" -lt "$total" ]; do
        set -- "$1" "$2" $(tail -c +$((place + 1)) "$1" | head -c 2 | od -An -tu1)
        size=$(($3 * 256 + $4 + 2))
        tail -c +$((place + 1)) "$1" | head -c "$size" >"$2/$count"
        place=$((place + size))
        count=$((count + 1))
    done
}

# The words of a command are split at blanks, on purpose.
run() {
    if [ -x "$program" ]; then
        "$program" $1 <"$2" >"$3"
    else
        (cd "$crate" && rt try -- $1 <"$2" >"$3")
    fi
}

make_picture
if [ "${1:-}" = --prove ]; then
    (cd "$crate" && rt run >/dev/null)
fi
if [ -x "$program" ]; then
    echo "by $program, which was built after its proof"
else
    echo "by a program that is built without proving anything"
fi

run "$encode" "$picture" "$sent"
cut_frames "$sent" "$folder/frames"
echo "$picture: $(size_of "$picture") bytes, sent in $count packets of $(size_of "$sent") bytes together"

# The picture as it is decoded of all that was sent.
run decode "$sent" "$folder/whole.raw"

# One path loses each second packet, the other all even ones but the first; they arrive the last packet first.
number=$((count - 1))
while [ "$number" -ge 0 ]; do
    [ $((number % 2)) -eq 1 ] || cat "$folder/frames/$number"
    number=$((number - 1))
done >"$folder/one.rtp"
number=$((count - 1))
while [ "$number" -ge 0 ]; do
    [ $((number % 2)) -eq 0 ] && [ "$number" -ne 0 ] || cat "$folder/frames/$number"
    number=$((number - 1))
done >"$folder/other.rtp"
cat "$folder/one.rtp" "$folder/other.rtp" >"$folder/both.rtp"
run decode "$folder/both.rtp" "$folder/back.raw"
if ! cmp "$folder/whole.raw" "$folder/back.raw"; then
    echo "the picture that was received differs" >&2
    exit 1
fi
echo "$folder/back.raw: received over two paths, the same as of all packets"

# Without its last packet the last slice is not whole.
number=0
while [ "$number" -lt $((count - 1)) ]; do
    cat "$folder/frames/$number"
    number=$((number + 1))
done >"$folder/lost.rtp"
echo "without the last packet:"
run decode "$folder/lost.rtp" "$folder/none.raw" || echo "status $?"
