#!/bin/sh
# Runs of the built program that fail: what the status is, what stands on standard output, and what on standard error.
# The library's contract covers all but the last step, from its streams to those of the process.
# It uses the built program (crates/xsx/out/xsx, after `rt run` there or a whole `rt ci`).
. "$(dirname "$0")/common.sh"
program=$(built xsx 'rt run')
words='encode --form xs --width 32 --height 4 --format mono --nlx 1 --nly 0 --quant deadzone --share 400'

# Compares the status and the line on standard error of the run before, whose output must be empty where it went to a file.
ended() {
    [ "$status" = "$2" ] || { echo "$1: status $status where $2 is due" >&2; exit 1; }
    [ "$(cat "$folder/notes")" = "$3" ] || { echo "$1: '$(cat "$folder/notes")' where '$3' is due" >&2; exit 1; }
    [ ! -s "$folder/output" ] || { echo "$1: there is output" >&2; exit 1; }
    echo "$1: status $2${3:+, $3}"
}

# Runs the program on standard input.
run() {
    status=0
    : >"$folder/output"
    "$program" "$@" >"$folder/output" 2>"$folder/notes" || status=$?
}

make_picture black 127 >"$folder/short"
make_picture black 128 >"$folder/picture"
run $words <"$folder/short"
ended 'a picture that is a byte short' 3 'input cut 127'
run $words </dev/null
ended 'no picture' 0 ''
run decode --form raw <"$folder/picture"
ended 'words that are no command' 1 'words 2'
run encode --width 31 --height 4 --share 400 <"$folder/picture"
ended 'a setting out of range' 2 'setting width 31'
run decode --form pcap --port 65536 <"$folder/picture"
ended 'a port out of range' 2 'setting port 65536'
run decode --form pcap <"$folder/picture"
ended 'an input that is no pcap file' 3 'input magic 00000000'
run decode --workers 17 <"$folder/picture"
ended 'too many workers' 2 'setting workers 17'
make_picture white 640 >"$folder/tall"
run encode --form xs --width 32 --height 20 --format mono --nlx 1 --nly 0 --slice 20 --share 65 <"$folder/tall"
ended 'a slice over its share' 4 'budget picture 0 slice 0 size 246 share 65'
run $words <"$folder"
ended 'an input that fails' 7 'read fault'
run "$(printf 'encode\377')" <"$folder/picture"
ended 'a word that is not UTF-8' 1 ''
status=0
make_picture black 1073741825 | "$program" decode --form xs >"$folder/output" 2>"$folder/notes" || status=$?
ended 'an input past its limit' 3 'input limit 1073741824'
run decode --form xs <"$folder"
ended 'an input of codestreams that fails' 7 'read fault'
status=0
"$program" $words <"$folder/picture" >/dev/full 2>"$folder/notes" || status=$?
ended 'an output that is full' 8 ''
status=0
"$program" decode --form xs <"$folder/short" >"$folder/output" 2>/dev/full || status=$?
ended 'notes that are full' 8 ''
