"""A slow program with the words of xsx, written straight from docs/FORMAT.md: the codec stands in bench/plain.

    reference.py encode --form xs --width 32 --height 4 --share 400 .. < raw > codestreams
    reference.py decode --form rtp < capture > raw
"""
import sys

from plain.runs import run

if __name__ == "__main__":
    status, output, notes = run(sys.argv[1:], sys.stdin.buffer.read())
    sys.stdout.buffer.write(output)
    sys.stderr.buffer.write(notes)
    sys.exit(status)
