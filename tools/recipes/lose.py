"""Copies a capture but for every n-th packet, from number k on: python3 lose.py N K <in.rtp >out.rtp"""

import sys

every, first = int(sys.argv[1]), int(sys.argv[2])
capture = sys.stdin.buffer.read()
place = number = 0
while place < len(capture):
    end = place + 2 + int.from_bytes(capture[place : place + 2], "big")
    if number % every != first:
        sys.stdout.buffer.write(capture[place:end])
    place, number = end, number + 1
