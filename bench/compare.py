"""Runs cases of a kind by a program and by the reference (bench/reference.py), and compares statuses, outputs and notes.

    compare.py KIND SEED FIRST COUNT PROGRAM..     KIND is depths, modes, shares, damage, rtp, pcap or words

Each case has a number and is made from it and the seed alone. At the first difference the input is kept and its command printed.
"""
import pathlib
import random
import shlex
import subprocess
import sys
import tempfile
from collections import Counter
from itertools import product
from math import prod

from cases import KINDS
from plain import network
from plain.faults import Fault
from plain.runs import run

MOST_CHOICES = 64


def choices(words, data):
    """The inputs whose answers are right: of a capture one for each choice among offers that disagree, none where they are too many."""
    if words[:1] != ["decode"] or "xs" in words or "pcap" in words:
        return [data]
    try:
        packets = network.frames_of(data)
    except Fault:
        return [data]
    offers, rivals = [network.offer_of(packet) for packet in packets], {}
    for offer in filter(None, offers):
        rivals.setdefault(offer.key, set()).add(offer.effect)
    disputed = {key: sorted(effects) for key, effects in rivals.items() if len(effects) > 1}
    if prod(map(len, disputed.values())) > MOST_CHOICES:
        return []
    picked = (dict(zip(disputed, effects)) for effects in product(*disputed.values()))
    stands = lambda offer, pick: offer is None or pick.get(offer.key, offer.effect) == offer.effect
    return [network.capture_of(p for p, offer in zip(packets, offers) if stands(offer, pick)) for pick in picked]


def shown(answer):
    status, output, notes = answer
    return f"status {status}, {len(output)} bytes, notes {notes.decode(errors='replace').splitlines()}"


def differs(words, data, program, wanted, name):
    """Says where the program answers otherwise than the reference."""
    done = subprocess.run(program + words, input=data, capture_output=True)
    answer = done.returncode, done.stdout, done.stderr
    if answer in wanted:
        return False
    kept = pathlib.Path(tempfile.gettempdir()) / name
    kept.write_bytes(data)
    print(f"{name}: {shlex.join(program + words)} <{kept}")
    print(f"  the program: {shown(answer)}\n  the reference: {' or '.join(map(shown, wanted))}")
    place = next((k for k, (a, b) in enumerate(zip(answer[1], wanted[0][1])) if a != b), min(len(answer[1]), len(wanted[0][1])))
    if answer[1] != wanted[0][1]:
        print(f"  the outputs differ from byte {place} on")
    return True


def main(kind, seed, first, count, *program):
    statuses, skipped = Counter(), 0
    for number in range(int(first), int(first) + int(count)):
        for part, (words, data) in enumerate(KINDS[kind](random.Random(f"{seed} {number}"), number)):
            wanted = [run(words, chosen) for chosen in choices(words, data)]
            if not wanted:
                skipped += 1
                continue
            if differs(words, data, list(program), wanted, f"{kind}-{seed}-{number}-{part}"):
                print(f"  again: python3 bench/compare.py {kind} {seed} {number} 1 {shlex.join(program)}")
                return 1
            statuses[wanted[0][0]] += 1
    told = ", ".join(f"{statuses[status]} with status {status}" for status in sorted(statuses))
    print(f"{kind}: {statuses.total()} runs alike in both programs ({told}); {skipped} left out, with too many right answers")
    return 0


if __name__ == "__main__":
    sys.exit(main(*sys.argv[1:]))
