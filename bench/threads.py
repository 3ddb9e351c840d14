"""Encodes random pictures and decodes random captures by a program with many crews of workers and feeders, and compares with the reference
(bench/reference.py).

    threads.py SEED COUNT PROGRAM..

The pictures are those of the cases of kind shares, the captures those of kind rtp, but for the large ones.
"""
import random
import sys
from itertools import count, islice, product

from cases import rtp, shares
from compare import choices, differs
from plain.runs import run

WORKERS, MOST_BYTES = (1, 2, 4, 16), 20000
CREWS = [("--workers", str(w), "--feeders", str(f)) for w, f in product(WORKERS, range(1, 9))]


def cases(kind, command, seed):
    for number in count():
        for words, data in kind(random.Random(f"{seed} {number}"), number):
            if words[0] == command:
                yield words, data


def pictures(seed, most, program):
    """Whether each picture is encoded alike by any number of workers."""
    for number, (words, data) in enumerate(islice(cases(shares, "encode", seed), most)):
        wanted, at = [run(words, data)], words.index("--workers") + 1
        crews = ([*words[:at], str(workers), *words[at + 1 :]] for workers in WORKERS)
        if any(differs(crew, data, program, wanted, f"encoders-{seed}-{number}") for crew in crews):
            return False
    print(f"threads: {most} runs of encode alike with {', '.join(map(str, WORKERS))} workers")
    return True


def captures(seed, most, program):
    """Whether each capture is decoded alike by any crew."""
    rivals, skipped = 0, 0
    small = (data for _, data in cases(rtp, "decode", seed) if len(data) < MOST_BYTES)
    for number, data in enumerate(islice(small, most)):
        wanted = [run(["decode"], chosen) for chosen in choices(["decode"], data)]
        if any(differs(["decode", *crew], data, program, wanted, f"threads-{seed}-{number}") for crew in CREWS if wanted):
            return False
        rivals += len(set(wanted)) > 1
        skipped += not wanted
    print(f"threads: {most - skipped} captures decoded alike by {len(CREWS)} crews each; {rivals} of them have several right answers; "
          f"{skipped} left out, with too many")
    return True


def main(seed, most, *program):
    return 0 if all(kind(seed, int(most), list(program)) for kind in (pictures, captures)) else 1


if __name__ == "__main__":
    sys.exit(main(*sys.argv[1:]))
