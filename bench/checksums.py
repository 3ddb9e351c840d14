"""Computes the checksums of crates/xs_codec_tests/src/decoding.rt: pictures whose coefficients are made by a rule are decoded as
docs/FORMAT.md says, and all samples of a picture are joined into one number.

    python3 bench/checksums.py      takes the rows of the test's table, and fails where one states another number
"""
import pathlib
import re
import sys

from plain.layout import SAMPLING, Header
from plain.signal import back

TEST = pathlib.Path(__file__).parent.parent / "crates/xs_codec_tests/src/decoding.rt"
FORMATS = {1: "mono", 422: "422", 444: "444"}


def coefficient(band, line, column):
    total = band % 100 * 37 + line % 1000 * 11 + column % 1000 * 7
    return (total + line % 1000 * (column % 1000)) % 31 * 160 - 2400


def decoded(width, height, form, depth, nlx, nly, colour):
    header = Header(width, height, SAMPLING[FORMATS[form]], depth, colour=bool(colour), nlx=nlx, nly=nly)
    rows = lambda band: [[coefficient(band.number, line, k) for k in range(band.width)] for line in range(band.height)]
    return back(header, [rows(band) for band in header.bands])


def checksum(planes):
    check = 0
    for plane in planes:
        for row in plane:
            for sample in row:
                check = (check * 31 + sample) % 2**32
    return check


def rows():
    """Width, height, format, depth, levels across and down, colour, slice height and checksum, as the test states them."""
    table = re.search(r'const MIXED: &str = "\\\n(.*?)"', TEST.read_text(), re.DOTALL)
    return [tuple(map(int, line.split())) for line in table[1].splitlines()]


if __name__ == "__main__":
    wrong = 0
    for *picture, _, stated in rows():
        check = checksum(decoded(*picture))
        wrong += check != stated
        print(*picture, check, "" if check == stated else f"where the test states {stated}")
    sys.exit(wrong != 0)
