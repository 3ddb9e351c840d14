"""Whole codestreams: a picture encoded, and the first codestream of bytes decoded."""
from . import rate, signal
from .faults import Fault
from .header import EOC, read_header, two, write_header
from .slices import read_slice


def encode(h, planes, share, fill):
    """The header and the slices of a picture's codestream."""
    bands = [[[rate.fold(c, h.fq) for c in row] for row in band] for band in signal.forward(h, planes)]
    slices = [rate.SliceCoder(h, k, bands).write(share, fill) for k in range(h.slices)]
    h.lcod = len(write_header(h)) + sum(map(len, slices)) + 2
    return write_header(h), slices


def empty_rows(h):
    return [[None] * band.height for band in h.bands]


def read_codestream(data):
    """The header, the coefficients and the length of the codestream at the front of bytes."""
    try:
        h, p = read_header(data)
    except Fault as fault:
        raise Fault(f"header {fault.text}", fault.cut) from fault
    rows = empty_rows(h)
    for k in range(h.slices):
        try:
            p = read_slice(h, k, data, p, rows)
        except Fault as fault:
            raise Fault(f"slice {k} {fault.text}", fault.cut) from fault
    if p + 2 > len(data):
        raise Fault("end", cut=True)
    if data[p : p + 2] != two(EOC):
        raise Fault(f"slice {h.slices - 1} end")
    if h.lcod not in (0, p + 2):
        raise Fault(f"length {h.lcod} {p + 2}")
    return h, rows, p + 2


def decoded(h, rows):
    """The raw picture of the coefficients that a codestream has."""
    return signal.write_raw(h, signal.back(h, rows))
