"""'Slice, precinct and packet': written from their parts, and read."""
from dataclasses import dataclass

from . import coding
from .bits import Ended, Reader, number, packed
from .faults import Fault
from .header import SLH, two


@dataclass
class Line:
    counts: list
    numbers: list
    flags: list


class Tight:
    """What xsx writes where anything may stand: zero bits, and no filler."""

    def pad(self):
        return "0"

    def zero_sign(self):
        return "0"

    def filler(self):
        return b""


def write_packet(h, raw, lines, modes, cuts, above, loose):
    """A packet of the lines of its bands, in order. `above` has the line above of each band, and is brought up to date."""
    flags = counts = data = signs = ""
    for band, line in lines:
        mode, t = modes[band.number], cuts[band.number]
        if raw:
            counts += "".join(number(count, 4) for count in line.counts)
        else:
            flags += coding.spell_flags(line.flags) if mode & 2 else ""
            counts += coding.spell_counts(line.counts, mode, t, above.get(band.number), line.flags)
        data += coding.spell_data(line.counts, line.numbers, t, h.apart, loose.zero_sign)
        signs += coding.spell_signs(line.numbers) if h.apart else ""
        above[band.number] = (line.counts, t)
    parts = [packed(bits, loose.pad()) + loose.filler() for bits in (data, counts)]
    signs = packed(signs, loose.pad()) + loose.filler() if h.apart else b""
    head = coding.packet_head(int(raw), len(parts[0]), len(parts[1]), len(signs), h.long_heads)
    return packed(head) + packed(flags, loose.pad()) + parts[1] + parts[0] + signs


def write_precinct(h, q, r, modes, packets, loose=Tight(), more=b""):
    body = b"".join(packets) + loose.filler() + more
    return packed(number(len(body), 24) + number(q, 8) + number(r, 8) + "".join(number(mode, 2) for mode in modes), loose.pad()) + body


def slice_head(k):
    return two(SLH) + two(4) + two(k)


def read_packet(h, lines, modes, cuts, above, body, p):
    """The lines of a packet that begins at place p of the precinct's bytes, and where it ends."""
    size = 7 if h.long_heads else 5
    if p + size > len(body):
        raise Fault("overrun head")
    head = Reader(body[p : p + size])
    raw, *lengths = (head.get(width) for width in ((1, 20, 20, 15) if h.long_heads else (1, 15, 13, 11)))
    p += size
    flags = {}
    if not raw:
        flagged = [band for band in lines if modes[band.number] & 2]
        size = (sum(band.flags for band in flagged) + 7) // 8
        if p + size > len(body):
            raise Fault("overrun significance")
        reader = Reader(body[p : p + size])
        flags = {band.number: [reader.get(1) for _ in range(band.flags)] for band in flagged}
        p += size
    counts = {}
    with part("counts", body, p, lengths[1]) as reader:
        for band in lines:
            counts[band.number] = []
            mode, t = modes[band.number], cuts[band.number]
            if raw:
                items = (reader.get(4) for _ in range(band.groups))
            else:
                items = coding.read_counts(reader, band.groups, mode, t, above.get(band.number), flags.get(band.number), h.run_mode)
            for count in items:
                if count > 15:
                    raise Fault(f"count {count}")
                counts[band.number].append(count)
    p += lengths[1]
    numbers = {}
    with part("data", body, p, lengths[0]) as reader:
        for band in lines:
            numbers[band.number] = coding.read_data(reader, counts[band.number], cuts[band.number], h.apart)
    p += lengths[0]
    if h.apart:
        with part("signs", body, p, lengths[2]) as reader:
            for band in lines:
                numbers[band.number] = coding.read_signs(reader, numbers[band.number])
        p += lengths[2]
    for band in lines:
        above[band.number] = (counts[band.number], cuts[band.number])
    return counts, numbers, p


class part:
    """A reader of a part of a packet, which has to be within the precinct and to have what is read of it."""

    def __init__(self, name, body, p, length):
        self.name, self.bytes, self.whole = name, body[p : p + length], p + length <= len(body)

    def __enter__(self):
        if not self.whole:
            raise Fault(f"overrun {self.name}")
        return Reader(self.bytes)

    def __exit__(self, kind, fault, trace):
        if kind is Ended:
            raise Fault(f"overrun {self.name}") from fault


def read_precinct(h, precinct, data, p, above, rows):
    """Puts the coefficients of a precinct that begins at place p into the rows of the bands; gives where it ends."""
    size = (40 + 2 * len(h.bands) + 7) // 8
    head = Reader(data[p : p + size])
    if p + size > len(data):
        raise Fault("truncated", cut=True)
    length, q, r = head.get(24), head.get(8), head.get(8)
    modes = [head.get(2) for _ in h.bands]
    p += size
    if p + length > len(data):
        raise Fault("truncated", cut=True)
    body, at, cuts = data[p : p + length], 0, h.truncations(q, r)
    for s, (bands, line) in enumerate(h.packets(precinct)):
        try:
            counts, numbers, at = read_packet(h, bands, modes, cuts, above, body, at)
        except Fault as fault:
            raise Fault(f"packet {s} {fault.text}") from fault
        for band in bands:
            n = band.number
            rows[n][line] = coding.values_of(counts[n], numbers[n], cuts[n], h.uniform, band.width)
    return p + length


def read_slice(h, k, data, p, rows):
    """A slice that begins at place p; gives where it ends."""
    if len(data) - p < 6:
        raise Fault("short", cut=True)
    if data[p : p + 6] != slice_head(k):
        raise Fault("head")
    p += 6
    above = {}
    for precinct in h.slice_precincts(k):
        try:
            p = read_precinct(h, precinct, data, p, above, rows)
        except Fault as fault:
            raise Fault(f"precinct {precinct} {fault.text}", fault.cut) from fault
    return p
