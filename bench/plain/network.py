"""'RTP packets and captures'."""
from .bits import number, packed
from .faults import Fault
from .header import EOC, read_unit, two
from .picture import decoded, empty_rows
from .slices import read_slice


class Offer:
    """A packet of a picture: its unit, its place in it, whether it closes it, and its bytes."""

    def __init__(self, timestamp, unit, place, last, data):
        self.timestamp, self.unit, self.place, self.last, self.data = timestamp, unit, place, last, data

    @property
    def key(self):
        return self.timestamp, self.unit, self.place

    @property
    def effect(self):
        """What offers of one place have to have in common to agree."""
        return self.last, self.data


def rtp_packet(marker, payload_type, sequence, timestamp, source, payload):
    fields = ((2, 2), (0, 6), (marker, 1), (payload_type, 7), (sequence, 16), (timestamp, 32), (source, 32))
    return packed("".join(number(value, width) for value, width in fields)) + payload


def payload_header(slice_mode, last, interlace, frame, sep, place, in_order=1):
    fields = ((in_order, 1), (slice_mode, 1), (last, 1), (interlace, 2), (frame, 5), (sep, 11), (place, 11))
    return packed("".join(number(value, width) for value, width in fields))


def pieces(unit, chunk):
    return [unit[k : k + chunk] for k in range(0, len(unit), chunk)]


def packets_of(header_unit, slices, settings, picture, sequence):
    """The packets of a picture's codestream; `settings` has chunk, pt, ssrc, time and step."""
    units = [header_unit] + slices[:-1] + [slices[-1] + two(EOC)]
    places = [(u, i, piece, i + 1 == len(cut)) for u, unit in enumerate(units) for cut in [pieces(unit, settings.chunk)] for i, piece in enumerate(cut)]
    packets = []
    for q, (u, i, piece, last) in enumerate(places):
        head = payload_header(1, last, 0, picture % 32, 2047 if u == 0 else u - 1, i)
        time = settings.time + picture * settings.step
        packets.append(rtp_packet(q + 1 == len(places), settings.pt, (sequence + q) % 65536, time, settings.ssrc, head + piece))
    return packets


def capture_of(packets):
    return b"".join(two(len(packet)) + packet for packet in packets)


def frames_of(capture):
    """The packets of a capture; it may be cut."""
    p, packets = 0, []
    while p < len(capture):
        size = int.from_bytes(capture[p : p + 2], "big")
        if p + 2 > len(capture) or p + 2 + size > len(capture):
            raise Fault(f"cut {p}", cut=True)
        packets.append(capture[p + 2 : p + 2 + size])
        p += 2 + size
    return packets


def payload_of(packet):
    """Where the payload of a packet stands, or why it is refused."""
    if len(packet) < 12:
        raise Fault(f"short {len(packet)}")
    if packet[0] >> 6 != 2:
        raise Fault(f"version {packet[0] >> 6}")
    start, end = 12 + 4 * (packet[0] & 15), len(packet)
    if len(packet) < start:
        raise Fault(f"short {len(packet)}")
    if packet[0] & 32:
        if not 1 <= packet[-1] <= len(packet) - start:
            raise Fault(f"padding {packet[-1]}")
        end -= packet[-1]
    if packet[0] & 16:
        for words in (0, int.from_bytes(packet[start + 2 : start + 4], "big")):
            if start + 4 + 4 * words > end:
                raise Fault(f"extension {start + 4 + 4 * words}")
        start += 4 + 4 * words
    return start, end


def offer_of(packet):
    try:
        start, end = payload_of(packet)
    except Fault:
        return None
    head = int.from_bytes(packet[start : start + 4], "big")
    slice_mode, interlace, sep, place = head >> 30 & 1, head >> 27 & 3, head >> 11 & 2047, head & 2047
    if end - start < 4 or not slice_mode or interlace or place >= 512:
        return None
    unit = 0 if sep == 2047 else sep + 1
    return Offer(int.from_bytes(packet[4:8], "big"), unit, place, head >> 29 & 1, packet[start + 4 : end])


def pictures_of(packets):
    """The offers of each timestamp, in the order of the capture, and how many frames are stepped over."""
    pictures, stepped = {}, 0
    for packet in packets:
        offer = offer_of(packet)
        if offer:
            pictures.setdefault(offer.timestamp, []).append(offer)
        else:
            stepped += 1
    return pictures, stepped


def units_of(offers):
    """The bytes of the units that are whole, of the selection that takes the first offer of a place."""
    selection, units = {}, {}
    for offer in offers:
        selection.setdefault((offer.unit, offer.place), offer)
    for unit in {unit for unit, _ in selection}:
        data, place = b"", 0
        while (unit, place) in selection:
            data += selection[unit, place].data
            if selection[unit, place].last:
                units[unit] = data
                break
            place += 1
    return units


class Missing(Exception):
    """The header of a picture is not whole, where no slice is named; or these slices are not."""

    def __init__(self, slices=()):
        super().__init__(slices)
        self.slices = slices


def received(offers):
    """The raw picture that is received of the offers of a timestamp."""
    units = units_of(offers)
    if 0 not in units:
        raise Missing
    try:
        h, length = read_unit(units[0])
    except Fault as fault:
        raise Fault(f"header {fault.text}") from fault
    missing = [k for k in range(h.slices) if k + 1 not in units]
    if missing:
        raise Missing(missing)
    rows = empty_rows(h)
    for k in range(h.slices):
        try:
            read_slice_unit(h, k, units[k + 1], rows)
        except Fault as fault:
            raise Fault(f"slice {k} {fault.text}") from fault
    length += sum(len(units[k + 1]) for k in range(h.slices))
    if h.lcod not in (0, length):
        raise Fault(f"length {h.lcod} {length}")
    return decoded(h, rows)


def read_slice_unit(h, k, data, rows):
    p = read_slice(h, k, data, 0, rows)
    if k == h.slices - 1 and data[p:] != two(EOC):
        raise Fault("end")
    if k < h.slices - 1 and p < len(data):
        raise Fault(f"trailing {p}")
