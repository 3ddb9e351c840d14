"""'Classic pcap files'."""
from .faults import Fault

MAGICS = (0xA1B2C3D4, 0xA1B23C4D)
HEADER, RECORD, TAG, IPV4, UDP = 24, 16, 4, 20, 8


def big(data, at, size=2):
    return int.from_bytes(data[at : at + size], "big")


def records_of(data):
    """The captured bytes of each record."""
    if len(data) < HEADER:
        raise Fault("cut 0", cut=True)
    order = next((order for order in ("big", "little") if int.from_bytes(data[:4], order) in MAGICS), None)
    if order is None:
        raise Fault(f"magic {big(data, 0, 4):08x}")
    link = int.from_bytes(data[20:24], order)
    if link % 65536 != 1:
        raise Fault(f"link {link}")
    records, p = [], HEADER
    while p < len(data):
        end = p + RECORD + int.from_bytes(data[p + 8 : p + 12], order)
        if p + RECORD > len(data) or end > len(data):
            raise Fault(f"cut {p}", cut=True)
        records.append(data[p + RECORD : end])
        p = end
    return records


def payload_of(captured, port):
    """The payload of a datagram to the port, or to any where that is 0; else None."""
    rest = captured[12:]
    for _ in range(2):
        if len(rest) >= TAG and big(rest, 0) == 0x8100:
            rest = rest[TAG:]
    if len(rest) < 2 or big(rest, 0) != 0x0800:
        return None
    packet = rest[2:]
    if len(packet) < IPV4:
        return None
    front, total = packet[0] % 16 * 4, big(packet, 2)
    if packet[0] // 16 != 4 or packet[9] != 17 or big(packet, 6) % 16384 or not IPV4 <= front <= total <= len(packet):
        return None
    datagram = packet[front:total]
    if len(datagram) < UDP or not UDP <= big(datagram, 4) <= len(datagram) or port not in (0, big(datagram, 2)):
        return None
    return datagram[UDP : big(datagram, 4)]


def unwrapped(data, port):
    """The packets of a file, and how many records are stepped over."""
    payloads = [payload_of(captured, port) for captured in records_of(data)]
    packets = [payload for payload in payloads if payload is not None]
    return packets, len(payloads) - len(packets)


def checksum(header):
    total = sum(big(header, at) for at in range(0, len(header), 2))
    while total > 65535:
        total = total % 65536 + total // 65536
    return 65535 - total


def ipv4_header(total):
    first, last = b"\x45\0" + total.to_bytes(2, "big") + b"\0\0\x40\0\x40\x11", bytes((192, 0, 2, 1, 192, 0, 2, 2))
    return first + checksum(first + b"\0\0" + last).to_bytes(2, "big") + last


def file_header():
    return b"".join((MAGICS[0].to_bytes(4, "little"), b"\2\0\4\0", bytes(8), (65535).to_bytes(4, "little"), (1).to_bytes(4, "little")))


def wrapped(packet, timestamp, port):
    """The record of a packet."""
    ports = port.to_bytes(2, "big") * 2
    frame = b"\2\0\0\0\0\2\2\0\0\0\0\1\x08\0" + ipv4_header(28 + len(packet)) + ports + (8 + len(packet)).to_bytes(2, "big") + b"\0\0" + packet
    words = (timestamp // 90000, timestamp % 90000 * 100 // 9, len(frame), len(frame))
    return b"".join(word.to_bytes(4, "little") for word in words) + frame


def file_of(packets, port):
    """The file of RTP packets, each at the time that it states."""
    return file_header() + b"".join(wrapped(packet, big(packet, 4, 4), port) for packet in packets)
