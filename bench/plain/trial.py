"""'Trial': a picture made of a number is sent and received."""
from . import commands, network
from .picture import encode
from .signal import raw_size, read_raw


def next_state(state):
    return (state * 6364136223846793005 + 1442695040888963407) % 2**64


def picture_of(h, depth, state):
    """The raw picture, and the state after it."""
    raw, size = bytearray(), 1 if depth == 8 else 2
    for sx in h.sampling:
        for row in range(h.height):
            for column in range((h.width + sx - 1) // sx):
                state = next_state(state)
                sample = (((column + row) % 256) + (state >> 60)) % 2**depth
                raw += sample.to_bytes(size, "little")
    return bytes(raw), state


def shuffled(packets, state):
    """Each packet twice, in the order that the state gives."""
    entries = packets + packets
    for i in range(len(entries) - 1, 0, -1):
        state = next_state(state)
        j = (state >> 33) % (i + 1)
        entries[i], entries[j] = entries[j], entries[i]
    return entries


def lines_of(settings, seed):
    h = commands.header_of(settings)
    raw, state = picture_of(h, settings.depth, seed)
    planes, _ = read_raw(h, raw)
    header, slices = encode(h, planes, settings.share, settings.fill == "1")
    packets = network.packets_of(settings.boxes + header, slices, settings, 0, 0)
    pictures, _ = network.pictures_of(shuffled(packets, state))
    (offers,) = pictures.values()
    back = network.received(offers)
    size = 1 if settings.depth == 8 else 2
    samples = lambda data: [int.from_bytes(data[p : p + size], "little") for p in range(0, len(data), size)]
    return [
        f"slices {len(slices)}",
        f"bytes {len(header) + sum(map(len, slices)) + 2}",
        f"packets {len(packets)}",
        f"repeats {len(packets)}",
        f"worst {max(abs(a - b) for a, b in zip(samples(raw), samples(back)))}",
        f"sum {sum(samples(back))}",
    ]
