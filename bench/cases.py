"""Makes cases: words and an input, from a number generator. The codestreams with random modes and counts, raw packets, filler, and
segments in any order are those that xsx reads and never writes."""
from plain import coding, commands, network, pcap as files, runs
from plain.header import CAP, CDT, COM, CRG, CTS, CWD, EOC, NLT, PIH, PIH_FIELDS, SLH, SOC, WGT, segment, segments_of, two
from plain.layout import SAMPLING, Header, default_weights
from plain.picture import encode
from plain.rate import Budget
from plain.signal import raw_size, read_raw, sample_bytes
from plain.slices import Line, slice_head, write_packet, write_precinct

DECODE = ["decode", "--form", "xs"]


# Pictures

def samples(random, count, depth):
    """One component's samples: black, white, one grey, a ramp, stripes, noise, or few lights."""
    most = 2**depth - 1
    grey, step = random.randint(0, most), random.randint(1, 9)
    kinds = [lambda k: 0, lambda k: most, lambda k: grey, lambda k: k * step % (most + 1), lambda k: k % 2 * most,
             lambda k: random.randint(0, most), lambda k: most if random.random() < 0.03 else grey]
    kind = random.choice(kinds)
    return [kind(k) for k in range(count)]


def raw_picture(random, width, height, form, depth):
    size = sample_bytes(depth)
    counts = [-(-width // sx) * height for sx in SAMPLING[form]]
    return b"".join(x.to_bytes(size, "little") for count in counts for x in samples(random, count, depth))


def levels(random, width, form):
    columns = -(-width // max(SAMPLING[form]))
    nlx = random.randint(1, min(5, columns.bit_length() - 1))
    return nlx, random.randint(0, min(2, nlx))


def settings(random, form, most_side=80):
    """The words of `encode` for one picture, but for its share, and the picture."""
    picture_format = random.choice(list(SAMPLING))
    width, height, depth = random.randint(32, most_side), random.randint(4, 24), random.choice((8, 10, 12))
    nlx, nly = levels(random, width, picture_format)
    values = {"form": form, "width": width, "height": height, "format": picture_format, "depth": depth, "bits": random.choice((18, 20)),
              "nlx": nlx, "nly": nly, "slice": random.randint(1, 4), "colour": int(picture_format == "444" and random.random() < 0.5),
              "quant": random.choice(("deadzone", "uniform")), "signs": random.choice(("in", "apart")), "fill": random.choice((0, 0, 1)), "workers": random.choice((1, 2, 4, 16))}
    pictures = random.choice((1, 1, 1, 1, 2, 3))
    return values, b"".join(raw_picture(random, width, height, picture_format, depth) for _ in range(pictures))


def words_of(values):
    return ["encode"] + [word for name, value in values.items() for word in ("--" + name, str(value))]


# Codestreams that xsx reads

class Loose:
    """Anything where anything may stand."""

    def __init__(self, random):
        self.random = random

    def pad(self):
        return self.random.choice("01")

    def zero_sign(self):
        return self.random.choice("01")

    def filler(self):
        return self.random.randbytes(self.random.choice((0, 0, 0, 1, 5)))


def random_header(random):
    form = random.choice(list(SAMPLING))
    width = random.randint(32, 80)
    nlx, nly = levels(random, width, form)
    bw, fq = random.choice(((20, 8), (18, 6)))
    weights = default_weights(nlx, nly, len(SAMPLING[form]))
    if random.random() < 0.5:
        weights = [(random.choice((0, 1, 2, 3, 200)), random.randint(0, 255)) for _ in weights]
    return Header(width, random.randint(4, 24), SAMPLING[form], random.choice((8, 10, 12)), bw, fq, form == "444" and random.random() < 0.5, nlx, nly,
                  random.randint(1, 4), random.random() < 0.5, random.random() < 0.5, random.randint(0, 1), random.random() < 0.3, weights)


def random_layout(random):
    """The order of the segments, what stands between them and is stepped over, and the fields that have no effect."""
    others = [segment(random.choice((CAP, COM, CRG)), random.randbytes(random.choice((0, 1, 2, 9)))) for _ in range(random.choice((0, 1, 1, 3)))]
    order = [PIH] + random.sample((CDT, WGT), 2)
    for other in others:
        order.insert(random.randint(0, len(order)), other)
    return order, {"ppih": random.randint(0, 65535), "plev": random.randint(0, 65535), "rl": random.randint(0, 1)}


def header_bytes(h, layout):
    order, fields = layout
    parts = segments_of(h, **fields)
    return two(SOC) + b"".join(parts.get(part, part) for part in order)


def random_line(random, h, band, mode, t, above, raw):
    """A line of a band with any counts and numbers that its mode can spell."""
    most = random.choice((t, min(t + 2, 15), 15))
    count = lambda: random.randint(0, 15) if raw else random.randint(t, most)
    counts = [count() for _ in range(band.groups)]
    flags = [random.random() < 0.4 for _ in range(band.flags)]
    expected = coding.predictions(band.groups, mode, t, above)
    if mode & 2 and not raw:
        counts = [(t if h.run_mode else expected[g]) if flags[g // 8] else counts[g] for g in range(band.groups)]
    top = lambda m: 2 ** max(m - t, 0) - 1
    return Line(counts, [[random.randint(-top(m), top(m)) for _ in range(4)] for m in counts], flags)


def random_codestream(random):
    """A codestream in the grammar, and the raw picture that it stands for."""
    h, loose = random_header(random), Loose(random)
    rows, body = [[None] * band.height for band in h.bands], b""
    for k in range(h.slices):
        body, above = body + slice_head(k), {}
        for precinct in h.slice_precincts(k):
            q, r, modes = random.choice((0, 1, 3, 6, 14, 30, 255)), random.randint(0, 255), [random.randint(0, 3) for _ in h.bands]
            cuts, packets = h.truncations(q, r), []
            for bands, at in h.packets(precinct):
                raw = random.random() < 0.2
                lines = [(b, random_line(random, h, b, modes[b.number], cuts[b.number], above.get(b.number), raw)) for b in bands]
                packets.append(write_packet(h, raw, lines, modes, cuts, above, loose))
                for b, line in lines:
                    rows[b.number][at] = coding.values_of(line.counts, line.numbers, cuts[b.number], h.uniform, b.width)
            body += write_precinct(h, q, r, modes, packets, loose)
    layout = random_layout(random)
    h.lcod = random.choice((0, len(header_bytes(h, layout)) + len(body) + 2))
    return header_bytes(h, layout) + body + two(EOC), runs.decoded(h, rows)


# Kinds of cases

def depths(random, number):
    """Grey pictures of many sizes at every number of levels, nothing cut off."""
    sizes = ("32x4x1", "33x5x2", "34x6x4", "35x7x3", "37x9x1", "48x16x2", "63x31x5", "64x32x4", "65x33x3", "131x61x7")
    layouts = [(nlx, nly) for nlx in range(1, 6) for nly in range(min(2, nlx) + 1)]
    size, (nlx, nly) = sizes[number // len(layouts) % len(sizes)], layouts[number % len(layouts)]
    width, height, lines = map(int, size.split("x"))
    values = {"form": "xs", "width": width, "height": height, "nlx": nlx, "nly": nly, "slice": lines, "format": "mono", "quant": "deadzone", "share": 89598}
    yield from encoded(words_of(values), raw_picture(random, width, height, "mono", 8))


def encoded(words, picture):
    """A picture to encode, and the outcome to decode."""
    yield words, picture
    status, stream, _ = runs.run(words, picture)
    if status == 0:
        yield ["decode", "--form", words[words.index("--form") + 1]], stream


def modes(random, number):
    streams = [random_codestream(random) for _ in range(random.choice((1, 1, 2)))]
    data = b"".join(stream for stream, _ in streams)
    assert runs.run(DECODE, data) == (0, b"".join(picture for _, picture in streams), b"")
    yield DECODE, data


def greatest_slice(values, picture):
    """The bytes of the greatest slice of the first picture, unless one is over its share."""
    chosen = commands.settings_of(*commands.command_of(words_of(values)))
    h = commands.header_of(chosen)
    try:
        return max(map(len, encode(h, read_raw(h, picture[: raw_size(h)])[0], chosen.share, False)[1]))
    except Budget:
        return chosen.share


def shares(random, number):
    values, picture = settings(random, "xs")
    size = len(picture) // -(-values["height"] // (values["slice"] << values["nly"]))
    share = int(size * random.choice((0.05, 0.1, 0.2, 0.3, 0.5, 1)) * random.uniform(0.7, 1.4))
    values["share"] = random.randint(64, 200) if random.random() < 0.1 else max(64, share)
    if random.random() < 0.3:
        values["share"] = max(64, greatest_slice(values, picture) - random.choice((0, 1)))
    if random.random() < 0.1:
        picture = damaged(random, picture)
    yield from encoded(words_of(values), picture)


def some_codestream(random):
    if random.random() < 0.6:
        return random_codestream(random)[0]
    values, picture = settings(random, "xs", 40)
    _, stream, _ = runs.run(words_of(values | {"share": 20000, "fill": 0}), picture)
    return stream


def damaged(random, data):
    """Some bytes changed, put in, left out or cut off."""
    data = bytearray(data)
    for _ in range(random.choice((1, 1, 1, 2, 4))):
        place = random.randrange(min(len(data), random.choice((90, len(data)))) or 1)
        kind = random.choice(("bit", "bit", "byte", "byte", "small", "cut", "out", "in"))
        if kind == "cut":
            del data[place:]
        elif kind == "out":
            del data[place : place + random.choice((1, 2, 9))]
        elif kind == "in":
            data[place:place] = random.randbytes(random.choice((1, 2, 9)))
        elif place < len(data):
            data[place] = {"bit": data[place] ^ 1 << random.randrange(8), "byte": random.randrange(256), "small": random.randrange(4)}[kind]
    return bytes(data)


def spoilt_header(random):
    """A header with segments left out, doubled, exchanged or of another code or length, and fields of PIH of any value; a slice follows."""
    h = random_header(random)
    near = lambda width: random.choice((0, 1, 2, 3, 4, 8, 18, 20, 31, 32, 255, 4096, 8192, 8193, 65535, random.getrandbits(width))) % 2**width
    fields = {name: near(width) for name, width in random.sample(PIH_FIELDS[3:], random.choice((0, 1, 1, 2)))}
    parts = list(segments_of(h, **fields).values())
    for _ in range(random.choice((0, 1, 1, 2))):
        place, kind = random.randrange(len(parts) or 1), random.randrange(5)
        if kind == 0:
            parts[place:] = parts[place + 1 :]
        elif kind == 1:
            parts += parts[place : place + 1]
        elif kind == 2:
            random.shuffle(parts)
        elif kind == 3:
            parts.insert(place, segment(random.choice((NLT, CWD, CTS, SOC, EOC, SLH, 0xFF51, COM)), random.randbytes(2)))
        elif parts:
            parts[place] = parts[place][:2] + two(random.choice((0, 1, 2, 4, 26, 27))) + parts[place][4:]
    return two(SOC) + b"".join(parts) + random.choice((b"", b"\xff", slice_head(0)))


def damage(random, number):
    stream = some_codestream(random)
    for _ in range(6):
        front = stream if random.random() < 0.2 else b""
        yield DECODE, front + damaged(random, stream)
    for _ in range(6):
        yield DECODE, spoilt_header(random)


def capture(random):
    """The packets of a run of `encode`, cut to small pieces."""
    values, pictures = settings(random, "rtp", 40)
    values |= {"share": random.choice((1000, 4000, 20000)), "chunk": random.randint(64, 300), "pt": random.randint(96, 127),
               "ssrc": random.choice((0, 2**32 - 1)), "time": random.choice((0, 7, 2**31)), "step": random.choice((1, 1500, 4194304))}
    words = words_of(values)
    return words, pictures, network.frames_of(runs.run(words, pictures)[1])


def disguised(random, packet):
    """The same offer: other fields without effect, sources, an extension, padding."""
    sources, words, padding = random.choice((0, 0, 3)), random.choice((None, None, 0, 2)), random.choice((0, 0, 1, 200))
    first = 0x80 | 0x20 * (padding > 0) | 0x10 * (words is not None) | sources
    extension = b"" if words is None else random.randbytes(2) + two(words) + random.randbytes(4 * words)
    head = bytes((first,)) + random.randbytes(3) + packet[4:8] + random.randbytes(4 + 4 * sources) + extension
    payload = bytes((packet[12] ^ random.choice((0, 0x80, 3)),)) + packet[13:]
    return head + payload + bytes(max(padding - 1, 0)) + bytes((padding,)) * (padding > 0)


def is_first(packet):
    offer = network.offer_of(packet)
    return offer.unit == 0 and offer.place == 0


def boxed(random, packet):
    """Boxes before the header, now and then of a wrong length."""
    sizes = [random.randint(8, 20) for _ in range(random.randint(1, 2))]
    told = [size if random.random() < 0.8 else random.choice((0, 7, 9, 5000)) for size in sizes]
    boxes = b"".join(stated.to_bytes(4, "big") + random.randbytes(size - 4) for size, stated in zip(sizes, told))
    return packet[:16] + boxes + packet[16:]


def stranger(random, packet):
    """A frame that is no offer."""
    changed = bytearray(packet)
    kind = random.randrange(5)
    if kind == 0:
        return random.randbytes(random.randint(0, 15))
    if kind == 1:
        changed[0] ^= 0x40
    if kind == 2:
        changed[12] ^= 0x40
    if kind == 3:
        changed[12] ^= 0x08
    if kind == 4:
        changed[14] |= 2
    return bytes(changed)


def rivals(random, words, pictures, packets):
    """Packets that disagree with some of these: of another picture by the same words, or damaged."""
    others = network.frames_of(runs.run(words, pictures[::-1])[1])
    spoilt = [packet[:12] + damaged(random, packet[12:]) for packet in random.sample(packets, min(1, len(packets)))]
    return random.sample(others, min(3, len(others))) + spoilt


def rtp(random, number):
    words, pictures, packets = capture(random)
    if number % 4 == 0:
        yield words, pictures
    if number % 5 == 0:
        packets = [boxed(random, packet) if is_first(packet) else packet for packet in packets]
    lost = random.choice((0, 0, 0.02, 0.3))
    sent = [packet for packet in packets if random.random() >= lost for _ in range(random.choice((1, 1, 2)))]
    sent = [disguised(random, packet) if random.random() < 0.3 else packet for packet in sent]
    sent += [stranger(random, random.choice(packets)) for _ in range(random.choice((0, 0, 1, 4)) * bool(packets))]
    if number % 4 == 1:
        sent += rivals(random, words, pictures, packets)
    if random.random() < 0.8:
        random.shuffle(sent)
    decode = ["decode", "--workers", str(random.randint(1, 16)), "--feeders", str(random.randint(1, 8))]
    yield decode, network.capture_of(sent)
    if number % 3 == 0:
        yield decode, damaged(random, network.capture_of(packets))
    if number % 3 == 1 and packets:
        k = random.randrange(len(packets))
        rest = damaged(random, packets[k][12:]) if random.random() < 0.5 else bytes((packets[k][12] ^ 0x20,)) + packets[k][13:]
        packets[k] = packets[k][:12] + rest
        yield decode, network.capture_of(packets)


def record(random, captured):
    """A record of captured bytes, now and then with a trailer, at any time."""
    captured += random.choice((b"", b"", bytes(4)))
    return random.randbytes(8) + len(captured).to_bytes(4, "little") + random.randbytes(4) + captured


def captured_of(random, packet, port):
    """A frame with a packet, now and then with tags, to another port, or no datagram."""
    frame = files.wrapped(packet, 0, port)[files.RECORD :]
    kind = random.randrange(12)
    if kind < 3:
        return frame[:12] + b"".join(b"\x81\0" + random.randbytes(2) for _ in range(kind + 1)) + frame[12:]
    changed = bytearray(frame)
    places = {3: 12, 4: 14, 5: 20, 6: 23, 7: 37}
    if kind in places:
        changed[places[kind]] ^= 1 << random.randrange(8)
    return bytes(changed)


def pcap(random, number):
    """Files of packets: as they are written; with records lost, repeated, in any order, and stepped over; damaged."""
    words, pictures, packets = capture(random)
    port = random.choice((1, 5004, 65535))
    words = [word if word != "rtp" else "pcap" for word in words] + ["--port", str(port)]
    yield words, pictures
    decode = ["decode", "--form", "pcap", "--port", str(random.choice((0, port, port, port ^ 256)))]
    lost = random.choice((0, 0, 0.02, 0.3))
    sent = [packet for packet in packets if random.random() >= lost for _ in range(random.choice((1, 1, 2)))]
    if random.random() < 0.8:
        random.shuffle(sent)
    yield decode, files.file_header() + b"".join(record(random, captured_of(random, packet, port)) for packet in sent)
    yield decode, damaged(random, files.file_of(packets, port))


def words(random, number):
    """Words of a command, one or two of them spoilt; the input is empty."""
    values, _ = settings(random, random.choice(("xs", "rtp")))
    values |= {"share": random.choice((64, 4000)), "workers": random.choice((1, 16))}
    if random.random() < 0.5:
        numbers = [name for name, value in values.items() if type(value) is int] + ["chunk", "pt", "ssrc", "time", "step"]
        limits = (0, 1, 3, 6, 9, 17, 19, 31, 63, 64, 95, 128, 255, 264, 8192, 8193, 65536, 716799, 4194305, 2**31 + 1, 2**32 - 1)
        values[random.choice(numbers)] = random.choice(limits)
    given = words_of(values) if random.random() < 0.8 else ["decode", "--form", "rtp", "--workers", "4", "--feeders", "2"]
    pairs = [given[k : k + 2] for k in range(1, len(given), 2)]
    random.shuffle(pairs)
    given = given[:1] + [word for pair in pairs for word in pair]
    odd = ("0", "1", "7", "255", "264", "65536", "4294967295", "4294967296", "0000000032", "00000000032", "-1", "+8", "", "--", "--width", "--port",
           "--seed", "xs", "pcap", "422", "Mono", "8 ", "9", "17", "encode", "trial")
    for _ in range(random.choice((0, 0, 1, 2))):
        place = random.randrange(len(given) + 1)
        kind = random.randrange(4)
        if kind == 0:
            given[place:] = given[place + 1 :]
        elif kind == 1:
            given.insert(place, random.choice(odd))
        else:
            given[place : place + 1] = [random.choice(odd)]
    yield given, b""


KINDS = {kind.__name__: kind for kind in (depths, modes, shares, damage, rtp, pcap, words)}
