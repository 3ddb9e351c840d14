"""'Runs' and 'Notes': what a run of given words on given bytes ends with, writes and says."""
from . import commands, network, pcap, trial
from .faults import Fault
from .picture import decoded, encode, read_codestream
from .rate import Budget
from .signal import raw_size, read_raw

MOST_BYTES, MOST_PICTURES = 2**30, 256


def run(words, data):
    """The status, the output and the notes."""
    out, notes = [], []
    try:
        command, values = commands.command_of(words)
        settings = commands.settings_of(command, values)
        commands.check(command, settings)
        if command == "encode":
            status = encode_pictures(settings, data, out, notes)
        elif command == "trial":
            status = try_seed(settings, out, notes)
        else:
            status = (decode_codestreams if settings.form == "xs" else decode_packets)(settings, data, out, notes)
    except commands.BadWord as bad:
        status = told(notes, 1, f"words {bad.place}")
    except commands.BadSetting as bad:
        status = told(notes, 2, f"setting {bad.name} {bad.value}")
    return status, b"".join(out), "".join(note + "\n" for note in notes).encode()


def told(notes, status, note):
    notes.append(note)
    return status


def encode_pictures(settings, data, out, notes):
    h = commands.header_of(settings)
    size, p, sequence = raw_size(h), 0, 0
    if settings.form == "pcap":
        out.append(pcap.file_header())
    for n in range(MOST_PICTURES + 1):
        if p == len(data):
            return 0
        if n == MOST_PICTURES:
            return told(notes, 3, f"input pictures {n + 1}")
        if p + size > len(data):
            return told(notes, 3, f"input cut {len(data)}")
        planes, over = read_raw(h, data[p : p + size])
        if over is not None:
            return told(notes, 3, f"input sample {p + over}")
        try:
            header, slices = encode(h, planes, settings.share, settings.fill == "1")
        except Budget as budget:
            return told(notes, 4, f"budget picture {n} slice {budget.slice} size {budget.size} share {settings.share}")
        if settings.form == "xs":
            out.append(header + b"".join(slices) + network.two(network.EOC))
        else:
            packets = network.packets_of(settings.boxes + header, slices, settings, n, sequence)
            if settings.form == "pcap":
                out += [pcap.wrapped(packet, pcap.big(packet, 4, 4), settings.port) for packet in packets]
            else:
                out.append(network.capture_of(packets))
            sequence += len(packets)
        p += size


def try_seed(settings, out, notes):
    try:
        lines = trial.lines_of(settings, settings.seed)
    except Budget as budget:
        return told(notes, 4, f"budget picture 0 slice {budget.slice} size {budget.size} share {settings.share}")
    out.append("".join(line + "\n" for line in lines).encode())
    return 0


def decode_codestreams(settings, data, out, notes):
    if len(data) > MOST_BYTES:
        return told(notes, 3, f"input limit {MOST_BYTES}")
    p = 0
    for n in range(MOST_PICTURES + 1):
        if p == len(data):
            return 0
        if n == MOST_PICTURES:
            return told(notes, 3, f"input pictures {n + 1}")
        try:
            h, rows, length = read_codestream(data[p:])
        except Fault as fault:
            if fault.cut:
                return told(notes, 3, f"input cut {len(data)}")
            return told(notes, 6, f"damaged picture {n} {fault.text}")
        out.append(decoded(h, rows))
        p += length


def decode_packets(settings, data, out, notes):
    if len(data) > MOST_BYTES:
        return told(notes, 3, f"input limit {MOST_BYTES}")
    try:
        packets, records = pcap.unwrapped(data, settings.port) if settings.form == "pcap" else (network.frames_of(data), 0)
        pictures, stepped = network.pictures_of(packets)
    except Fault as fault:
        return told(notes, 3, f"input {fault.text}")
    if len(pictures) > MOST_PICTURES:
        return told(notes, 3, f"input pictures {len(pictures)}")
    if records + stepped:
        notes.append(f"stepped {records + stepped}")
    status = 0
    for timestamp in sorted(pictures):
        try:
            out.append(network.received(pictures[timestamp]))
        except network.Missing as missing:
            names = [f"slice {k}" for k in missing.slices] or ["header"]
            notes += [f"missing picture {timestamp} {name}" for name in names]
            status = status or 5
        except Fault as fault:
            notes.append(f"damaged picture {timestamp} {fault.text}")
            status = status or 6
    return status
