"""'Codestream layout' and 'Picture header'."""
from .bits import Reader, number, packed
from .faults import Fault
from .layout import Header, band_types, ceil_div

SOC, CAP, PIH, CDT, WGT, COM, CRG = 0xFF10, 0xFF50, 0xFF12, 0xFF13, 0xFF14, 0xFF15, 0xFF19
NLT, CWD, CTS, SLH, EOC = 0xFF16, 0xFF17, 0xFF18, 0xFF20, 0xFF11

PIH_FIELDS = [("lcod", 32), ("ppih", 16), ("plev", 16), ("wf", 16), ("hf", 16), ("cw", 16), ("hsl", 16), ("nc", 8), ("ng", 8), ("ss", 8),
              ("bw", 8), ("fq", 4), ("br", 4), ("fslc", 1), ("ppoc", 3), ("cpih", 4), ("nlx", 4), ("nly", 4), ("lh", 1), ("rl", 1),
              ("qpih", 2), ("fs", 2), ("rm", 2)]


def two(code):
    return code.to_bytes(2, "big")


def segment(code, body):
    return two(code) + two(2 + len(body)) + body


def pih_values(h):
    """The fields of a header that xsx writes; those that are not named are 0."""
    return {"lcod": h.lcod, "wf": h.width, "hf": h.height, "hsl": h.hsl, "nc": len(h.sampling), "ng": 4, "ss": 8, "bw": h.bw, "fq": h.fq,
            "br": 4, "cpih": int(h.colour), "nlx": h.nlx, "nly": h.nly, "lh": int(h.long_heads), "qpih": int(h.uniform),
            "fs": int(h.apart), "rm": h.run_mode}


def segments_of(h, **others):
    """The three segments with the values of a header, by their codes; others are put in the place of fields of PIH."""
    values = pih_values(h) | others
    pih = packed("".join(number(values.get(name, 0), width) for name, width in PIH_FIELDS))
    cdt = b"".join(bytes((h.depth, sx << 4 | 1)) for sx in h.sampling)
    return {PIH: segment(PIH, pih), CDT: segment(CDT, cdt), WGT: segment(WGT, b"".join(map(bytes, h.weights)))}


def write_header(h):
    parts = segments_of(h)
    return two(SOC) + segment(CAP, b"") + parts[PIH] + parts[CDT] + parts[WGT]


def pih_rules(f):
    """The fields in order, with what is accepted of each."""
    slices = lambda: ceil_div(ceil_div(f["hf"], 2 ** f["nly"]), f["hsl"])
    yield "wf", f["wf"], 32 <= f["wf"] <= 8192
    yield "hf", f["hf"], 4 <= f["hf"] <= 8192
    yield "area", f["wf"] * f["hf"], f["wf"] * f["hf"] <= 2**24
    yield "cw", f["cw"], f["cw"] == 0
    yield "hsl", f["hsl"], f["hsl"] >= 1
    yield "nc", f["nc"], f["nc"] in (1, 3)
    yield "ng", f["ng"], f["ng"] == 4
    yield "ss", f["ss"], f["ss"] == 8
    yield "bw", f["bw"], f["bw"] in (18, 20)
    yield "fq", f["fq"], f["fq"] == {20: 8, 18: 6}[f["bw"]]
    yield "br", f["br"], f["br"] == 4
    yield "fslc", f["fslc"], f["fslc"] == 0
    yield "ppoc", f["ppoc"], f["ppoc"] == 0
    yield "cpih", f["cpih"], f["cpih"] == 0 or f["cpih"] == 1 and f["nc"] == 3
    yield "nlx", f["nlx"], 1 <= f["nlx"] <= 5
    yield "nly", f["nly"], f["nly"] <= min(2, f["nlx"])
    yield "slices", slices(), slices() <= 2047
    yield "qpih", f["qpih"], f["qpih"] <= 1
    yield "fs", f["fs"], f["fs"] <= 1
    yield "rm", f["rm"], f["rm"] <= 1


def cdt_rules(f, components):
    for component, (bc, sx, sy) in enumerate(components):
        yield "bc", bc, bc in (8, 10, 12) and bc == components[0][0]
        yield "sx", sx, sx == 1 if component == 0 else sx == components[1][1] and (sx == 1 or sx == 2 and f["cpih"] == 0)
        yield "sy", sy, sy == 1
    columns = min(ceil_div(f["wf"], sx) for _, sx, _ in components)
    yield "narrow", columns, columns >= 2 ** f["nlx"]


def accept(rules):
    for name, value, accepted in rules:
        if not accepted:
            raise Fault(f"unsupported {name} {value}")


def read_header(data):
    """The header at the front of bytes, and its length."""
    cut = Fault(f"truncated {len(data)}", cut=True)
    at = lambda p: int.from_bytes(data[p : p + 2], "big")
    if len(data) < 2:
        raise cut
    if at(0) != SOC:
        raise Fault(f"marker {at(0):04x} 0")
    seen, p = {}, 2
    while True:
        absent = [code for code in (PIH, CDT, WGT) if code not in seen]
        if p == len(data) and not absent:
            return header_of(seen), p
        if p + 2 > len(data):
            raise cut
        code = at(p)
        if code == SLH:
            if absent:
                raise Fault(f"absent {absent[0]:04x}")
            return header_of(seen), p
        if code in (NLT, CWD, CTS):
            raise Fault(f"segment {code:04x} {p}")
        if code not in (CAP, PIH, CDT, WGT, COM, CRG):
            raise Fault(f"marker {code:04x} {p}")
        if code in seen:
            raise Fault(f"twice {code:04x}")
        if code in (CDT, WGT) and PIH not in seen:
            raise Fault(f"absent {PIH:04x}")
        if p + 4 > len(data):
            raise cut
        length = at(p + 2)
        if length < 2 if code in (CAP, COM, CRG) else length != stated_length(code, seen):
            raise Fault(f"length {code:04x} {length}")
        if p + 2 + length > len(data):
            raise cut
        body = data[p + 4 : p + 2 + length]
        if code == PIH:
            reader = Reader(body)
            seen[PIH] = {name: reader.get(width) for name, width in PIH_FIELDS}
            accept(pih_rules(seen[PIH]))
        if code == CDT:
            seen[CDT] = [(body[k], body[k + 1] >> 4, body[k + 1] & 15) for k in range(0, len(body), 2)]
            accept(cdt_rules(seen[PIH], seen[CDT]))
        if code == WGT:
            seen[WGT] = list(zip(body[::2], body[1::2]))
        p += 2 + length


def stated_length(code, seen):
    if code == PIH:
        return 26
    f = seen[PIH]
    return 2 + 2 * f["nc"] * (1 if code == CDT else len(band_types(f["nlx"], f["nly"])))


def header_of(seen):
    f, components = seen[PIH], seen[CDT]
    return Header(f["wf"], f["hf"], tuple(sx for _, sx, _ in components), components[0][0], f["bw"], f["fq"], f["cpih"] == 1, f["nlx"], f["nly"],
                  f["hsl"], f["qpih"] == 1, f["fs"] == 1, f["rm"], f["lh"] == 1, seen[WGT], f["lcod"])


def skip_boxes(data):
    """Where SOC stands behind the boxes of a header unit."""
    p = 0
    while data[p : p + 2] != two(SOC):
        length = int.from_bytes(data[p : p + 4], "big")
        if p + 4 > len(data):
            raise Fault(f"truncated {len(data)}")
        if length < 8:
            raise Fault(f"box {length} {p}")
        if p + length > len(data):
            raise Fault(f"truncated {len(data)}")
        p += length
    return p


def read_unit(data):
    """The header of a header unit, and its length from SOC."""
    codestream = data[skip_boxes(data) :]
    header, length = read_header(codestream)
    if length < len(codestream):
        raise Fault(f"marker {SLH:04x} {length}")
    return header, length
