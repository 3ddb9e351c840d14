"""'5/3 wavelet' and 'Samples, scaling and colour'."""
from .layout import band_types


def split_line(x):
    n = len(x)
    at = lambda k: x[-k] if k < 0 else x[2 * (n - 1) - k] if k >= n else x[k]
    h = [at(2 * k + 1) - (at(2 * k) + at(2 * k + 2)) // 2 for k in range(n // 2)]
    beside = lambda k: h[min(max(k, 0), len(h) - 1)]
    return [at(2 * k) + (beside(k - 1) + beside(k) + 2) // 4 for k in range((n + 1) // 2)], h


def join_line(l, h):
    n = len(l) + len(h)
    beside = lambda k: h[min(max(k, 0), len(h) - 1)]
    x = [0] * n
    for k in range(len(l)):
        x[2 * k] = l[k] - (beside(k - 1) + beside(k) + 2) // 4
    for k in range(len(h)):
        after = x[2 * k + 2] if 2 * k + 2 < n else x[2 * k]
        x[2 * k + 1] = h[k] + (x[2 * k] + after) // 2
    return x


def turned(plane):
    return [list(column) for column in zip(*plane)]


def split_rows(plane):
    parts = [split_line(row) for row in plane]
    return [p[0] for p in parts], [p[1] for p in parts]


def split_columns(plane):
    top, bottom = split_rows(turned(plane))
    return turned(top), turned(bottom)


def join_rows(left, right):
    return [join_line(a, b) for a, b in zip(left, right)]


def join_columns(top, bottom):
    return turned(join_rows(turned(top), turned(bottom)))


def analyse(plane, nlx, nly):
    """The planes of a component's bands, in the order of the types."""
    high_parts = []
    for level in range(1, nlx + 1):
        if level <= nly:
            top, bottom = split_columns(plane)
            plane, hl = split_rows(top)
            lh, hh = split_rows(bottom)
            high_parts = [hl, lh, hh] + high_parts
        else:
            plane, hl = split_rows(plane)
            high_parts = [hl] + high_parts
    return [plane] + high_parts


def synthesise(planes, nlx, nly):
    """The plane of a component from those of its bands, in the order of the types."""
    bands = dict(zip(band_types(nlx, nly), planes))
    of = lambda level, *sides: next(p for k, p in bands.items() if (k.across, k.high_across, k.high_down) == (level, *sides))
    plane = planes[0]
    for level in range(nlx, 0, -1):
        if level > nly:
            plane = join_rows(plane, of(level, True, False))
        else:
            bottom = join_rows(of(level, False, True), of(level, True, True))
            plane = join_columns(join_rows(plane, of(level, True, False)), bottom)
    return plane


def scale_in(x, depth, bw):
    return (x << (bw - depth)) - 2 ** (bw - 1)


def scale_out(v, depth, bw):
    return min(max((v + 2 ** (bw - 1) + 2 ** (bw - depth - 1)) >> (bw - depth), 0), 2**depth - 1)


def colour_forward(r, g, b):
    return (r + 2 * g + b) // 4, b - g, r - g


def colour_back(y, u, v):
    g = y - (u + v) // 4
    return v + g, g, u + g


def by_places(function, planes):
    """Three planes, changed place by place."""
    rows = [[function(*at) for at in zip(*lines)] for lines in zip(*planes)]
    return [[[at[k] for at in row] for row in rows] for k in range(3)]


def sample_bytes(depth):
    return 1 if depth == 8 else 2


def raw_size(header):
    return sum(header.component_width(c) for c in range(len(header.sampling))) * header.height * sample_bytes(header.depth)


def read_raw(header, data):
    """The samples of each component; or the place of the first that is over."""
    size = sample_bytes(header.depth)
    samples = [int.from_bytes(data[k : k + size], "little") for k in range(0, len(data), size)]
    over = next((k * size for k, x in enumerate(samples) if x >= 2**header.depth), None)
    planes = []
    for c in range(len(header.sampling)):
        width = header.component_width(c)
        planes.append([samples[r * width : (r + 1) * width] for r in range(header.height)])
        samples = samples[width * header.height :]
    return planes, over


def write_raw(header, planes):
    size = sample_bytes(header.depth)
    return b"".join(x.to_bytes(size, "little") for plane in planes for row in plane for x in row)


def forward(header, planes):
    """The coefficients of each band of a picture, at full precision."""
    planes = [[[scale_in(x, header.depth, header.bw) for x in row] for row in plane] for plane in planes]
    if header.colour:
        planes = by_places(colour_forward, planes)
    parts = [analyse(plane, header.nlx, header.nly) for plane in planes]
    return [parts[c][kind] for kind in range(len(parts[0])) for c in range(len(planes))]


def back(header, coefficients):
    """The samples of a picture from the decoded coefficients of each band."""
    n = len(header.sampling)
    raised = [[[v << header.fq for v in row] for row in band] for band in coefficients]
    planes = [synthesise(raised[c::n], header.nlx, header.nly) for c in range(n)]
    if header.colour:
        planes = by_places(colour_back, planes)
    return [[[scale_out(v, header.depth, header.bw) for v in row] for row in plane] for plane in planes]
