"""'Rate choice': the slices that xsx writes."""
from . import coding
from .slices import Line, Tight, slice_head, write_packet, write_precinct


def fold(c, fq):
    magnitude = min((abs(c) + 2 ** (fq - 1)) >> fq, 32767)
    return -magnitude if c < 0 else magnitude


def candidates(weights):
    yield 0, 0
    for q in range(1, 15 + max(gain for gain, _ in weights) + 1):
        for r in range(len(weights) - 1, -1, -1):
            yield q, r


class Budget(Exception):
    """A slice is over its share at the last candidate."""

    def __init__(self, k, size):
        super().__init__(k, size)
        self.slice, self.size = k, size


class SliceCoder:
    """One slice of folded coefficients; what a band has at a truncation is computed once."""

    def __init__(self, h, k, bands):
        self.h, self.k = h, k
        self.digits = [[coding.digits_of(row) for row in band] for band in bands]
        self.known = {}

    def band_at(self, band, t):
        """For each precinct the mode of the band, its lines, and of each line how many bits its parts have."""
        if (band.number, t) not in self.known:
            precincts, above = [], None
            for precinct in self.h.slice_precincts(self.k):
                places = self.h.lines(band, precinct)
                rows = [coding.numbers_at(*self.digits[band.number][line], t, self.h.uniform) for line in places]
                mode, lines = min((self.in_mode(mode, rows, t, above) for mode in range(4)), key=lambda tried: (cost(tried[1]), tried[0]))
                above = (rows[-1][1], t) if rows else above
                precincts.append((mode, dict(zip(places, lines))))
            self.known[band.number, t] = precincts
        return self.known[band.number, t]

    def in_mode(self, mode, rows, t, above):
        lines = []
        for numbers, counts in rows:
            flags = coding.flags_of(counts, mode, t, above)
            told = coding.spell_counts(counts, mode, t, above, flags)
            data = 4 * sum((m - t) + (not self.h.apart) for m in counts if m > t)
            signs = sum(q != 0 for group in numbers for q in group) if self.h.apart else 0
            lines.append((Line(counts, numbers, flags), len(flags) if mode & 2 else 0, len(told), data, signs))
            above = (counts, t)
        return mode, lines

    def measure(self, candidate):
        """The size of the slice at a candidate, and whether all fields fit."""
        cuts = self.h.truncations(*candidate)
        bands = [self.band_at(band, cuts[band.number]) for band in self.h.bands]
        size, fits = 6, True
        for i, precinct in enumerate(self.h.slice_precincts(self.k)):
            body = 0
            for packet, line in self.h.packets(precinct):
                lines = [bands[band.number][i][1][line] for band in packet]
                flags, counts, data, signs = (-(-sum(part) // 8) for part in zip(*(line[1:] for line in lines)))
                fits = fits and counts < 2**13 and data < 2**15 and signs < 2**11
                body += 5 + flags + counts + data + signs
            fits = fits and body < 2**24
            size += (40 + 2 * len(bands) + 7) // 8 + body
        return size, fits

    def choose(self, share):
        everything = list(candidates(self.h.weights))
        coarsest = self.measure(everything[-1])[0]
        if coarsest > share:
            raise Budget(self.k, coarsest)
        for candidate in everything:
            size, fits = self.measure(candidate)
            if fits and size <= share:
                return candidate, size

    def write(self, share, fill):
        candidate, size = self.choose(share)
        cuts = self.h.truncations(*candidate)
        bands = [self.band_at(band, cuts[band.number]) for band in self.h.bands]
        precincts, above, out = self.h.slice_precincts(self.k), {}, slice_head(self.k)
        for i, precinct in enumerate(precincts):
            modes = [band[i][0] for band in bands]
            packets = []
            for packet, line in self.h.packets(precinct):
                lines = [(band, bands[band.number][i][1][line][0]) for band in packet]
                packets.append(write_packet(self.h, False, lines, modes, cuts, above, Tight()))
            filler = bytes(share - size) if fill and precinct == precincts[-1] else b""
            out += write_precinct(self.h, *candidate, modes, packets, more=filler)
        assert len(out) == (share if fill else size)
        return out


def cost(lines):
    return sum(flags + counts for _, flags, counts, _, _ in lines)
