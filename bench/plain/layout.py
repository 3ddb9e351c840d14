"""'Band geometry', and the values of a header that all else is asked of."""
from dataclasses import dataclass, field
from functools import cached_property

SAMPLING = {"mono": (1,), "422": (1, 2, 2), "444": (1, 1, 1)}


def ceil_div(n, d):
    return -(-n // d)


def low(n, level):
    return n if level == 0 else ceil_div(low(n, level - 1), 2)


def high(n, level):
    return low(n, level - 1) // 2


@dataclass(frozen=True)
class Kind:
    """A band type: its level across and down, and whether it is high there."""

    across: int
    down: int
    high_across: bool = False
    high_down: bool = False


def band_types(nlx, nly):
    kinds = [Kind(nlx, nly)]
    kinds += [Kind(level, nly, True) for level in range(nlx, nly, -1)]
    for d in range(nly, 0, -1):
        kinds += [Kind(d, d, True), Kind(d, d, False, True), Kind(d, d, True, True)]
    return kinds


def default_weights(nlx, nly, components):
    """'Rate choice': the gain and the priority of each band."""
    steps = lambda level, is_high: level - 1 if is_high else level
    gains = [(steps(k.across, k.high_across) + steps(k.down, k.high_down)) // 2 for k in band_types(nlx, nly)]
    return [(gains[number // components], number) for number in range(components * len(gains))]


@dataclass
class Band:
    number: int
    component: int
    kind: Kind
    width: int
    height: int

    @property
    def groups(self):
        return ceil_div(self.width, 4)

    @property
    def flags(self):
        return ceil_div(self.groups, 8)


@dataclass
class Header:
    width: int
    height: int
    sampling: tuple = (1,)
    depth: int = 8
    bw: int = 20
    fq: int = 8
    colour: bool = False
    nlx: int = 5
    nly: int = 2
    hsl: int = 4
    uniform: bool = False
    apart: bool = False
    run_mode: int = 0
    long_heads: bool = False
    weights: list = field(default_factory=list)
    lcod: int = 0

    def component_width(self, component):
        return ceil_div(self.width, self.sampling[component])

    @cached_property
    def bands(self):
        side = lambda n, level, is_high: high(n, level) if is_high else low(n, level)
        bands = []
        for kind in band_types(self.nlx, self.nly):
            for c in range(len(self.sampling)):
                width = side(self.component_width(c), kind.across, kind.high_across)
                height = side(self.height, kind.down, kind.high_down)
                bands.append(Band(len(bands), c, kind, width, height))
        return bands

    @property
    def precincts(self):
        return ceil_div(self.height, 2**self.nly)

    @property
    def slices(self):
        return ceil_div(self.precincts, self.hsl)

    def slice_precincts(self, k):
        return range(k * self.hsl, min((k + 1) * self.hsl, self.precincts))

    def lines(self, band, precinct):
        count = 2 ** (self.nly - band.kind.down)
        return range(min(precinct * count, band.height), min((precinct + 1) * count, band.height))

    def packets(self, precinct):
        """The bands and the line of each packet of a precinct."""
        n, first = len(self.sampling), self.nlx - self.nly + 1
        places = [(self.bands[: first * n], precinct)]
        for d in range(self.nly, 0, -1):
            count = 2 ** (self.nly - d)
            for line in range(precinct * count, (precinct + 1) * count):
                for side in range(3):
                    kind = first + 3 * (self.nly - d) + side
                    places.append((self.bands[kind * n : (kind + 1) * n], line))
        return [(bands, line) for bands, line in places if line < bands[0].height]

    def truncations(self, q, r):
        """'Truncation, data and signs': T of each band."""
        return [min(max(q - gain - (priority < r), 0), 15) for gain, priority in self.weights]
