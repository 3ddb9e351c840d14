"""'Command words': the tables, the place of the first bad word, and the check of the settings."""
from types import SimpleNamespace

from .layout import SAMPLING, Header, ceil_div, default_weights

NUMBER = "number"
ENCODE = {
    "width": (NUMBER, None), "height": (NUMBER, None), "share": (NUMBER, None), "format": (("mono", "422", "444"), "422"),
    "depth": (NUMBER, 8), "bits": (NUMBER, 20), "nlx": (NUMBER, 5), "nly": (NUMBER, 2), "slice": (NUMBER, 4), "colour": (("0", "1"), "0"),
    "quant": (("deadzone", "uniform"), "uniform"), "signs": (("in", "apart"), "in"), "fill": (("0", "1"), "0"), "chunk": (NUMBER, 1400),
    "pt": (NUMBER, 96), "ssrc": (NUMBER, 1), "time": (NUMBER, 0), "step": (NUMBER, 1500), "form": (("rtp", "xs", "pcap"), "rtp"),
    "workers": (NUMBER, 4), "port": (NUMBER, 5004),
}
DECODE = {"form": (("rtp", "xs", "pcap"), "rtp"), "workers": (NUMBER, 4), "feeders": (NUMBER, 2), "port": (NUMBER, 0)}
TRIAL = {
    "seed": (NUMBER, 1), "width": (NUMBER, 256), "height": (NUMBER, 128), "share": (NUMBER, 4000), "workers": (NUMBER, 4), "feeders": (NUMBER, 2),
}
TABLES = {"encode": ENCODE, "decode": DECODE, "trial": TRIAL}


class BadWord(Exception):
    def __init__(self, place):
        super().__init__(place)
        self.place = place


class BadSetting(Exception):
    def __init__(self, name, value):
        super().__init__(name, value)
        self.name, self.value = name, value


def value_of(kind, word):
    """The value of a word, or None where it is not spelled as its option asks."""
    if kind != NUMBER:
        return word if word in kind else None
    if 1 <= len(word) <= 10 and all(c in "0123456789" for c in word) and int(word) < 2**32:
        return int(word)
    return None


def command_of(words):
    """The command, and the values of all its options."""
    if not words or words[0] not in TABLES:
        raise BadWord(0)
    table, given = TABLES[words[0]], {}
    for place in range(1, len(words), 2):
        name = words[place][2:]
        if words[place][:2] != "--" or name not in table or name in given:
            raise BadWord(place)
        if place + 1 == len(words):
            raise BadWord(len(words))
        given[name] = value_of(table[name][0], words[place + 1])
        if given[name] is None:
            raise BadWord(place + 1)
    if any(default is None and name not in given for name, (_, default) in table.items()):
        raise BadWord(len(words))
    return words[0], {name: given.get(name, default) for name, (_, default) in table.items()}


def settings_of(command, values):
    defaults = {name: default for name, (_, default) in ENCODE.items()} if command == "trial" else {}
    s = SimpleNamespace(**{**defaults, **values})
    if command != "decode":
        s.sampling = SAMPLING[s.format]
        s.weights, s.boxes, s.feeders = None, b"", values.get("feeders", 2)
    return s


def check(command, s):
    """The first setting that is out of range is refused."""
    for name, value, accepted in (picture_rules(s) if command != "decode" else []) + thread_rules(s) + [port_rule(command, s)]:
        if not accepted():
            raise BadSetting(name, value)


def picture_rules(s):
    widths = [ceil_div(s.width, sx) for sx in s.sampling]
    slices = lambda: ceil_div(ceil_div(s.height, 2**s.nly), s.slice)
    return [
        ("width", s.width, lambda: 32 <= s.width <= 8192),
        ("height", s.height, lambda: 4 <= s.height <= 8192 and s.width * s.height <= 2**24),
        ("depth", s.depth, lambda: s.depth in (8, 10, 12)),
        ("bits", s.bits, lambda: s.bits in (18, 20)),
        ("nlx", s.nlx, lambda: 1 <= s.nlx <= 5 and min(widths) >= 2**s.nlx),
        ("nly", s.nly, lambda: s.nly <= min(2, s.nlx)),
        ("slice", s.slice, lambda: 1 <= s.slice <= 65535 and slices() <= 2047),
        ("colour", 1, lambda: s.colour == "0" or s.format == "444"),
        ("chunk", s.chunk, lambda: 64 <= s.chunk <= 8192),
        ("share", s.share, lambda: 64 <= s.share <= 512 * s.chunk - 2 and slices() * s.share + 4096 <= 2**32),
        ("pt", s.pt, lambda: 96 <= s.pt <= 127),
        ("time", s.time, lambda: s.time <= 2**31),
        ("step", s.step, lambda: 1 <= s.step <= 4194304),
    ]


def thread_rules(s):
    return [("workers", s.workers, lambda: 1 <= s.workers <= 16), ("feeders", s.feeders, lambda: 1 <= s.feeders <= 8)]


def port_rule(command, s):
    return ("port", s.port, lambda: (1 if command == "encode" else 0) <= s.port <= 65535)


def header_of(s):
    weights = s.weights or default_weights(s.nlx, s.nly, len(s.sampling))
    return Header(s.width, s.height, s.sampling, s.depth, s.bits, {20: 8, 18: 6}[s.bits], s.colour == "1", s.nlx, s.nly, s.slice,
                  s.quant == "uniform", s.signs == "apart", weights=weights)
