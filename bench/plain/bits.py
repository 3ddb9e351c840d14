"""Bits as texts of 0 and 1, the most significant first."""


def number(value, width):
    assert 0 <= value < 2**width
    return format(value, f"0{width}b") if width else ""


def packed(bits, pad="0"):
    """The bytes of bits, padded with those of `pad`."""
    bits += (pad * 8)[: -len(bits) % 8]
    return int(bits or "0", 2).to_bytes(len(bits) // 8, "big")


class Ended(Exception):
    """The bits end inside what is read."""


class Reader:
    def __init__(self, data):
        self.bits = format(int.from_bytes(data, "big"), f"0{8 * len(data)}b") if data else ""
        self.at = 0

    def get(self, width):
        if self.at + width > len(self.bits):
            raise Ended
        self.at += width
        return int(self.bits[self.at - width : self.at] or "0", 2)

    def ones(self):
        end = self.bits.find("0", self.at)
        if end < 0:
            raise Ended
        count = end - self.at
        self.at = end + 1
        return count
