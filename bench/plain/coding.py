"""'Bit-plane counts', 'Truncation, data and signs' and 'Quantisers'. A line of a band is its counts, one for each code group, and its
numbers, four signed ones for each code group."""
from .bits import number


def ones_for(m, t, count):
    """How many ones spell a count against a prediction: the n with that residual."""
    span, residual = m - t, count - m
    return residual + span if residual > span else 2 * residual if residual >= 0 else -2 * residual - 1


def count_for(m, t, n):
    span = m - t
    return m + (n - span if n > 2 * span else -(n + 1) // 2 if n % 2 else n // 2)


def predictions(groups, mode, t, above):
    """Of each code group; `above` is the counts of the line above and its truncation, or None."""
    if not mode & 1 or above is None:
        return [t] * groups
    counts, above_t = above
    return [max(count, above_t, t) for count in counts]


def spell_counts(counts, mode, t, above, flags):
    """The counts of a line; flags say which significance groups are insignificant."""
    expected = predictions(len(counts), mode, t, above)
    told = lambda g: not (mode & 2 and flags[g // 8])
    return "".join("1" * ones_for(expected[g], t, count) + "0" for g, count in enumerate(counts) if told(g))


def flags_of(counts, mode, t, above):
    """The significance groups all of whose residuals are 0."""
    same = [m == count for m, count in zip(predictions(len(counts), mode, t, above), counts)]
    return [all(same[k : k + 8]) for k in range(0, len(same), 8)]


def spell_flags(flags):
    return "".join(str(int(flag)) for flag in flags)


def read_counts(reader, groups, mode, t, above, flags, run_mode):
    expected = predictions(groups, mode, t, above)
    for g in range(groups):
        if mode & 2 and flags[g // 8]:
            yield t if run_mode else expected[g]
        else:
            yield count_for(expected[g], t, reader.ones())


def spell_data(counts, numbers, t, apart, zero_sign=lambda: "0"):
    bits = []
    for m, group in zip(counts, numbers):
        if m > t:
            if not apart:
                bits += [sign_bit(q, zero_sign) for q in group]
            for plane in range(m - t - 1, -1, -1):
                bits += [str(abs(q) >> plane & 1) for q in group]
    return "".join(bits)


def sign_bit(q, zero_sign):
    return zero_sign() if q == 0 else str(int(q < 0))


def spell_signs(numbers):
    return "".join(str(int(q < 0)) for group in numbers for q in group if q)


def read_data(reader, counts, t, apart):
    numbers = []
    for m in counts:
        signs, group = [0] * 4, [0] * 4
        if m > t:
            if not apart:
                signs = [reader.get(1) for _ in range(4)]
            for _ in range(m - t):
                group = [2 * v + reader.get(1) for v in group]
        numbers.append([-v if s else v for s, v in zip(signs, group)])
    return numbers


def read_signs(reader, numbers):
    return [[-v if v and reader.get(1) else v for v in group] for group in numbers]


def quantise(x, m, t, uniform):
    if not uniform:
        return x >> t
    z = m - t + 1
    return ((x << z) - x + (1 << m)) >> (m + 1)


def dequantise(v, m, t, uniform):
    if v == 0:
        return 0
    if not uniform:
        return v << t | (1 << t) >> 1
    z, term, total = m - t + 1, v << t, 0
    while term:
        total += term
        term >>= z
    return total


def signed(function, q, *more):
    return -function(-q, *more) if q < 0 else function(q, *more)


def values_of(counts, numbers, t, uniform, width):
    """The coefficients that a line's numbers stand for."""
    row = [signed(dequantise, q, m, t, uniform) for m, group in zip(counts, numbers) for q in group]
    return row[:width]


def digits_of(row):
    """Four magnitudes with signs for each code group, and M of each."""
    row = row + [0] * (-len(row) % 4)
    groups = [row[k : k + 4] for k in range(0, len(row), 4)]
    return groups, [max(map(abs, group)).bit_length() for group in groups]


def numbers_at(groups, digits, t, uniform):
    """The numbers and counts of a line at a truncation."""
    numbers = [[signed(quantise, x, m, t, uniform) for x in g] if m > t else [0] * 4 for g, m in zip(groups, digits)]
    return numbers, [max(m, t) for m in digits]


def packet_head(raw, data, counts, signs, long_heads):
    widths = (20, 20, 15) if long_heads else (15, 13, 11)
    return number(raw, 1) + "".join(number(n, width) for n, width in zip((data, counts, signs), widths))
