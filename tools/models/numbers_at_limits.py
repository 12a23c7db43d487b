"""Random numbers and texts of numerals near the limits of the number libraries.

The first argument of each function is a random.Random.
"""

import math
from fractions import Fraction

MOST = 2**127 - 1  # the largest numerator and denominator


def fits(x):
    return abs(x.numerator) <= MOST and x.denominator <= MOST


def root_below(n, q):
    """The greatest whole number whose q-th power is at most n; n is above 0."""
    if q >= n.bit_length():
        return 1
    low, high = 1, 2 ** (n.bit_length() // q + 1)
    while low < high:
        middle = (low + high + 1) // 2
        low, high = (middle, high) if middle**q <= n else (low, middle - 1)
    return low


def size(r, most=MOST):
    """A whole number above 0 and at most `most`."""
    kind = r.randrange(6)
    if kind == 0:
        n = r.randrange(1, 40)
    elif kind == 1:
        n = 2 ** r.choice([127, 127, 127, 126, 64, 63, 32]) + r.randrange(-4, 4)
    elif kind == 2:
        n = 2 ** r.randrange(128) + r.randrange(-1, 2)
    elif kind == 3:
        n = 10 ** r.randrange(39) * r.randrange(1, 20) + r.randrange(-1, 2)
    elif kind == 4:
        n = math.prod(r.choice([2, 3, 5, 7, 11, 13]) for _ in range(r.randrange(1, 40)))
    else:
        n = r.getrandbits(r.randrange(1, 128))
    return min(max(n, 1), most)


def whole(r):
    """A whole number of 128 bits with a sign."""
    n = 0 if r.randrange(12) == 0 else size(r, MOST + 1)
    return -n if r.randrange(2) else min(n, MOST)


def fraction(r):
    n = 0 if r.randrange(25) == 0 else size(r)
    d = 1 if r.randrange(4) == 0 else size(r)
    return Fraction(-n if r.randrange(2) else n, d)


def near(r, x):
    """A fraction next to x, or x itself."""
    return Fraction(x.numerator + r.randrange(-1, 2), max(1, x.denominator + r.randrange(-1, 2)))


def single(r):
    """A fraction that fits, which may be next to a whole number."""
    while True:
        x, d = fraction(r), size(r)
        x = r.choice([x, Fraction(math.floor(x) * d + r.randrange(-1, 2), d)])
        if fits(x):
            return x


def edge(r):
    """A fraction at the limit of the range, or just above it."""
    n, d = MOST + r.randrange(-3, 3), r.choice([1, 1, 2, 3, 7, size(r)])
    return r.choice([1, -1]) * r.choice([Fraction(n, d), Fraction(d, n)])


def pair(r, other):
    """Two fractions that fit. The second may be the one that `other` computes from the first and an edge."""
    while True:
        x = fraction(r)
        y = r.choice([fraction, lambda r: near(r, x), lambda r: other(x, edge(r))])(r)
        if fits(y):
            return x, y


def sum_pair(r, other):
    """Two fractions whose denominators may have a common multiple at the limit."""
    if r.randrange(2):
        return pair(r, other)
    p, q = r.choice([1, 2, 3, 5, 8, 9]), r.choice([1, 2, 4, 7, 9, 25])
    common = MOST // math.lcm(p, q) if r.randrange(2) else size(r, MOST // (p * q))
    common = max(1, common - r.randrange(2))
    top = MOST // r.choice([1, 2, 3, p, q]) - r.randrange(3)
    other_top = r.choice([size(r), top, MOST - top, MOST - top + 1])
    x, y = Fraction(top, common * p), Fraction(max(1, min(other_top, MOST)), common * q)
    return r.choice([1, -1]) * x, r.choice([1, -1]) * y


def rooted(r):
    """A power of a fraction, or a fraction next to it, and the degree of the root."""
    q = r.choice([1, 2, 2, 3, 3, 4, 5, 6, 7, 8, 31, 63, 64, 126, 127, 128, 2**31, 2**32 - 1])
    most = root_below(MOST, q)
    top, bottom = (r.choice([size(r, most), r.randrange(1, most + 1)]) for _ in "ab")
    power = Fraction(top, bottom) ** min(q, 127)
    x = power if r.randrange(2) else near(r, power)
    return (x if fits(x) else power) * r.choice([1, 1, -1]), q


def power(r):
    """A fraction and an exponent that give a power near the limit of the range."""
    k = r.choice([2**31 - 1, -(2**31), r.randrange(-(2**31), 2**31), r.randrange(-130, 131)])
    if r.randrange(4) == 0:
        return r.choice([Fraction(0), Fraction(1), Fraction(-1), Fraction(1, 2)]), k
    x = fraction(r) if r.randrange(4) == 0 else Fraction(r.randrange(-30, 31), r.randrange(1, 31))
    largest = max(abs(x.numerator), x.denominator)
    if largest > 1 and r.randrange(4):
        k = r.choice([1, -1]) * (int(127 / math.log2(largest)) + r.randrange(-1, 2))
    return x, k


def tie(r, count):
    """A number halfway between two numbers of `count` digits, or next to that."""
    low, high = 10 ** (count - 1), 10**count
    digits = r.choice([r.randrange(low, high), low, high - 1])
    place = r.randrange(-38, 39 - count)
    x = Fraction(digits * 10 + 5) * Fraction(10) ** place
    neighbor = x + r.choice([0, 0, 0, 1, -1]) * Fraction(10) ** (place - r.randrange(3))
    return (neighbor if fits(neighbor) else x) * r.choice([1, -1])


def layout_edge(r, count):
    """A number whose first digit is near the place at which the notation changes."""
    at = r.choice([-6, -5, -4, -1, 0, 1, count - 1, count, count + 1])
    digits = r.choice([1, 9, 95, 995, 99999999, 10**count - 1])
    return digits * Fraction(10) ** (at - r.randrange(3))


def printed(r):
    count = r.randrange(1, 37)
    while True:
        x = r.choice([fraction, lambda r: tie(r, count), lambda r: layout_edge(r, count)])(r)
        if fits(x):
            return x, count


# Texts of numerals


def digits_text(r):
    """Digits of a number near the largest coefficient, with zeros at both ends."""
    number = r.choice([0, size(r), MOST + r.randrange(-2, 3)])
    return "0" * r.choice([0, 0, 1, 3, 50]) + str(number) + "0" * r.choice([0, 0, 1, 30, 60])


def numeral_text(r):
    text = digits_text(r)
    if r.randrange(2):
        at = r.randrange(len(text) + 1)
        text = text[:at] + "." + text[at:]
    if r.randrange(2):
        largest = r.choice([-1, 1]) * r.randrange(9_998, 10_001)
        exponent = r.choice([r.randrange(-80, 81), largest, 10**25])
        sign = "-" if exponent < 0 else r.choice(["", "+"])
        text += r.choice("eE") + sign + "0" * r.choice([0, 0, 1, 5]) + str(abs(exponent))
    return text.encode()


def damaged(r, text):
    """The text with some bytes replaced, removed or added."""
    result = bytearray(text)
    for _ in range(r.choice([0, 1, 1, 2])):
        at = r.randrange(len(result) + 1)
        byte = r.choice(b"0123456789..eEeE+- x|\r\0\xff")
        result[at : at + r.randrange(2)] = bytes([byte] * r.randrange(2))
    return bytes(result)
