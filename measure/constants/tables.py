"""Prints the rows of the two tables as bit patterns: exp's (T, D) and ln's (C, B, H, L)."""
import struct

import mpmath as mp

mp.mp.prec = 300


def bits(x):
    return "0x" + struct.pack(">d", x).hex()


def double(pattern):
    return struct.unpack(">d", struct.pack(">Q", pattern))[0]


def powers():
    """T is the double nearest to 2^(i/32), D the one nearest to (2^(i/32) - T) / T."""
    for i in range(32):
        exact = mp.mpf(2) ** (mp.mpf(i) / 32)
        t = float(exact)
        yield t, float((exact - t) / t)


def pieces():
    """B is 1 over the piece's middle in nine binary digits, C the double nearest to 1 / B, H + L = ln C."""
    start = 0x3FE6B00000000000
    for i in range(128):
        low, high = double(start + i * 2**45), double(start + (i + 1) * 2**45)
        middle = (low + high) / 2
        digits = 512 if middle > 1 else 256
        b = 1.0 if low < 1 < high else round(digits / middle) / digits
        c = 1.0 / b
        log = mp.log(mp.mpf(c))
        h = mp.mpf(int(mp.nint(log * 2**42))) / 2**42
        yield c, b, float(h), float(log - h)


for name, rows in (("exp", powers()), ("ln", pieces())):
    for i, row in enumerate(rows):
        print(name, i, *map(bits, row))
