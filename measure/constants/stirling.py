"""Prints S0 .. S6 of lgamma: x times what Stirling's formula leaves of ln Gamma(x), as a polynomial in z = 1/x^2 for x from 4 on,
by Remez's exchange, the weight sqrt(z) making the error one of ln Gamma itself."""
import struct

import mpmath as mp

mp.mp.dps = 60
DEGREE = 6
FROM, TO = mp.mpf(10) ** -8, mp.mpf(1) / 16


def left(z):
    x = 1 / mp.sqrt(z)
    return x * (mp.loggamma(x) - (x - mp.mpf(1) / 2) * mp.log(x) + x - mp.log(2 * mp.pi) / 2)


def solve(points):
    """The polynomial whose weighted error alternates with one size at the points."""
    n = len(points)
    a, b = mp.matrix(n, n), mp.matrix(n, 1)
    for i, z in enumerate(points):
        for j in range(DEGREE + 1):
            a[i, j] = z**j * mp.sqrt(z)
        a[i, DEGREE + 1] = (-1) ** i
        b[i] = left(z) * mp.sqrt(z)
    return [c for c in mp.lu_solve(a, b)][: DEGREE + 1]


def extrema(coefficients, n):
    """The places of the n alternating extremes of the weighted error."""
    steps = 60 * n
    grid = [FROM + (TO - FROM) * (1 - mp.cos(mp.pi * i / steps)) / 2 for i in range(steps + 1)]
    error = [(mp.polyval(coefficients[::-1], z) - left(z)) * mp.sqrt(z) for z in grid]
    found, best = [], 0
    for i in range(1, steps + 1):
        if (error[i] > 0) != (error[best] > 0):
            found.append(best)
            best = i
        elif abs(error[i]) > abs(error[best]):
            best = i
    found.append(best)
    while len(found) > n:
        found.pop(0 if abs(error[found[0]]) < abs(error[found[-1]]) else -1)
    return [grid[i] for i in found]


def remez():
    n = DEGREE + 2
    points = [(FROM + TO) / 2 - (TO - FROM) / 2 * mp.cos(mp.pi * i / (n - 1)) for i in range(n)]
    for _ in range(12):
        coefficients = solve(points)
        moved = extrema(coefficients, n)
        if len(moved) < n or max(abs(p - q) for p, q in zip(moved, points)) < (TO - FROM) * mp.mpf(10) ** -6:
            break
        points = moved
    return coefficients


for c in remez():
    print("0x" + struct.pack(">d", float(c)).hex(), float(c))
