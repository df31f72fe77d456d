#!/usr/bin/env python3
# Makes every coefficient of the elementary functions from multiple precision, one line each:
#     NAME INDEX BITS      the number's place in its row of numbers, and its f64 in 16 hex digits
#     NAME u64 BITS        a whole number
# Usage: coefficients.py [FILE]      (without FILE: to standard output)
# Needs mpmath (Debian: python3-mpmath). Takes some ten seconds.
import math
import struct
import sys

try:
    import mpmath
    from mpmath import mp, mpf
except ImportError:
    print("coefficients.py: needs mpmath (Debian: python3-mpmath)", file=sys.stderr)
    sys.exit(3)

mp.prec = 300
lines = []


def bits(x):
    return struct.unpack("<Q", struct.pack("<d", x))[0]


def of_bits(b):
    return struct.unpack("<d", struct.pack("<Q", b))[0]


def put(name, *values):
    """Each value rounded to the nearest f64."""
    lines.extend("%s %d %016x" % (name, i, bits(float(v))) for i, v in enumerate(values))


def put_u64(name, n):
    lines.append("%s u64 %016x" % (name, n))


def to_multiple(x, k):
    """The multiple of 2^-k nearest x: few enough bits that products and sums with it are exact."""
    r = mpmath.floor(x * mpf(2) ** k + mpf(1) / 2) / mpf(2) ** k
    assert mpf(float(r)) == r
    return r


def cut_to_multiple(x, k):
    r = mpmath.floor(x * mpf(2) ** k) / mpf(2) ** k
    assert mpf(float(r)) == r
    return r


def fit(f, powers, lo, hi):
    """The f64 coefficients of a sum over the powers that is close to f on [lo, hi]: least squares at Chebyshev nodes.
    The lowest is rounded to f64 and taken to the left side, and the rest is fitted anew, so that they make up for its rounding."""
    powers, lo, hi = list(powers), mpf(lo), mpf(hi)
    n = len(powers)
    nodes = 3 * n + 1
    xs = [(lo + hi) / 2 + (hi - lo) / 2 * mpmath.cos(mpmath.pi * (2 * k + 1) / (2 * nodes)) for k in range(nodes)]
    scale = max(abs(lo), abs(hi))
    at = [[(x / scale) ** m for m in powers] for x in xs]
    left = [f(x) for x in xs]
    gram = [[mpmath.fsum(row[a] * row[b] for row in at) for b in range(n)] for a in range(n)]
    found = []
    for s in range(n):
        size = n - s
        a = mpmath.matrix(size, size)
        b = mpmath.matrix(size, 1)
        for i in range(size):
            b[i] = mpmath.fsum(at[k][s + i] * left[k] for k in range(nodes))
            for j in range(size):
                a[i, j] = gram[s + i][s + j]
        c = float(mpmath.lu_solve(a, b)[0] / scale ** powers[s])
        found.append(c)
        for k in range(nodes):
            left[k] -= mpf(c) * xs[k] ** powers[s]
    return found


ln2 = mpmath.log(2)


def exp():
    n = 64
    put("EXP_INV", n / ln2)
    l1 = to_multiple(ln2 / n, 42)  # times a whole number below 2^17 it is exact
    put("EXP_L1", l1)
    put("EXP_L2", ln2 / n - l1)
    rows = []  # 2^(i/64), and what its rounding lost, relative to it
    for i in range(n):
        power = mpf(2) ** (mpf(i) / n)
        value = float(power)
        rows += [value, (power - mpf(value)) / mpf(value)]
    put("EXP_T", *rows)
    r = float(ln2 / (2 * n) * mpf("1.002"))  # a little wider than what the reduction leaves
    for i, c in enumerate(fit(lambda x: mpmath.exp(x) - 1 - x, range(2, 6), -r, r)):
        put("EXP_C%d" % (i + 2), c)
    for k in range(2, 15):
        put("FACT%d" % k, 1 / mpmath.factorial(k))


def log():
    one = 0x3FF0_0000_0000_0000
    step = 2 ** 46  # of the bits: 64 rows to a factor of two
    off = one - 38 * step - (2 * step) // 3  # puts 1 well inside row 38
    off -= off % 2 ** 32
    put_u64("LOG_OFF", off)
    put_u64("LOG_D", one - off)
    rows = []  # centre, 1/centre, and log centre in two parts
    widest = 0
    for j in range(64):
        lo, hi = mpf(of_bits(off + j * step)), mpf(of_bits(off + (j + 1) * step))
        if lo <= 1 < hi:
            centre = mpf(1)  # so that log 1 is 0
        else:
            centre = to_multiple((lo + hi) / 2, 10)
        widest = max(widest, abs(lo / centre - 1), abs(hi / centre - 1))
        high = to_multiple(mpmath.log(centre), 42)
        rows += [centre, 1 / centre, high, mpmath.log(centre) - high]
    put("LOG_T", *rows)
    r = float(widest * mpf("1.0005"))
    for i, c in enumerate(fit(lambda x: mpmath.log1p(x) - x, range(2, 8), -r, r)):
        put("LOG_C%d" % (i + 2), c)
    l1 = to_multiple(ln2, 42)
    put("LOG_L1", l1)
    put("LOG_L2", ln2 - l1)


def erfc_centre(middle):
    """A multiple of 2^-24 near the middle whose erfc lies close to an f64, so that the f64 alone will do; and that f64.
    The first within 1/600 unit of one, else the best of 1200."""
    base = int(middle * 2 ** 24)
    best = None
    for k in range(1200):
        q = base + (k // 2 if k % 2 else -(k // 2))
        with mp.workprec(110):
            v = mpmath.erfc(mpf(q) / 2 ** 24)
        value = float(v)
        away = abs(v - mpf(value)) / mpf(math.ulp(value))
        if best is None or away < best[0]:
            best = (away, q / 2 ** 24, value)
        if away < mpf(1) / 600:
            break
    return best[1], best[2]


def erfc():
    rows = []  # centre, erfc there, and eleven coefficients; row j is for what lies within 1/32 of j/16
    for j in range(92):
        lo, hi = (j - 0.5) / 16 if j else 0.0, (j + 0.5) / 16
        centre, value = erfc_centre((lo + hi) / 2) if j else (0.0, 1.0)
        margin = 1e-13
        with mp.workprec(180):
            rows += [centre, value] + fit(
                lambda x: mpmath.erfc(mpf(centre) + x) - mpf(value),
                range(1, 12),
                lo - centre - margin if j else 0.0,
                hi - centre + margin,
            )
    put("ERFC_T", *rows)
    # t exp(t^2) erfc(t) as a polynomial in u = 1/t^2, t from 5.71 to 28
    tail = lambda u: mpmath.erfc(1 / mpmath.sqrt(u)) * mpmath.exp(1 / u) / mpmath.sqrt(u)
    put("ERFC_S", *fit(tail, range(13), 1 / mpf(28) ** 2, 1 / mpf("5.71") ** 2))


def lgamma():
    half = mpf(1) / 2
    # lgamma(1 + y) / (y (y - 1)) as a polynomial in w = y - 1/2, y from 0 to 1
    series = lambda w: mpmath.loggamma(mpf(3) / 2 + w) / ((w + half) * (w - half))
    put("LGAM_S", *fit(series, range(22), -half, half))
    for i, n in enumerate([12, -360, 1260, -1680, 1188]):  # Stirling's series
        put("STIR%d" % i, mpf(1) / n)
    put("LGAM_C", mpmath.log(2 * mpmath.pi) / 2 - half)


def cos():
    pi = mpmath.pi
    p1 = cut_to_multiple(pi, 31)  # in three parts: a half-odd number times the first two is exact
    p2 = cut_to_multiple(pi - p1, 64)
    put("COS_P1", p1)
    put("COS_P2", p2)
    put("COS_P3", pi - p1 - p2)
    put("COS_INVPI", 1 / pi)
    for k in range(3, 24, 2):
        put("SIN%d" % k, (-1) ** (k // 2) / mpmath.factorial(k))


for part in (exp, log, erfc, lgamma, cos):
    part()
text = "\n".join(lines) + "\n"
if len(sys.argv) > 1:
    with open(sys.argv[1], "w") as f:
        f.write(text)
else:
    sys.stdout.write(text)
