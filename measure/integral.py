#!/usr/bin/env python3
"""Compares the objective with an integral in multiple precision: its value, gradient and Hessian at a hundred points.

The derivatives are taken of the normal density and not of the litter's likelihood, so the sums here share no formula with the code:
the k-th derivative in the mean is the integral of the likelihood times the density times the Hermite polynomial of degree k.
The trapezoidal rule is halved until two agree to thirty digits.

measure/integral.py [POINTS]. PROBIT_INNER=FILE: that library, none is built.
Exit status: 1 a gap is above its limit or a point is refused, or the library does not build or is not where the variable says, 2 bad usage, 3
something is missing.
"""
import ctypes
import os
import random
import subprocess
import sys

try:
    import mpmath
    from mpmath import mp, mpf
except ImportError:
    print("integral: mpmath is not there (Debian: python3-mpmath)", file=sys.stderr)
    sys.exit(3)

DIGITS = 30
mp.dps = 50
LIMIT = 8388608
POINTS = 100
# Some ten times the largest gaps of 400 points: 7.0e-13, 1.1e-13, 1.8e-11. Gradient and Hessian are relative to 1 +
# |exact|.
LIMITS = {"likelihood": 1e-11, "gradient": 1e-12, "hessian": 2e-10}


def missing(text):
    print("integral: " + text, file=sys.stderr)
    sys.exit(3)


def library():
    """The static library as one that ctypes can load."""
    top = os.path.join(os.path.dirname(os.path.abspath(__file__)), "..")
    found = subprocess.run(["bash", os.path.join(top, "tools/found"), "library", "PROBIT_INNER", "inner"], stdout=subprocess.PIPE, text=True)
    if found.returncode:
        sys.exit(found.returncode)
    archive = found.stdout.strip()
    os.chdir(top)
    try:
        os.makedirs("target/measure", exist_ok=True)
        shared = os.path.abspath("target/measure/libinner.so")
        link = ["gcc", "-shared", "-o", shared, "-Wl,--whole-archive", archive, "-Wl,--no-whole-archive"]
        if subprocess.run(link).returncode:
            missing("gcc does not link " + archive)
    except FileNotFoundError as e:
        missing(e.filename + " is not there")
    inner = ctypes.CDLL(shared).inner_objective
    inner.restype = ctypes.c_uint64
    number, count = ctypes.c_double, ctypes.c_size_t
    inner.argtypes = [number] * 4 + [ctypes.c_void_p, count, ctypes.c_uint64, ctypes.c_void_p, count, ctypes.c_void_p, count]
    return inner


def objective(inner, x, litters):
    """Value, gradient, Hessian; or the ending and its reason."""
    flat = (ctypes.c_uint32 * (3 * len(litters)))(*[n for litter in litters for n in litter])
    out, counts = (ctypes.c_double * 22)(), (ctypes.c_uint64 * 3)()
    if inner(*x, flat, len(flat), LIMIT, out, len(out), counts, len(counts)):
        sys.exit("integral: the library calls the buffers too short")
    if counts[0]:
        return None, (counts[0], counts[1])
    return (out[0], list(out[1:5]), [list(out[5 + 4 * i:9 + 4 * i]) for i in range(4)]), None


def likelihood(successes, total):
    root = mpmath.sqrt(2)
    choose = mpmath.binomial(total, successes)

    def at(eta):
        return choose * (mpmath.erfc(-eta / root) / 2) ** successes * (mpmath.erfc(eta / root) / 2) ** (total - successes)

    return at


def hermite(u):
    return [mpf(1), u, u * u - 1, u * (u * u - 3), u ** 4 - 6 * u * u + 3]


def peak(f):
    """The argument at which a function with one hump is largest, roughly, and how wide it is there."""
    low, high = mpf(-40), mpf(40)
    for _ in range(60):
        a, b = low + (high - low) / 3, high - (high - low) / 3
        if f(a) < f(b):
            low = a
        else:
            high = b
    top = (low + high) / 2
    width = mpf(1)
    while f(top + width) < f(top) / 2 and f(top - width) < f(top) / 2:
        width /= 2
    return top, width


def moments(mean, variance, successes, total):
    """The likelihood's integral and its first four derivatives in the mean."""
    conditional = likelihood(successes, total)
    if variance == 0:
        return list(mpmath.diffs(conditional, mpf(mean), 4))
    sd = mpmath.sqrt(mpf(variance))
    root = mpmath.sqrt(2 * mpmath.pi)

    def integrand(u):
        return conditional(mean + sd * u) * mpmath.exp(-u * u / 2) / root

    top, width = peak(integrand)
    small = integrand(top) * mpf(10) ** -(DIGITS + 15)

    def row(first, step):
        """The sums over first, first + step, .. on both sides, as far as they matter."""
        sums = [mpf(0)] * 5
        for direction in (1, -1):
            u = first if direction == 1 else first - step
            quiet = 0
            while quiet < 3:
                v = integrand(u)
                terms = [v * h for h in hermite(u)]
                sums = [s + t for s, t in zip(sums, terms)]
                far = v * (1 + abs(u)) ** 4 < small
                quiet = quiet + 1 if far else 0
                u += direction * step
        return sums

    step = width
    sums = row(top, step)
    while True:
        finer = [s + t for s, t in zip(sums, row(top + step / 2, step))]
        step /= 2
        gap = max(abs(2 * s - t) for s, t in zip(sums, finer)) / finer[0]
        sums = finer
        if gap < mpf(10) ** -DIGITS:
            return [s * step / sd ** k for k, s in enumerate(sums)]


def exact(x, litters):
    value, gradient, hessian = mpf(0), [mpf(0)] * 4, [[mpf(0)] * 4 for _ in range(4)]
    for successes, total, group in litters:
        m = moments(x[group], x[group + 2], successes, total)
        a, b, c, d = (v / m[0] for v in m[1:])
        i, j = group, group + 2
        value -= mpmath.log(m[0])
        gradient[i] -= a
        gradient[j] -= b / 2
        hessian[i][i] -= b - a * a
        hessian[i][j] -= (c - a * b) / 2
        hessian[j][i] -= (c - a * b) / 2
        hessian[j][j] -= (d - b * b) / 4
    return value, gradient, hessian


def points(n):
    draw = random.Random(1)
    for k in range(n):
        means = [draw.uniform(-8, 8) if k % 5 == 0 else draw.uniform(-2.5, 2.5) for _ in range(2)]
        variances = [draw.choice([0, 9, 10 ** draw.uniform(-4, 0), draw.uniform(0, 9), draw.uniform(0, 2)]) for _ in range(2)]
        litters = []
        for group in range(2):
            total = draw.choice([draw.randint(1, 20), draw.randint(1, 150)])
            share = draw.betavariate(0.7, 0.7)
            litters.append((sum(draw.random() < share for _ in range(total)), total, group))
        yield means + variances, litters


def main():
    if len(sys.argv) > 2 or not all(a.isdigit() for a in sys.argv[1:]):
        print("usage: measure/integral.py [POINTS]", file=sys.stderr)
        return 2
    inner = library()
    largest = {name: (0.0, None) for name in LIMITS}
    refused = 0
    for x, litters in points(int(sys.argv[1]) if sys.argv[1:] else POINTS):
        got, why = objective(inner, x, litters)
        if got is None:
            refused += 1
            print("refused:", x, litters, "ending and reason", why)
            continue
        value, gradient, hessian = exact(x, litters)
        gaps = {
            # a move of the logarithm is a relative move of the likelihood
            "likelihood": abs(got[0] - value),
            "gradient": max(abs(g - e) / (1 + abs(e)) for g, e in zip(got[1], gradient)),
            "hessian": max(abs(g - e) / (1 + abs(e)) for r, s in zip(got[2], hessian) for g, e in zip(r, s)),
        }
        for name, gap in gaps.items():
            if gap > largest[name][0]:
                largest[name] = float(gap), (x, litters)
    failed = refused > 0
    for name, (gap, where) in largest.items():
        above = gap > LIMITS[name]
        failed |= above
        print(f"{name:<11} largest gap {gap:.2e}, limit {LIMITS[name]:.0e}{' ABOVE' if above else ''}, at {where}")
    return 1 if failed else 0


sys.exit(main())
