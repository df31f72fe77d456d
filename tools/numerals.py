#!/usr/bin/env python3
# Prints the lines of crates/exponential/specs/Steps.antt that have numerals, for the steps of exp within 3/8 of zero
# and those of its reduced argument: for each step the exponent of its own error, its whole error and its size, the
# last two in 2^-64 and rounded up.
# Usage: numerals.py [--check]      (--check: compares with that file and prints nothing else)
# Status: 0 printed, or the same; 1 they differ; 2 bad usage.
import fractions
import math
import pathlib
import struct
import sys

here = pathlib.Path(__file__).resolve().parent
N = 2**64
lines = []
coefficients = dict((line.split()[0], line.split()[2]) for line in (here / "coefficients.txt").read_text().splitlines())


def up(a, b=N):
    return -(-a // b)


def least(fits):
    """the least exponent i of an own error 2^i, half a unit in the last place below 2^(i - 10)"""
    i = 0
    while not fits(2 ** (54 + i)):
        i += 1
    return i


def step(name, law, *words):
    lines.append("    let %s = %s tt in" % (name, " ".join([law, *map(str, words)])))


class Node:
    def __init__(self, name, size, error):
        self.name, self.size, self.error = name, size, error


def constant(name, share, degree, bits):
    """an f64 by its bits, for share / degree!"""
    value = fractions.Fraction(*struct.unpack(">d", bytes.fromhex(bits))[0].as_integer_ratio())
    off = abs(value - fractions.Fraction(share, math.factorial(degree))) * N
    node = Node(name, math.ceil(value * N), math.ceil(off))
    places = "_".join(bits[k : k + 4] for k in range(0, 16, 4))
    step(name, "constant a b (bits 0x%s)" % places, share, math.factorial(degree), node.size, node.error, "(refl, refl)")
    return node


def product(law, name, x, y):
    i = least(lambda b: x.size * y.size < b * N)
    node = Node(name, up(x.size * y.size + N * 2**i), up(N * 2**i + x.error * y.size + x.size * y.error + x.error * y.error))
    step(name, law, i, node.error, node.size, x.name, y.name)
    return node


def total(law, name, x, y):
    i = least(lambda b: x.size + y.size < b)
    node = Node(name, x.size + y.size + 2**i, 2**i + x.error + y.error)
    step(name, law, i, node.error, node.size, x.name, y.name)
    return node


def raised(name, x, y):
    return product("raise", name, x, y)


def shifted(name, x, y):
    return product("shift", name, x, y)


def joined(name, x, y):
    return total("join", name, x, y)


def terms(degree, first, name):
    """the coefficients from x^first on"""
    return {n: constant("c%d" % n, math.factorial(degree) // math.factorial(n), degree, coefficients[name + str(n)]) for n in range(first, degree + 1)}


def near_zero():
    one = constant("one", math.factorial(14), 14, "3ff0000000000000")
    c = terms(14, 2, "FACT")
    x, own = Node("x1", 3 * N // 8, 0), Node("xs", 3 * N // 8, 0)
    z = raised("z", x, x)
    z2 = raised("z2", z, z)
    z4 = raised("z4", z2, z2)

    def pair(n):
        return joined("a%d" % n, c[n], shifted("t%d" % (n + 1), x, c[n + 1]))

    def quad(n):
        low, high = pair(n), pair(n + 2)
        return joined("b%d" % n, low, shifted("s%d" % (n + 2), z, high))

    low, high = quad(2), quad(6)
    p = joined("p", low, shifted("s6", z2, high))
    q = joined("q", quad(10), shifted("s14", z2, c[14]))
    h = joined("h", one, own)
    whole = "(%d ∷ [])" % math.factorial(14)
    f = total("without %s []" % whole, "f", own, total("without %s %s" % (whole, whole), "g", h, one))
    pq = joined("pq", p, shifted("sq", z4, q))
    joined("all", h, joined("rest", f, shifted("zp", z, pq)))


def reduced():
    one = constant("one", 120, 5, "3ff0000000000000")
    none = constant("none", 0, 5, "0000000000000000")
    c = terms(5, 2, "EXP_C")
    x, own = Node("x1", N // 128, 0), Node("xs", N // 128, 0)
    z = raised("z", x, x)
    first = joined("first", none, own)
    low = joined("b2", first, shifted("s2", z, joined("a2", c[2], shifted("t3", x, c[3]))))
    z2 = raised("z2", z, z)
    p = joined("p", low, shifted("s4", z2, joined("a4", c[4], shifted("t5", x, c[5]))))
    sp = shifted("sp", Node("u1", N, 0), p)
    sp.name = "(later sp)"
    joined("all", one, sp)


near_zero()
reduced()
if len(sys.argv) == 1:
    print("\n".join(lines))
elif sys.argv[1:] == ["--check"]:
    there = (here.parent / "crates/exponential/specs/Steps.antt").read_text().splitlines()
    held = [line for line in there if line.startswith("    let ") and line.endswith(" tt in")]
    differ = [pair for pair in zip(lines, held) if pair[0] != pair[1]]
    for made, found in differ:
        print("made:  %s\nfound: %s" % (made.strip(), found.strip()))
    print("numerals: %d lines made, %d found, %d differ" % (len(lines), len(held), len(differ)))
    sys.exit(0 if lines == held else 1)
else:
    print("usage: numerals.py [--check]", file=sys.stderr)
    sys.exit(2)
