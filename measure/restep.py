#!/usr/bin/env python3
# Runs the steps of docs/ELEMENTARY.md and compares each function with the static library, bit for bit; any NaN equals
# any other.
# The steps and constants are read from that page's blocks, the tables from tools/coefficients.txt; the constants are
# compared with the definitions too.
# measure/restep.py [short]. Takes about 20 s, short about 3. PROBIT_LIB=FILE: that library, none is built.
# Exit status: 1 values differ, or the page has no steps of its form, or something does not build; 2 bad usage, 3
# something is missing.
import ast
import ctypes
import math
import pathlib
import platform
import random
import re
import shutil
import struct
import subprocess
import sys

top = pathlib.Path(__file__).resolve().parent.parent
SHORT = sys.argv[1:] == ["short"]
POINTS, NEAR, EVERY = (20000, 3, 3000) if SHORT else (250000, 100, 40000)  # points for each function, neighbours of an end, points of any exponent
INF = math.inf
P52 = 2**52


def missing(text):
    print("restep: " + text, file=sys.stderr)
    sys.exit(3)


def failed(text):
    print("restep: " + text, file=sys.stderr)
    sys.exit(1)


def read(name):
    path = top / name
    return path.read_text() if path.is_file() else failed("%s is not there" % name)


# What the page's steps may call beside each other.
def bits(x):
    return struct.unpack("<Q", struct.pack("<d", x))[0] if x == x else failed("a NaN is asked for its bits")


def number(b):
    return struct.unpack("<d", struct.pack("<Q", b))[0]


def series(c, z):
    s = c[-1]
    for k in c[-2::-1]:
        s = k + z * s
    return s


def lz(n):
    return 64 - n.bit_length()


# The page. Its steps are Python's once div, mod, ^ and repeat are, so Python's own parser reads them; what it may not
# hold is refused.
PAGE = "docs/ELEMENTARY.md"
CONSTANT = re.compile(r"\b([A-Z][A-Z0-9_]*) +(u64 +)?([0-9a-f]{16})\b")
TABLE = re.compile(r"^\| ([A-Z_]+) \| (\d+) \| (\d+) \|", re.M)
FORM = (
    *(ast.Module, ast.FunctionDef, ast.arguments, ast.arg, ast.Assign, ast.Return, ast.If, ast.For, ast.IfExp, ast.Call, ast.Name, ast.Load, ast.Store),
    *(ast.Constant, ast.Tuple, ast.List, ast.Subscript, ast.BinOp, ast.UnaryOp, ast.Compare, ast.BoolOp, ast.And, ast.Or, ast.Not, ast.USub, ast.UAdd),
    *(ast.Add, ast.Sub, ast.Mult, ast.Div, ast.FloorDiv, ast.Mod, ast.Pow, ast.Lt, ast.LtE, ast.Eq),
)


def of_the_page(line):
    line = line.split("--")[0].rstrip()
    for word, sign in ((r"\bdiv\b", "//"), (r"\bmod\b", "%"), (r"\^", "**"), (r"\brepeat (\d+):", r"for _ in range(\1):")):
        line = re.sub(word, sign, line)
    return "def " + line if line[:1].isalpha() else line


def read_page():
    """The page's constants, (is it whole, bits) by name, and its functions."""
    page = read(PAGE)
    stored = [line.split() for line in read("tools/coefficients.txt").splitlines()]
    constants, names, steps = {}, {"__builtins__": {}, "range": range, "INF": INF, "NaN": math.nan, "whole": float}, []
    names.update({f.__name__: f for f in (bits, number, series, lz)})
    for line in "".join(re.findall(r"^```\n(.*?)^```$", page, re.M | re.S)).splitlines():
        if CONSTANT.match(line):
            constants.update({name: (whole != "", int(b, 16)) for name, whole, b in CONSTANT.findall(line)})
        else:
            steps.append(of_the_page(line))
    names.update({name: b if whole else number(b) for name, (whole, b) in constants.items()})
    for name, rows, size in TABLE.findall(page):
        numbers = [number(int(b, 16)) for n, _, b in stored if n == name]
        rows, size = int(rows), int(size)
        if len(numbers) != rows * size:
            failed("%s has %d numbers, the page says %d rows of %d" % (name, len(numbers), rows, size))
        names[name] = numbers if rows == 1 else [numbers[size * i : size * (i + 1)] for i in range(rows)]
    try:
        tree = ast.parse("\n".join(steps))
    except SyntaxError as e:
        failed("the page's step has not the form: %s" % (e.text or "").strip())
    defined = [f.name for f in tree.body if isinstance(f, ast.FunctionDef)]
    for node in ast.walk(tree):
        if not isinstance(node, FORM) or (isinstance(node, ast.Compare) and len(node.ops) > 1):
            failed("the page's steps have not the form: %s" % ast.unparse(node))
    if len(set(defined)) != len(defined) or len(tree.body) != len(defined) or set(defined) & set(names):
        failed("a name stands twice on the page, or a step outside a function")
    exec(compile(tree, PAGE, "exec"), names, names)
    return constants, names


def defined():
    """The constants of the definitions, under the page's names."""
    specs = "".join(path.read_text() for path in sorted((top / "crates/elementary/specs").glob("*.antt")))
    found = re.findall(r"^abbrev pub (\S+) : (?:(Float)\n\1 = bits|ℕ\n\1 =) (\S+)$", specs, re.M)
    # One that a function shares its name with ends in `_bound`.
    return {re.sub("_bound$", "", name.strip("·")).upper(): (kind == "", int(b, 0)) for name, kind, b in found}


constants, page = read_page()
LOG_OFF = page["LOG_OFF"]
LEAST_NORMAL, LARGE, SMALL, UP, DOWN = (page[name] for name in ("LEAST_NORMAL", "LARGE", "SMALL", "UP", "DOWN"))

# The points. `draw` gives the same ones in every run.
draw = random.Random(20261115)
TOP = 2047 * P52
AT = (0, 1, 2, P52 - 1, P52, P52 + 1, 1023 * P52, 2046 * P52, TOP - 1, TOP, TOP + 1, TOP + P52 // 2, 2**63 - 1)
SPECIAL = [number(s << 63 | b) for s in (0, 1) for b in AT]
LN2_64 = math.log(2) / 64


def about(x):
    """x and some neighbours on each side, in order of size"""
    return [number(b) for b in range(max(bits(abs(x)) - NEAR, 0) | bits(x) >> 63 << 63, bits(x) + NEAR + 1)]


def beside(x, d):
    """x or one of d neighbours on each side"""
    return number(bits(x) + draw.randint(-d, d)) if abs(x) > 1e-300 else x


def every():
    return number(draw.getrandbits(64))


def subnormal():
    return number(draw.getrandbits(52) >> draw.randrange(52))


def both(xs):
    return [s * x for x in xs for s in (1, -1)]


def points(listed, ends, ranges):
    """Special values, the neighbours of each end, what is listed, and random ones: every exponent, and between the ends of each range."""
    if SHORT:
        listed = draw.sample(listed, min(len(listed), POINTS // 3))
    xs = SPECIAL + [y for x in ends for y in about(x)] + listed
    xs += [every() for _ in range(EVERY)] + [subnormal() for _ in range(EVERY // 20)]
    while len(xs) < POINTS:
        xs += [draw.uniform(*r) for r in ranges]
    return [(x,) for x in xs]


def exp_points():
    rows = [beside((n + 0.5) * LN2_64, 3) for n in range(-69000, 65700)]
    ends = [-3 / 8, 3 / 8, 1024 * 64 * LN2_64, -1022 * 64 * LN2_64, -1074 * 64 * LN2_64, -1075 * 64 * LN2_64]
    ends += [(n - 131072 - 0.5) * LN2_64 for n in (1100 * 64, 3071 * 64, 131072 - 68927, 131072 + 65600)]
    small = both(draw.uniform(1, 2) * 2.0 ** draw.randint(-60, 9) for _ in range(10000))
    return points(rows + small, ends, [(-746.6, 710.5), (-33, 2.1), (-0.4, 0.4), (-746.6, -708)])


def log_points():
    rows = [beside(number(LOG_OFF + (j << 46) + (e << 52)), 2) for j in range(64) for e in range(-1021, 1024)]
    powers = [beside(2.0**e, 2) for e in range(-1074, 1024)]
    near = [1 + s * 2.0**-k * draw.uniform(1, 2) for k in range(2, 53) for s in (1, -1) for _ in range(100)]
    short = [number(draw.getrandbits(k) | 1 << k) for k in range(52) for _ in range(50)]
    ends = [number(LOG_OFF + (j << 46)) for j in range(64)] + [1.0, LEAST_NORMAL]
    return points(rows + powers + near + short, ends, [(0, 1), (0.5, 2), (0, 1000)])


def erfc_points():
    ends = both((j + 0.5) / 16 for j in range(92)) + both([5.75, 6.0, 28.0, 26.543258454250981, 27.22601711110837, 5.8635847487551677])
    ends += [math.sqrt(-(m - 131072 - 0.5) * LN2_64) for m in (1100 * 64, 131072 - 68927)]
    steps = [beside((draw.randrange(int(5.7 * 2**19), 28 * 2**19) + 0.5) / 2**19, 2) for _ in range(20000)]
    small = both(draw.uniform(1, 2) * 2.0 ** draw.randint(-70, 2) for _ in range(5000))
    return points(steps + small, ends, [(0, 5.72), (-6, 0), (5.6, 26.6), (26, 28.5)])


def lgamma_points():
    wholes = [float(n) for n in range(1, 20001)] + [n + 0.5 for n in range(100)]
    wide = [draw.uniform(1, 2) * 2.0 ** draw.randint(-60, 1023) for _ in range(20000)]
    ends = [float(n) for n in range(1, 26)] + [23.5, 1e305, 2.55998328513999e305]
    return points(wholes + wide, ends, [(0, 1), (1, 3), (1, 24), (23, 1002)])


def cos_points():
    turns = both(beside(draw.randrange(1, 2**draw.randint(1, 19)) * math.pi / 2, 3) for _ in range(30000))
    small = both(draw.uniform(1, 2) * 2.0 ** draw.randint(-60, 19) for _ in range(10000))
    ends = both([262144 * math.pi] + [n * math.pi / 2 for n in range(1, 33)])
    fit = [(math.pi * (k - 0.25)) / 16.5 for k in range(1, 17)]
    return points(turns + small + fit, ends, [(0, math.pi), (-100, 100), (-823560, 823560)])


def sqrt_points():
    powers = [beside(2.0**e, 1) for e in range(-1074, 1024) for _ in range(3)]
    squares = [beside(float(draw.getrandbits(draw.randint(1, 26)) ** 2) * 4.0 ** draw.randint(-400, 400), 2) for _ in range(20000)]
    middles = [beside(((draw.getrandbits(52) | P52) + 0.5) ** 2 * 4.0 ** draw.randint(-400, 400), 1) for _ in range(20000)]
    short = [number(draw.getrandbits(k) | 1 << k) for k in range(52) for _ in range(50)]
    wide = [number(draw.randrange(TOP)) for _ in range(100000)]
    return points(powers + squares + middles + short + wide, [1.0, 2.0, 4.0, LEAST_NORMAL], [(0, 1000)])


def hypot_points():
    beyond = SPECIAL + [y for x in (LARGE, SMALL, UP, DOWN) for y in (x, -x, beside(x, 1))]
    xs = [(x, y) for x in beyond for y in beyond]
    for e in (510, -450):
        xs += [(beside(2.0**e, 100), beside(draw.uniform(0.5, 1) * 2.0 ** (e - draw.randrange(56)), 1)) for _ in range(EVERY // 2)]
    xs += [(every(), every()) for _ in range(EVERY)]
    xs += [(subnormal(), draw.choice([1, -1]) * subnormal()) for _ in range(EVERY // 4)]
    xs += [(draw.uniform(0, 1), draw.uniform(-1, 1)) for _ in range(EVERY // 2)]
    while len(xs) < POINTS:
        e = draw.randint(-1070, 1023)
        f = max(-1074, min(1023, e + draw.randint(-60, 60)))
        pair = draw.uniform(1, 2) * 2.0**e, draw.uniform(-2, 2) * 2.0**f
        xs.append(pair if e % 2 else pair[::-1])
    return xs


def log1p_points():
    rows = [number(LOG_OFF + (j << 46) + (e << 52)) - 1 for j in range(64) for e in range(-52, 100)]
    small = both(draw.uniform(1, 2) * 2.0 ** draw.randint(-60, -1) for _ in range(10000))
    middles = [beside((k + 0.5) * 2.0**-52, 2) for k in range(2000)] + [beside(-(k + 0.5) * 2.0**-53, 2) for k in range(2000)]
    fed = [math.exp(draw.uniform(-745, 709.7)) for _ in range(10000)]
    wide = [draw.uniform(1, 2) * 2.0 ** draw.randint(0, 1022) for _ in range(10000)]
    ends = [-1.0] + both(2.0**e for e in range(-56, -49)) + [2.0**e for e in range(51, 56)]
    return points(rows + small + middles + fed + wide, ends, [(-1, 1), (-1, -0.5), (0, 1000)])


def library():
    if platform.machine() != "x86_64":
        missing("the library is for x86-64, and this Python cannot load it")
    if not shutil.which("gcc"):
        missing("gcc is not there (Debian: gcc)")
    found = subprocess.run(["bash", top / "tools/found", "library", "PROBIT_LIB", "elementary"], stdout=subprocess.PIPE, text=True)
    if found.returncode:
        sys.exit(found.returncode)
    path = found.stdout.strip()
    shared = top / "target/measure/libelementary.so"
    shared.parent.mkdir(parents=True, exist_ok=True)
    if subprocess.run(["gcc", "-shared", "-o", shared, "-Wl,--whole-archive", path, "-Wl,--no-whole-archive"]).returncode:
        failed("no shared object can be made of %s" % path)
    return ctypes.CDLL(str(shared))


POINTS_OF = {
    "exp": exp_points,
    "log": log_points,
    "erfc": erfc_points,
    "lgamma": lgamma_points,
    "cos": cos_points,
    "sqrt": sqrt_points,
    "hypot": hypot_points,
    "log1p": log1p_points,
}


def same(a, b):
    return a == b and math.copysign(1, a) == math.copysign(1, b) or (a != a and b != b)


def main():
    lib = library()
    compared = differ = 0
    definitions = defined()
    for name, given in constants.items():
        compared += 1
        if definitions.get(name) != given:
            differ += 1
            print("%s is %016x on the page, and not so in the definitions" % (name, given[1]))
    for name, make in POINTS_OF.items():
        if name not in page:
            failed("the page has no steps for " + name)
        ours, theirs = page[name], lib["probit_" + name]
        xs = make()
        theirs.argtypes, theirs.restype = [ctypes.c_double] * len(xs[0]), ctypes.c_double
        off = []
        for x in xs:
            try:
                y = float(ours(*x))
            except (ArithmeticError, ValueError, IndexError, TypeError, NameError, struct.error) as e:
                failed("the page's %s cannot be followed at %s: %s" % (name, ", ".join(map(repr, x)), e))
            z = theirs(*x)
            if not same(y, z):
                off.append((x, y, z))
        compared += len(xs)
        differ += len(off)
        print("%-6s %d values, %d differ" % (name, len(xs), len(off)))
        for x, y, z in off[:5]:
            print("  at %s: %r on the page, %r in the library" % (", ".join(map(repr, x)), y, z))
    print("restep: %d values compared, %d differ" % (compared, differ))
    return 1 if differ else 0


if __name__ == "__main__":
    if sys.argv[1:] not in ([], ["short"]):
        print("usage: measure/restep.py [short]", file=sys.stderr)
        sys.exit(2)
    sys.exit(main())
