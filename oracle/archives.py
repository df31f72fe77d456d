#!/usr/bin/env python3
# An archive's reader, checker and writer of its own, written from docs/FORMAT.md, held against the library through C:
# values, counts and every byte.
# oracle/archives.py SEED NUMBER: that many rounds, or short; fuzz MINUTES [SEED]. PROBIT_TEXT=FILE: the library
# libprobit.a, else `rt lib` makes it.
# Exit status: 1 an answer differs, or something does not build or is not where a variable says, 2 bad usage, 3
# something is missing.
import pathlib
import random
import shutil
import struct
import subprocess
import sys
import time
from collections import Counter

top = pathlib.Path(__file__).resolve().parent.parent
MOST, BLOCK, WORD = 4096, 64, 2**32
SIZES = [0, 1, 2, 3, 62, 63, 64, 65, 66, 126, 127, 128, 129, 191, 192, 193, 4032, 4095, 4096]
MARK = 0xA5
ANSWERED, INVALID, FORM = 0, 1, 4


def missing(text):
    print("archives: " + text, file=sys.stderr)
    sys.exit(3)


def failed(text):
    print("archives: " + text, file=sys.stderr)
    sys.exit(1)


# ---- the reader of its own; a litter is (group, successes, total)


def word(b, p):
    return int.from_bytes(b[p : p + 4], "little")


def size(n):
    return 12 * n + 32 * (n // BLOCK) + 12


def valid(litter):
    group, successes, total = litter
    return group in (0, 1) and 1 <= total <= 1000 and successes <= total


def count(litters):
    c = [0] * 8
    for group, successes, total in litters:
        if group in (0, 1):
            extreme = successes == 0 or successes == total
            c = [x + y for x, y in zip(c, ([0] * 4 * group + [1, successes, total, int(extreme)] + [0] * 8)[:8])]
    return c


def litter(b, i):
    return tuple(word(b, 12 * i + 4 * k) for k in range(3))


def fault(b):
    """What is wrong with the shape, in words, or nothing."""
    if len(b) < 12:
        return "fewer than 12 bytes"
    n, totals, first = struct.unpack("<3I", b[-12:])
    tests = (n > MOST, "a count above 4096"), (len(b) != size(n), "another length"), (totals != 12 * n, "byte of the totals"), (first != 0, "byte of the litters")
    return next((why for wrong, why in tests if wrong), None)


def read(n, p):
    """The places that a running summary at p reads: a total or none, and litters."""
    return ([12 * n + 32 * (p // BLOCK - 1)] if p >= BLOCK else []), range(p - p % BLOCK, p)


def span(b, start, end):
    if fault(b):
        return FORM, [0] * 8, fault(b)
    n = word(b, len(b) - 12)
    if not start <= end <= n:
        return INVALID, [0] * 8, "positions"
    if not all(valid(litter(b, i)) for p in (start, end) for i in read(n, p)[1]):
        return INVALID, [0] * 8, "a litter read"
    sums = []
    for p in (start, end):
        totals, since = read(n, p)
        base = list(struct.unpack_from("<8I", b, totals[0])) if totals else [0] * 8
        sums.append([x + y for x, y in zip(base, count(litter(b, i) for i in since))])
    if max(sums[0] + sums[1]) >= WORD:
        return FORM, [0] * 8, "a sum past 32 bits"
    less = [y - x for x, y in zip(*sums)]
    return (FORM, [0] * 8, "a negative difference") if min(less) < 0 else (ANSWERED, less, "answered")


def check(b):
    if fault(b):
        return 0
    n = word(b, len(b) - 12)
    litters = [litter(b, i) for i in range(n)]
    if not all(valid(l) for l in litters):
        return 0
    c = [0] * 8
    for j in range(n // BLOCK):
        c = [x + y for x, y in zip(c, count(litters[BLOCK * j : BLOCK * (j + 1)]))]
        if c != list(struct.unpack_from("<8I", b, 12 * n + 32 * j)):
            return 0
    return 1


def build(litters):
    n = len(litters)
    out = b"".join(struct.pack("<3I", *l) for l in litters)
    c = [0] * 8
    for j in range(n // BLOCK):
        c = [x + y for x, y in zip(c, count(litters[BLOCK * j : BLOCK * (j + 1)]))]
        out += struct.pack("<8I", *c)
    return out + struct.pack("<3I", n, 12 * n, 0)


def write(numbers, room):
    kept = bytes([MARK]) * room
    if len(numbers) % 3 or len(numbers) // 3 > MOST:
        return INVALID, kept
    litters = [(numbers[k + 2], numbers[k], numbers[k + 1]) for k in range(0, len(numbers), 3)]
    if not all(valid(l) for l in litters) or room < size(len(litters)):
        return INVALID, kept
    made = build(litters)
    return ANSWERED, made + kept[len(made) :]


# ---- the library, a batch of calls at a time


class Calls:
    def __init__(self, program):
        self.program, self.given, self.wanted = program, [], []
        self.made, self.met = Counter(), Counter()

    def ask(self, what, given, wanted, met):
        self.given.append(given)
        if wanted is not None:
            self.wanted.append((what, wanted))
            self.made[given[:1].decode()] += 1
            self.met[met] += 1

    def archive(self, b):
        self.bytes = bytes(b)
        self.ask("", b"A" + struct.pack("<Q", len(b)) + self.bytes, None, "")

    def range(self, start, end):
        value, counts, why = span(self.bytes, start, end)
        wanted = struct.pack("<9Q", value, *counts) + bytes([MARK]) * 8
        self.ask("range %d %d of %d bytes" % (start, end, len(self.bytes)), b"R" + struct.pack("<QQ", start, end), wanted, "range, " + why)
        return value, counts

    def check(self):
        value = check(self.bytes)
        self.ask("check of %d bytes" % len(self.bytes), b"C", struct.pack("<Q", value), "check %d" % value)

    def size(self, n):
        self.ask("size %d" % n, b"S" + struct.pack("<Q", n), struct.pack("<Q", size(n) if n <= MOST else 0), "size")

    def write(self, numbers, room):
        value, out = write(numbers, room)
        given = b"W" + struct.pack("<Q", len(numbers)) + struct.pack("<%dI" % len(numbers), *numbers) + struct.pack("<Q", room)
        self.ask("write of %d numbers into %d bytes" % (len(numbers), room), given, struct.pack("<Q", value) + out, "write %d" % value)

    def run(self):
        said = subprocess.run([self.program], input=b"".join(self.given), stdout=subprocess.PIPE)
        if said.returncode:
            failed("the calling program ended with %d" % said.returncode)
        at = 0
        for what, wanted in self.wanted:
            got = said.stdout[at : at + len(wanted)]
            if got != wanted:
                failed("%s: the library says %s, the reader %s" % (what, got[:80].hex(), wanted[:80].hex()))
            at += len(wanted)
        if at != len(said.stdout):
            failed("the calling program said more than was asked")
        self.given, self.wanted = [], []


# ---- what is asked


def some_litter(r):
    total = r.choice((1, 2, r.randint(1, 1000), 1000))
    return r.randint(0, 1), r.choice((0, total, r.randint(0, total))), total


def numbers_of(litters):
    return [x for group, successes, total in litters for x in (successes, total, group)]


def spoiled(r, litter):
    group, successes, total = litter
    return r.choice(((2, successes, total), (WORD - 1, successes, total), (group, total + 1, total), (group, 0, 0), (group, 1001, 1001), (group, 0, 1001)))


def ranges(calls, r, n, how_many):
    ends = [0, 1, n // 2, n - 1, n, n + 1, BLOCK - 1, BLOCK, BLOCK + 1, 2**32, 2**63, 2**64 - 1]
    for _ in range(how_many):
        a, z = (r.choice(ends) if r.random() < 0.2 else r.randint(0, n) for _ in range(2))
        if r.random() < 0.8:
            a, z = min(a, z), max(a, z)
        calls.range(max(a, 0), max(z, 0))


def unread(calls, r, b, n):
    """Bytes that a range does not read are altered, and its answer stays."""
    a, z = sorted((r.randint(0, n), r.randint(0, n)))
    keep = set(range(len(b) - 12, len(b)))
    for p in (a, z):
        totals, since = read(n, p)
        for t in totals:
            keep.update(range(t, t + 32))
        for i in since:
            keep.update(range(12 * i, 12 * i + 12))
    calls.archive(b)
    before = calls.range(a, z)
    calls.archive(bytes(x if k in keep else r.randrange(256) for k, x in enumerate(b)))
    if calls.range(a, z) != before:
        failed("the reader of its own reads more than it says")


def corrupted(r, b, n):
    b = bytearray(b)
    for _ in range(r.choice((1, 1, 1, 2, 5))):
        kind = r.randrange(8)
        if kind == 0 and b:
            b[r.randrange(len(b))] = r.randrange(256)
        elif kind == 1 and b:
            b[r.randrange(len(b))] ^= 1 << r.randrange(8)
        elif kind == 2 and n:
            i = r.randrange(n)
            b[12 * i : 12 * i + 12] = struct.pack("<3I", *spoiled(r, litter(b, i)))
        elif kind == 3 and n >= BLOCK:
            p = 12 * n + 4 * r.randrange(8 * (n // BLOCK))
            b[p : p + 4] = struct.pack("<I", r.choice((0, WORD - 1, WORD - 1 - r.randrange(70000), (word(b, p) + r.choice((-1, 1))) % WORD)))
        elif kind == 4 and len(b) >= 12:
            p = len(b) - r.choice((12, 8, 4))
            b[p : p + 4] = struct.pack("<I", r.choice((0, 1, 12, n + 1, max(n - 1, 0), MOST, MOST + 1, WORD - 1, r.randrange(WORD))))
        elif kind == 5:
            b = b[: r.randint(0, len(b))]
        elif kind == 6:
            b += bytes(r.randrange(256) for _ in range(r.randint(1, 40)))
        elif kind == 7 and len(b) >= 13:
            b = b[1:]
    return bytes(b)


def both_refusals(calls, r):
    """An invalid litter that one running summary reads comes before a sum past 32 bits of the other, whichever comes first."""
    n = 192
    b = bytearray(build([(0, 1, 2)] * n))
    struct.pack_into("<I", b, 12 * n + 8, WORD - 1)  # trials of the first totals: past 32 bits with one litter more
    calls.archive(b)
    calls.range(65, 130)
    calls.range(64, 130)
    for i in (64, 128):
        c = bytearray(b)
        struct.pack_into("<3I", c, 12 * i, 0, 3, 2)
        calls.archive(c)
        for a in (0, 64, 65, 70, 128, 129):
            for z in (64, 65, 70, 128, 129, 130, 192):
                calls.range(a, z)
    struct.pack_into("<I", b, 12 * n + 8, 1000)  # a later total below an earlier one
    calls.archive(b)
    for a in (64, 65, 128):
        for z in (64, 65, 127, 128, 129, 192):
            calls.range(a, z)


def small(calls, r):
    """Every range of small archives, and one past."""
    for n in (0, 1, 2, 3, 63, 64, 65, 66):
        calls.archive(build([some_litter(r) for _ in range(n)]))
        calls.check()
        for a in range(n + 2):
            for z in range(n + 2):
                calls.range(a, z)


def none_at_all(calls):
    """With no litter the byte of the first totals is 0 all the same, and it is tested."""
    for trailer in ((0, 0, 0), (0, 12, 0), (0, 0, 12), (1, 0, 0), (0, WORD - 1, 0)):
        calls.archive(struct.pack("<3I", *trailer))
        calls.check()
        calls.range(0, 0)
        calls.range(0, 1)
    calls.archive(struct.pack("<6I", 1, 1, 2, 1, 0, 0))  # one litter, and the byte of totals that are not there is not 12
    calls.check()
    calls.range(0, 1)
    for n in range(13):
        calls.archive(bytes(n))
        calls.check()
        calls.range(0, 0)


def written(calls, r, n):
    litters = [some_litter(r) for _ in range(n)]
    numbers = numbers_of(litters)
    whole = size(n)
    for room in (whole, whole + 1, whole + r.randint(2, 100), max(whole - 1, 0), r.randint(0, whole), 0):
        calls.write(numbers, room)
    calls.write(numbers + [1] * r.randint(1, 2), whole + 100)
    if n:
        i = r.randrange(n)
        wrong = litters[:i] + [spoiled(r, litters[i])] + litters[i + 1 :]
        calls.write(numbers_of(wrong), whole)
        b = build(litters)
        calls.archive(b)
        calls.check()
        return b
    return build([])


def a_round(calls, r):
    n = r.choice((r.choice(SIZES), r.randint(0, 200), r.randint(0, 300)))
    b = written(calls, r, n)
    calls.archive(b)
    ranges(calls, r, n, 30)
    for _ in range(6):
        calls.archive(corrupted(r, b, n))
        calls.check()
        ranges(calls, r, n, 12)
    for _ in range(2):
        unread(calls, r, b, n)


def once(calls, r):
    for n in SIZES + [MOST + 1, 10**6, 2**32, 2**63, 2**64 - 1]:
        calls.size(n)
    calls.write([0, 1, 0] * (MOST + 1), size(MOST) + 100)
    none_at_all(calls)
    both_refusals(calls, r)
    small(calls, r)
    for n in SIZES:
        b = written(calls, r, n)
        calls.archive(b)
        ranges(calls, r, n, 40)
        unread(calls, r, b, n)
    calls.run()


def program():
    if not shutil.which("gcc"):
        missing("gcc is not there (Debian: gcc)")
    found = subprocess.run(["bash", top / "tools/found", "library", "PROBIT_TEXT", "probit"], stdout=subprocess.PIPE, text=True)
    if found.returncode:
        sys.exit(found.returncode)
    lib = found.stdout.strip()
    out = top / "target/oracle"
    out.mkdir(parents=True, exist_ok=True)
    made = out / "archives"
    if subprocess.run(["gcc", "-std=c11", "-O2", "-Wall", "-Wextra", "-I", top / "include", "-o", made, top / "oracle/archives.c", lib]).returncode:
        failed("gcc does not build oracle/archives.c")
    return str(made)


# every answer that there is has to be met
EACH = ["check 0", "check 1", "size", "write 0", "write 1"] + ["range, " + why for why in (
    "fewer than 12 bytes", "a count above 4096", "another length", "byte of the totals", "byte of the litters", "positions", "a litter read", "a sum past 32 bits", "a negative difference", "answered")]


def main():
    words = sys.argv[1:]
    if words == ["short"]:
        words = ["1", "10"]
    until = None
    if words[:1] == ["fuzz"] and len(words) in (2, 3) and all(w.isdigit() for w in words[1:]):
        until, seed = time.time() + 60 * int(words[1]), int(words[2]) if len(words) == 3 else 1
    elif len(words) == 2 and all(w.isdigit() for w in words):
        seed = int(words[0])
    else:
        print("usage: oracle/archives.py SEED NUMBER, or oracle/archives.py short, or oracle/archives.py fuzz MINUTES [SEED]", file=sys.stderr)
        sys.exit(2)
    r, calls, rounds = random.Random(seed), Calls(program()), 0
    once(calls, r)
    while time.time() < until if until else rounds < int(words[1]):
        a_round(calls, r)
        calls.run()
        rounds += 1
    for what in EACH:
        if not calls.met[what]:
            failed("never met: " + what)
    met = ", ".join("%s: %d" % x for x in sorted(calls.met.items()))
    print("%d calls after %d rounds, no difference; %s" % (sum(calls.made.values()), rounds, met))


main()
