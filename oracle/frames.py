# Framed requests and answers for the commands that compare: making them, running a program on them, and cutting a
# request down to what still shows a difference.
import importlib.machinery
import importlib.util
import os
import re
import subprocess
import sys
from decimal import Decimal

ROOT = os.path.dirname(os.path.dirname(os.path.abspath(__file__)))
OURS = "target/oracle/oracle-ours"
UNALTERED = "target/oracle/oracle-unaltered"
PLAIN = "target/oracle/oracle-plain"
REPLAY = "target/oracle/replay"
# The most that a request may ask for.
LIMIT = 20_000_000


def _generator():
    sys.dont_write_bytecode = True
    loader = importlib.machinery.SourceFileLoader("requests_made", os.path.join(ROOT, "oracle", "requests"))
    module = importlib.util.module_from_spec(importlib.util.spec_from_loader(loader.name, loader))
    loader.exec_module(module)
    return module


made = _generator()


def build(*parts):
    """Builds the oracle and the parts, or answers with the exit status that says why not."""
    return subprocess.run(["oracle/build", *parts], cwd=ROOT).returncode


def frame(texts):
    return b"".join(b"request %d\n" % len(text) + text for text in texts)


def unframe(data, word=b"answer"):
    out, at = [], 0
    while at < len(data):
        end = data.find(b"\n", at)
        head = data[at:end].split(b" ")
        if end < 0 or len(head) != 2 or head[0] != word:
            break
        after = end + 1 + int(head[1])
        if after > len(data):
            break
        out.append(data[end + 1:after])
        at = after
    return out


def run(command, texts):
    """An answer for each text. A program that ends before its time gives the rest as what it said."""
    p = subprocess.run(command, input=frame(texts), stdout=subprocess.PIPE, stderr=subprocess.PIPE, cwd=ROOT)
    answers = unframe(p.stdout)
    if len(answers) < len(texts):
        if command[0] != REPLAY:
            sys.exit("the oracle fails: " + p.stderr.decode(errors="replace"))
        answers.append(b"the program ended with %d\n" % p.returncode)
        answers += run(command, texts[len(answers):]) if len(answers) < len(texts) else []
    return answers


def oracle(texts):
    return run([OURS, "fit", "--framed"], texts)


def unaltered(texts):
    return run([UNALTERED, "fit", "--framed"], texts)


def plain(texts):
    return run([PLAIN, "fit", "--framed"], texts)


def ours(texts):
    return run([REPLAY], texts)


def derivatives(texts):
    """The answers of both, the oracle's first, each with gradient and Hessian after it."""
    return run([OURS, "derivatives", "--framed"], texts), run([REPLAY, "derivatives"], texts)


def parse(text):
    """The request of a well-formed text, else None."""
    form = (rb"probit-request 1\nmean 0 (\w{16}) (\w{16}) (\w{16})\nmean 1 (\w{16}) (\w{16}) (\w{16})\nsd 0 (\w{16}) (\w{16}) (\w{16})\nsd 1 (\w{16}) (\w{16}) (\w{16})\n"
            rb"work (\d+) (\d+) (\d+)\ntolerance (\w{16})\n((?:litter \d+ \d+ \d+\n)*)rows \d+ at \d+\n")
    m = re.fullmatch(form, text)
    if not m:
        return None
    try:
        n = [int(w, 16) for w in m.groups()[:12]]
        r = made.Request()
        r.mean, r.sd = [n[0:3], n[3:6]], [n[6:9], n[9:12]]
        r.work = [int(w) for w in m.groups()[12:15]]
        r.tolerance = int(m.group(16), 16)
        r.litters = [tuple(int(w) for w in line.split()[1:]) for line in m.group(17).splitlines()]
    except ValueError:
        return None
    return r if r.text() == text else None


def with_limit(text, limit):
    r = parse(text)
    r.work[2] = limit
    return r.text()


def decimal(bits):
    """The shortest decimal that is read as this f64, or its hexadecimal digits where that has more than seventeen digits or none is there."""
    x = made.f64(bits)
    if x - x != 0:
        return f"{bits:016x}"
    word = format(Decimal(repr(x)), "f")
    word = word if "." in word else word + ".0"
    return word if sum(c.isdigit() for c in word) <= 17 else f"{bits:016x}"


def in_decimals(text):
    """A request's text with its f64s in decimals; a text that is none as it is."""
    r = parse(text)
    if r is None:
        return text
    lines = text.split(b"\n")
    for i, line in enumerate(lines):
        words = line.split(b" ")
        if words[0] in (b"mean", b"sd", b"tolerance"):
            lines[i] = b" ".join(decimal(int(w, 16)).encode() if len(w) == 16 else w for w in words)
    head = b"\n".join(lines[:7]) + b"\n"
    lines[-2] = b"rows %d at %d" % (len(r.litters), len(head))
    return b"\n".join(lines)


def evaluations(answer):
    """The evaluations that an answer tells of, or None where it tells of none: a form, a check, a limit."""
    words = answer.split()
    if words[:1] == [b"refused"]:
        return int(words[2]) if words[1] in (b"1", b"2") and int(words[2]) else None
    m = re.search(rb"^counts \d+ \d+ (\d+)$", answer, re.M)
    return int(m.group(1)) if m else None


def cut(text, differs):
    """The text cut down as long as it differs: of a request its litters and numbers, of any other text its lines and bytes."""
    def first(tries):
        return next((t for t in tries if t is not None and t != text and differs(t)), None)

    while True:
        r = parse(text)
        smaller = first(_smaller(r) if r else _shorter(text))
        if smaller is None:
            return text
        text = smaller


def _shorter(text):
    lines = text.split(b"\n")
    for i in range(len(lines)):
        yield b"\n".join(lines[:i] + lines[i + 1:])
    if len(text) < 600:
        for i in range(len(text)):
            yield text[:i] + text[i + 1:]


def _smaller(r):
    def copy(change):
        q = parse(r.text())
        change(q)
        return q.text()

    for i in range(len(r.litters)):
        yield copy(lambda q: q.litters.pop(i))
    plain_request = made.Request()
    for kind in ("mean", "sd"):
        for g in (0, 1):
            if getattr(r, kind)[g] != getattr(plain_request, kind)[g]:
                yield copy(lambda q: getattr(q, kind).__setitem__(g, getattr(plain_request, kind)[g]))
    if r.tolerance != plain_request.tolerance:
        yield copy(lambda q: setattr(q, "tolerance", plain_request.tolerance))
    for i in range(3):
        for value in {1, 2, 4, r.work[i] // 2, r.work[i] - 1}:
            if 0 < value < r.work[i]:
                yield copy(lambda q: q.work.__setitem__(i, value))
    for i, (g, s, t) in enumerate(r.litters):
        for s2, t2 in {(0, 1), (1, 1), (1, 2), (s // 2, t // 2), (min(s, t - 1), t - 1)}:
            if 0 < t2 < t and s2 <= t2:
                yield copy(lambda q: q.litters.__setitem__(i, (g, s2, t2)))
