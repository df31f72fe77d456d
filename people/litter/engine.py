"""The proved engine, called through its C interface or through the program `probitfit`. Both give the same bits."""
import ctypes
import os
import platform
import shlex
import shutil
import struct
import subprocess
import sys

ENDINGS = {0: "answered", 1: "invalid input", 2: "domain", 3: "work budget", 4: "form", 8: "unsupported"}
# As include/probit_names.h has them; docs/RULES.md says what each is.
REASONS = {
    0: "none",
    1: "mode not bracketed",
    2: "mode not converged",
    3: "tail not bounded",
    4: "not finite",
    5: "refinement not converged",
    6: "total not finite",
}
STATUSES = {0: "none", 1: "converged", 2: "evaluation-limit", 3: "iteration-limit", 4: "line-search-failed"}
# The first interface that this program can call: 1000 times the first number, and the second.
FIRST, LEAST = 1, 1003
FIT_NUMBERS, FIT_COUNTS, INTERVALS_NUMBERS, SUMMARY_COUNTS = 28, 10, 24, 8


class NoEngine(Exception):
    """Why no engine can be called, in words."""


def bits(x):
    return struct.pack(">d", x).hex()


def of_bits(word):
    return struct.unpack(">d", bytes.fromhex(word))[0]


class Request:
    """Bounds (low, high, start) of mean 0, mean 1, SD 0, SD 1; the tolerance; the three limits."""

    def __init__(self, bounds, tolerance, evaluations, iterations, quadrature):
        self.bounds, self.tolerance = [tuple(map(float, b)) for b in bounds], float(tolerance)
        self.evaluations, self.iterations, self.quadrature = evaluations, iterations, quadrature

    def other(self, bounds):
        return Request(bounds, self.tolerance, self.evaluations, self.iterations, self.quadrature)

    def text(self, litters):
        """The request as docs/FORMAT.md has it, its numbers by their bits."""
        head = ["probit-request 1"]
        for i, (name, group) in enumerate((("mean", 0), ("mean", 1), ("sd", 0), ("sd", 1))):
            head.append(f"{name} {group} " + " ".join(map(bits, self.bounds[i])))
        head += [f"work {self.evaluations} {self.iterations} {self.quadrature}", "tolerance " + bits(self.tolerance)]
        start = sum(len(line) + 1 for line in head)
        body = [f"litter {litters[i + 2]} {litters[i]} {litters[i + 1]}" for i in range(0, len(litters), 3)]
        return "".join(line + "\n" for line in head + body + [f"rows {len(body)} at {start}"]).encode()


class Answer:
    """A fit's answer. gradient and hessian (four numbers, sixteen by rows; mean 0, mean 1, variance 0, variance 1) are None where the way has none."""

    def __init__(self, ending, reason=0, status=0, mean=(0.0, 0.0), sd=(0.0, 0.0), variance=(0.0, 0.0), nll=0.0, norm=0.0, evaluations=0, iterations=0, quadrature=0, on_bound=(0, 0, 0, 0), gradient=None, hessian=None):
        self.ending, self.reason, self.status = ending, reason, status
        self.mean, self.sd, self.variance, self.nll, self.norm = list(mean), list(sd), list(variance), nll, norm
        self.evaluations, self.iterations, self.quadrature = evaluations, iterations, quadrature
        self.on_bound, self.gradient, self.hessian = list(on_bound), gradient, hessian

    answered = property(lambda self: self.ending == 0)
    converged = property(lambda self: self.ending == 0 and self.status == 1)


class Library:
    """The C interface, from a shared library."""

    way = "library"

    def __init__(self, file):
        self.file = file
        try:
            self.c = ctypes.CDLL(os.path.abspath(file))
        except OSError as e:
            raise NoEngine(f"the library {file} cannot be loaded here ({platform.system()} on {platform.machine()}): {e}. It is made for Linux on x86-64")
        try:
            self.c.probit_version.restype = ctypes.c_uint64
            self.version = self.c.probit_version()
        except AttributeError:
            raise NoEngine(f"the library {file} has no probit_version: it is another library")
        if self.version // 1000 != FIRST or self.version < LEAST:
            raise NoEngine(f"the library {file} has interface {self.version}; this program calls {LEAST} or a later one of {FIRST}000")
        for name in ("probit_fit", "probit_summary", "probit_intervals"):
            getattr(self.c, name).restype = ctypes.c_uint64

    @staticmethod
    def doubles(xs):
        return (ctypes.c_double * max(len(xs), 1))(*xs)

    @staticmethod
    def litters(xs):
        return (ctypes.c_uint32 * max(len(xs), 1))(*xs)

    def fit(self, request, litters):
        numbers, counts = (ctypes.c_double * FIT_NUMBERS)(), (ctypes.c_uint64 * FIT_COUNTS)()
        bounds = [x for b in request.bounds for x in b]
        size = ctypes.c_size_t
        u64 = ctypes.c_uint64
        ending = self.c.probit_fit(
            self.doubles(bounds), size(len(bounds)), ctypes.c_double(request.tolerance),
            u64(request.evaluations), u64(request.iterations), u64(request.quadrature),
            self.litters(litters), size(len(litters)), numbers, size(FIT_NUMBERS), counts, size(FIT_COUNTS))
        n, c = list(numbers), list(counts)
        if ending:
            return Answer(ending, reason=c[5], quadrature=c[3])
        return Answer(0, 0, c[0], n[0:2], n[2:4], n[6:8], n[4], n[5], c[1], c[2], c[3], c[6:10], n[8:12], n[12:28])

    def summary(self, litters):
        """Of each group the litters, affected pups, pups and extreme litters."""
        counts = (ctypes.c_uint64 * SUMMARY_COUNTS)()
        ending = self.c.probit_summary(self.litters(litters), ctypes.c_size_t(len(litters)), counts, ctypes.c_size_t(SUMMARY_COUNTS))
        return None if ending else [list(counts)[0:4], list(counts)[4:8]]

    def intervals(self, estimates, covariance, errors, marks):
        """The ending, and of each estimate its error in the log, lower, upper."""
        numbers = (ctypes.c_double * INTERVALS_NUMBERS)()
        size = ctypes.c_size_t
        ending = self.c.probit_intervals(
            self.doubles(estimates), size(len(estimates)), self.doubles(covariance), size(len(covariance)),
            self.doubles(errors), size(len(errors)), ctypes.c_uint64(marks), numbers, size(INTERVALS_NUMBERS))
        n = list(numbers)
        return ending, [n[3 * i : 3 * i + 3] for i in range(len(estimates))]


class Program:
    """The program `probitfit`: a request's text in, an answer's text out. It gives no derivatives."""

    way = "program"
    version = None

    def __init__(self, command):
        self.command = shlex.split(command) if isinstance(command, str) else list(command)
        self.file = self.command[-1]

    def fit(self, request, litters):
        try:
            done = subprocess.run(self.command, input=request.text(litters), stdout=subprocess.PIPE, stderr=subprocess.PIPE)
        except OSError as e:
            raise NoEngine(f"the program {self.file} cannot be run here ({platform.system()} on {platform.machine()}): {e.strerror or e}. It is made for Linux on x86-64")
        try:
            return read_answer(done.stdout.decode("ascii"))
        except (ValueError, KeyError, IndexError):
            said = done.stderr.decode("utf-8", "replace").strip() or "nothing"
            raise NoEngine(f"the program {self.file} gave no answer that can be read (exit status {done.returncode}); it said: {said}")

    def summary(self, litters):
        return None


def read_answer(text):
    """An answer's text, as docs/FORMAT.md has it; lines that are not known are passed over."""
    lines = {}
    for line in text.splitlines():
        word, *rest = line.split(" ")
        lines.setdefault(word, rest)
    if "refused" in lines:
        ending, used, reason = map(int, lines["refused"])
        return Answer(ending, reason=reason, quadrature=used)
    status = {name: number for number, name in STATUSES.items()}[lines["status"][0]]
    counts = list(map(int, lines["counts"]))
    marks = [0] * 4
    for word in lines["active"]:
        if word != "none":
            marks[int(word)] = 1
    mean, sd, variance = ([of_bits(w) for w in lines[name]] for name in ("mean", "sd", "variance"))
    return Answer(0, 0, status, mean, sd, variance,
                  of_bits(lines["nll"][0]), of_bits(lines["gradient"][0]), counts[0], counts[1], counts[2], marks)


def places(here):
    """Where library and program are looked for, beside the command: as a release has them, then as the source tree has them."""
    up = os.path.dirname(here)
    return [os.path.join(up, "lib", "libprobit.so"), os.path.join(up, "target", "shared", "libprobit.so")], [os.path.join(here, "probitfit"), os.path.join(up, "bin", "probitfit"), os.path.join(up, "target", "bin", "probitfit")]


def build(here):
    """In the source tree, with the toolchain at hand, what is not there yet is made: the library, or where the processor is another one, which cannot
    load it, the program, which an emulator may run."""
    tree = os.path.dirname(here)
    if not (os.path.exists(os.path.join(tree, "crates.txt")) and shutil.which("rt")):
        return
    print("litterfit: no engine here yet; it is proved and built first, once, which takes long", file=sys.stderr)
    make = [os.path.join(here, "engine")] if platform.machine() == "x86_64" else ["bash", os.path.join(tree, "tools", "found"), "executable", "PROBIT_FIT", "probitfit"]
    subprocess.run(make, cwd=tree, stdout=sys.stderr)


def find(here, library=None, program=None):
    """The engine: what is named, else the library, else the program. Raises NoEngine, with each reason."""
    library, program = library or os.environ.get("LITTERFIT_LIBRARY"), program or os.environ.get("LITTERFIT_PROGRAM")
    if library:
        return Library(library)
    if program:
        return Program(program)
    libraries, programs = places(here)
    faults = []
    if not any(map(os.path.exists, libraries + programs)):
        build(here)
    for file in filter(os.path.exists, libraries):
        try:
            return Library(file)
        except NoEngine as e:
            faults.append(str(e))
    on_path = shutil.which("probitfit")
    for file in [f for f in programs if os.path.exists(f)] + ([on_path] if on_path else []):
        engine = Program([file])
        try:
            # One small request shows whether the program runs on this machine.
            if engine.fit(Request([(-1, 1, 0), (-1, 1, 0), (0, 1, 0), (0, 1, 0)], 1e-6, 10, 10, 4), [1, 2, 0, 1, 2, 0, 1, 2, 1, 1, 2, 1]).answered:
                engine.instead = faults
                return engine
            faults.append(f"the program {file} refuses a request that it has to answer")
        except NoEngine as e:
            faults.append(str(e))
    raise NoEngine("; ".join(faults) or "neither the library libprobit.so nor the program probitfit was found; --library FILE or --program FILE names one")
