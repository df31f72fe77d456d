"""What the report says, as numbers: each one the engine's, or worked out here from the engine's."""
import math

from . import search
from .engine import bits

Z95 = 1.959963984540054


class Number:
    """A value and where it comes from: `engine` or `report`."""

    def __init__(self, value, source):
        self.value, self.source = value, source

    bits = property(lambda self: bits(self.value) if self.source == "engine" and isinstance(self.value, float) else None)

    def plain(self):
        """For JSON: a value that is not finite is null."""
        value = self.value if not isinstance(self.value, float) or math.isfinite(self.value) else None
        out = {"value": value, "from": self.source}
        if self.bits:
            out["bits"] = self.bits
        return out


def engine(x):
    return Number(x, "engine")


def report(x):
    return Number(x, "report")


def phi(x):
    return 0.5 * math.erfc(-x / math.sqrt(2))


def inverse(a):
    """The inverse of a symmetric positive definite matrix by Cholesky, symmetric to the bit; None where it is not positive definite."""
    n = len(a)
    low = [[0.0] * n for _ in range(n)]
    for i in range(n):
        for j in range(i + 1):
            rest = (a[i][j] + a[j][i]) / 2 - sum(low[i][k] * low[j][k] for k in range(j))
            if i == j:
                if not (rest > 0 and math.isfinite(rest)):
                    return None
                low[i][i] = math.sqrt(rest)
            else:
                low[i][j] = rest / low[j][j]
    back = [[0.0] * n for _ in range(n)]
    for c in range(n):
        for i in range(c, n):
            back[i][c] = ((i == c) - sum(low[i][k] * back[k][c] for k in range(c, i))) / low[i][i]
    out = [[0.0] * n for _ in range(n)]
    for i in range(n):
        for j in range(i + 1):
            out[i][j] = out[j][i] = sum(back[k][i] * back[k][j] for k in range(i, n))
    return out


class Curvature:
    """The covariance of means and variances: the inverse of the engine's Hessian over the coordinates that are free, those that lie on no bound."""

    def __init__(self, answer):
        self.covariance, self.why = None, None
        self.free = [i for i in range(4) if not answer.on_bound[i]]
        if not answer.converged:
            self.why = "the fit did not converge, and standard errors about another point than the best fit would mislead"
        elif answer.hessian is None:
            self.why = "the program probitfit does not give the curvature of the likelihood; the library (libprobit.so) does"
        elif not self.free:
            self.why = "every estimate lies on a bound"
        else:
            inner = inverse([[answer.hessian[4 * i + j] for j in self.free] for i in self.free])
            if inner is None:
                self.why = "the likelihood is not curved downwards in every direction at the fit (its Hessian is not positive definite)"
            else:
                self.covariance = [[0.0] * 4 for _ in range(4)]
                for i, p in enumerate(self.free):
                    for j, q in enumerate(self.free):
                        self.covariance[p][q] = inner[i][j]

    def error(self, slopes):
        """The standard error of a function of the coordinates with these slopes (the delta method); None where nothing that it hangs on is free."""
        if self.covariance is None or not any(slopes[i] for i in self.free):
            return None
        square = sum(slopes[i] * self.covariance[i][j] * slopes[j] for i in self.free for j in self.free)
        return math.sqrt(square) if square > 0 else None


def unit(i, slope=1.0):
    return [slope if j == i else 0.0 for j in range(4)]


def spread_intervals(lib, answer, curve):
    """The engine's log-Wald intervals of the free SDs, by group; None where there is none."""
    out = [None, None]
    if curve.covariance is None or lib.way != "library":
        return out
    slopes = [1.0, 1.0] + [1 / (2 * s) if s > 0 else 0.0 for s in answer.sd]
    free, values = curve.free, answer.mean + answer.sd
    cov = [[slopes[i] * slopes[j] * curve.covariance[i][j] for j in free] for i in free]
    marks = sum(1 << k for k, i in enumerate(free) if i >= 2)
    if not marks or any(not cov[k][k] > 0 for k in range(len(free))):
        return out
    ending, found = lib.intervals([values[i] for i in free], [x for row in cov for x in row], [math.sqrt(cov[k][k]) for k in range(len(free))], marks)
    if ending == 0:
        for k, i in enumerate(free):
            if i >= 2:
                out[i - 2] = found[k][1:]
    return out


def next_up(x, sd):
    # Below 2^-500 the squares of neighbouring SDs coincide.
    return x + 2.0**-500 if sd and x < 2.0**-400 else math.nextafter(x, math.inf)


def next_down(x, sd):
    return None if sd and x < 2.0**-400 else math.nextafter(x, -math.inf)


class Test:
    """A likelihood-ratio test against an equal mean, or an equal spread, of the two groups."""

    def __init__(self, what):
        self.what, self.why, self.notes = what, None, []
        self.shared = self.nll = self.statistic = self.p = None
        self.fits = self.quadrature = 0


def test_equal(lib, request, litters, answer, what, tell):
    """The fit under the constraint: the engine fits with the shared value held, and the shared value is searched for here.

    Held means a box one f64 wide: the group that pulls up stands at its box's upper end, the other at its lower end, so both stand at the same f64."""
    test, sd = Test(what), what == "spreads"
    first = 2 if sd else 0
    own = answer.sd if sd else answer.mean
    if not answer.converged:
        test.why = "the fit did not converge"
        return test
    box = [request.bounds[first], request.bounds[first + 1]]
    lowest, highest = max(b[0] for b in box), min(b[1] for b in box)
    low, high = max(min(own), lowest), min(max(own), highest)
    if low > high:
        test.why = "the bounds of the two groups have no value in common"
        return test
    best = []
    starts = [list(answer.mean), list(answer.sd)]

    def at(x):
        bounds = list(request.bounds)
        for g in (0, 1):
            other = 1 - g
            below, above = next_down(x, sd), next_up(x, sd)
            pulls_up = own[g] > own[other] or (own[g] == own[other] and g == 1)
            if (pulls_up and below is not None and below >= box[g][0]) or above > box[g][1]:
                bounds[first + g] = (below, x, x)
            else:
                bounds[first + g] = (x, above, x)
            k = (0 if sd else 2) + g
            bounds[k] = bounds[k][:2] + (min(max(starts[0 if sd else 1][g], bounds[k][0]), bounds[k][1]),)
        found = lib.fit(request.other(bounds), litters)
        test.fits += 1
        test.quadrature += found.quadrature
        tell(f"equal {what}: fit {test.fits}")
        if not found.answered:
            raise ArithmeticError(f"a fit with the value held at {x:.4f} was refused by the engine (ending {found.ending})")
        starts[0], starts[1] = list(found.mean), list(found.sd)
        best.append((found.nll, x, found))
        return found.nll

    try:
        if low == high:
            at(low)
        else:
            search.least(at, low, high)
    except ArithmeticError as e:
        test.why = str(e)
        return test
    test.nll, test.shared, found = min(best, key=lambda b: b[:2])
    if not found.converged:
        test.notes.append("The constrained fit did not converge, so the statistic may be too large.")
    test.statistic = max(0.0, 2 * (test.nll - answer.nll))
    test.p = math.erfc(math.sqrt(test.statistic / 2))
    return test


class Group:
    pass


class Report:
    """All numbers of a report, by name; those that are not to be had are None, and `curve.why` or a test's `why` says why."""

    def __init__(self, table, lib, request, tests=True, tell=lambda what: None):
        self.table, self.lib, self.request = table, lib, request
        litters = table.numbers()
        tell("fitting")
        a = self.answer = lib.fit(request, litters)
        self.groups = []
        counted = lib.summary(litters)
        for g in (0, 1):
            group = Group()
            self.groups.append(group)
            group.label = table.labels[g]
            own = [litter for litter in table.litters if litter.group == g]
            if counted:
                group.litters, group.affected, group.pups, group.extreme = map(engine, counted[g])
            else:
                group.litters, group.pups = report(len(own)), report(sum(x.total for x in own))
                group.affected = report(sum(x.affected for x in own))
                group.extreme = report(sum(x.affected in (0, x.total) for x in own))
            group.raw = report(group.affected.value / group.pups.value)
        self.curve, self.tests, self.difference = None, [], None
        if not a.answered:
            return
        curve = self.curve = Curvature(a)
        intervals = spread_intervals(lib, a, curve)

        def maybe(x):
            return None if x is None else report(x)

        for g, group in enumerate(self.groups):
            m, s, v = a.mean[g], a.sd[g], a.variance[g]
            group.mean, group.sd, group.variance = engine(m), engine(s), engine(v)
            group.mean_bound, group.sd_bound = bool(a.on_bound[g]), bool(a.on_bound[g + 2])
            group.mean_error = maybe(curve.error(unit(g)))
            group.sd_error = maybe(curve.error(unit(g + 2, 1 / (2 * s))) if s > 0 else None)
            group.sd_interval = [engine(x) for x in intervals[g]] if intervals[g] else None
            root = math.sqrt(1 + v)
            u = m / root
            group.share = report(phi(u))
            slopes = [0.0] * 4
            slopes[g], slopes[g + 2] = 1 / root, -m / (2 * root**3)
            error = curve.error(slopes)
            # With the mean on its bound there is no interval about the share: the spread alone would not carry it.
            group.share_interval = [report(phi(u - Z95 * error)), report(phi(u + Z95 * error))] if error is not None and not group.mean_bound else None
            group.correlation = report(v / (1 + v))
            group.correlation_interval = [report(x.value**2 / (1 + x.value**2)) for x in group.sd_interval] if group.sd_interval else None
        d = a.mean[1] - a.mean[0]
        error = curve.error([-1.0, 1.0, 0.0, 0.0]) if not (a.on_bound[0] or a.on_bound[1]) else None
        self.difference = report(d)
        self.difference_error = maybe(error)
        self.difference_interval = [report(d - Z95 * error), report(d + Z95 * error)] if error is not None else None
        if tests:
            for what, marks in (("means", a.on_bound[:2]), ("spreads", a.on_bound[2:])):
                test = test_equal(lib, request, litters, a, what, tell)
                if any(marks) and test.why is None:
                    test.notes.append(f"One of the {what} lies on a bound; the chi-square law does not strictly hold there, and p is a rough guide.")
                self.tests.append(test)

    def status(self):
        """The exit status: 0 answered and converged, 1 answered otherwise, 2 refused."""
        return 0 if self.answer.converged else 1 if self.answer.answered else 2
