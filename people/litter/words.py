"""The report in words: sections of rows and sentences, the same for the terminal and for the page."""
import math
import textwrap

from . import engine as engines

WIDTH = 79
LABEL, CELL = 43, 12


class Row:
    """A labelled row: one or two numbers as shown, where they come from, and their bits. depth 1 stands under the row before it."""

    def __init__(self, label, cells, source="", bits=None, depth=0):
        self.label, self.cells, self.source, self.bits, self.depth = label, cells, source, bits, depth


class Section:
    def __init__(self, title, head=None, rows=(), sentences=()):
        self.title, self.head, self.rows, self.sentences = title, head, list(rows), list(sentences)


def plain(x, digits=4):
    return "-" if x is None else f"{x.value:.{digits}f}"


def percent(x):
    return "-" if x is None else f"{100 * x.value:.1f} %"


def chance(p):
    return "below 0.0001" if p < 0.0001 else f"{p:.4f}"


def many(n, one, more=None):
    return f"{n:,} {one if n == 1 else more or one + 's'}"


def row(label, numbers, form=plain, depth=0):
    """A row of numbers of one source; none of it where no group has it."""
    there = [n for n in numbers if n is not None]
    return [Row(label, [form(n) for n in numbers], there[0].source, [n.bits if n else None for n in numbers] if there[0].bits else None, depth)] if there else []


def interval(label, pairs, form, depth=1):
    return row(label + ", from", [p[0] if p else None for p in pairs], form, depth) + row(label + ", to", [p[1] if p else None for p in pairs], form, depth)


def study(r):
    t, groups = r.table, r.groups
    rows = []
    for label, name in (("Litters", "litters"), ("Pups", "pups"), ("Affected pups", "affected"), ("Litters with none or all pups affected", "extreme")):
        rows += row(label, [getattr(g, name) for g in groups], lambda n: f"{n.value:,}")
    rows += row("Share of all pups that are affected", [g.raw for g in groups], percent)
    said = []
    if t.unread:
        said.append("Columns that were not read: " + ", ".join(t.unread) + ".")
    if t.empty:
        said.append(f"{many(t.empty, 'empty row')} passed over.")
    return Section("The study", t.labels, rows, said)


def fit(r):
    g, curve = r.groups, r.curve
    rows = row("Mean", [x.mean for x in g]) + row("standard error", [x.mean_error for x in g], depth=1)
    rows += row("Spread between litters (SD)", [x.sd for x in g]) + row("standard error", [x.sd_error for x in g], depth=1)
    rows += interval("95 % interval", [x.sd_interval for x in g], plain)
    rows.append(Row("Minus the log-likelihood, both groups", [f"{r.answer.nll:.6f}"], "engine", [engines.bits(r.answer.nll)]))
    said = ["Every litter has a level of its own on the probit scale, where 0 is an even chance for a pup and -1.645 is a chance of 5 in 100. The mean is the middle of a group's litters, the spread how far its litters lie apart."]
    if curve.why:
        said.append(f"There are no standard errors and no intervals: {curve.why}.")
    elif any(not x.sd_bound and not x.sd_interval for x in g):
        said.append("There are no intervals of the spreads: a standard error is so large beside its spread that the engine refuses them.")
    fixed = []
    for i, what in enumerate(("mean", "mean", "spread", "spread")):
        if r.answer.on_bound[i]:
            value = (r.answer.mean + r.answer.sd)[i]
            fixed.append(f"The {what} of {r.table.labels[i % 2]} lies on its bound, {value:g}.")
    if fixed:
        said += fixed
        said.append("What lies on a bound is not free: it has no standard error, and the others are worked out as if it were known. The best fit may lie beyond the bound.")
        if any(r.answer.on_bound[i] and r.answer.sd[i - 2] == 0 for i in (2, 3)):
            said[-1] = "What lies on a bound is not free: it has no standard error, and the others are worked out as if it were known. A spread of 0 says that the litters of the group differ no more than chance makes them."
    return Section("The fit, on the probit scale", r.table.labels, rows, said)


def meaning(r):
    g = r.groups
    rows = row("Fitted share of pups affected", [x.share for x in g], percent) + interval("95 % interval", [x.share_interval for x in g], percent)
    rows += row("Correlation within a litter", [x.correlation for x in g]) + interval("95 % interval", [x.correlation_interval for x in g], plain)
    said = [
        "The fitted share is that of a pup of a litter yet unknown: Phi(m / sqrt(1 + s^2)) of mean m and spread s, Phi being the normal distribution. It counts litters, and so differs from the share of all pups above.",
        "The correlation, s^2 / (1 + s^2), says how much alike the pups of a litter are, on the probit scale: 0 not more than strangers, 1 all the same.",
    ]
    return Section("What the fit means", r.table.labels, rows, said)


QUESTION = {"means": "Do the means differ?", "spreads": "Do the spreads differ?"}


def difference(r):
    first, second = r.table.labels
    rows = row(f"Mean of {second} less that of {first}", [r.difference]) + row("standard error", [r.difference_error], depth=1)
    rows += interval("95 % interval", [r.difference_interval], plain)
    said = []
    for test in r.tests:
        if test.why:
            said.append(f"{QUESTION[test.what]} There is no test: {test.why}.")
            continue
        one = test.what[:-1]
        rows.append(Row(f"p value if the {test.what} were equal", [chance(test.p)], "report"))
        rows.append(Row("likelihood ratio (1 degree of freedom)", [f"{test.statistic:.4f}"], "report", depth=1))
        rows.append(Row(f"the {one} that the groups then share", [f"{test.shared:.4f}"], "report", depth=1))
        rows.append(Row("minus the log-likelihood there", [f"{test.nll:.6f}"], "engine", [engines.bits(test.nll)], depth=1))
        of = "fewer than 1 in 10,000" if test.p < 0.0001 else f"about {100 * test.p:.2g} in 100"
        said.append(f"{QUESTION[test.what]} If the {test.what} were equal, {of} such studies would show a likelihood ratio as large or larger.")
        said += test.notes
    done = [t for t in r.tests if not t.why]
    if done:
        said.append("Each test compares the fit with the best one in which both groups share the value, the other one still free. "
                    f"The engine fits with the shared value held ({' and '.join(many(t.fits, 'fit') for t in done)}); this report searches for the value and applies the chi-square law, which is meant for many litters.")
    elif not r.tests:
        said.append("The tests were left out (--no-tests).")
    return Section("The difference of the groups", None, rows, said)


def work_rows(r):
    a, q = r.answer, r.request
    rows = [Row("Evaluations of the likelihood", [f"{a.evaluations:,} of {q.evaluations:,}"], "engine"), Row("Steps of the descent", [f"{a.iterations:,} of {q.iterations:,}"], "engine")] if a.answered else []
    rows.append(Row("Evaluations of the integrand", [f"{a.quadrature:,} of {q.quadrature:,}"], "engine"))
    if a.answered:
        rows.append(Row("Largest slope that is left", [f"{a.norm:.3g}"], "engine", [engines.bits(a.norm)]))
        rows.append(Row("Slope at which it has converged", [f"{q.tolerance:.3g}"], "request"))
    return rows


def stopped(r):
    a, q = r.answer, r.request
    status = engines.STATUSES.get(a.status, "unknown")
    if a.converged:
        said = ["Converged: the likelihood has no slope left, as far as the tolerance asks. A higher limit would change nothing: the fit ended by itself before it met one."]
    elif status == "evaluation-limit":
        said = [f"Stopped at the limit of {many(q.evaluations, 'evaluation')} of the likelihood, before it converged. The numbers are those reached so far. A higher --evaluations (at most 1000) may give another answer."]
    elif status == "iteration-limit":
        said = [f"Stopped at the limit of {many(q.iterations, 'step')}, before it converged. The numbers are those reached so far. A higher --iterations (at most 1000) may give another answer."]
    elif status == "line-search-failed":
        said = [f"Stopped because no step along the last direction made the fit better; the slope left is {a.norm:.3g}, the tolerance {q.tolerance:.3g}. No limit would change this. A --tolerance of {next_tolerance(a.norm)} would call this point converged."]
    else:
        said = [refusal(r)]
    return Section("How the fit stopped", None, work_rows(r), said)


def next_tolerance(norm):
    """A round number that is not below the slope."""
    if not (norm > 0 and math.isfinite(norm)):
        return "another size"
    return f"{10.0 ** math.ceil(math.log10(norm)):.0e}"


def refusal(r):
    a, q = r.answer, r.request
    if a.ending == 1 and a.quadrature == 0:
        return "Refused: a bound, a start, a limit or the tolerance is not as the engine asks (docs/FORMAT.md lists the rules; litterfit --help the flags)."
    if a.ending == 1:
        return f"Refused after {many(a.quadrature, 'evaluation')} of the integrand: a slope of the likelihood was not a number."
    if a.ending == 2:
        return f"Refused after {many(a.quadrature, 'evaluation')} of the integrand: the likelihood could not be computed at a point that the fit met ({engines.REASONS.get(a.reason, 'unknown')}). Other bounds or starts may avoid that point."
    if a.ending == 3:
        more = "--quadrature may be raised to 20,000,000: every limit that is high enough gives one and the same answer." if q.quadrature < 20000000 else "It is the highest that the engine takes."
        return f"Refused: the limit of {many(a.quadrature, 'evaluation')} of the integrand was met before the fit was done, and no number is given. {more}"
    return f"Refused: {engines.ENDINGS.get(a.ending, 'unknown')}."


def sources(r):
    lib = r.lib
    if lib.way == "library":
        how = f"the library libprobit, interface {lib.version}"
    else:
        how = "the program probitfit"
    said = [
        f"engine: computed by the proved engine (here {how}), the same bits on every run; --bits shows them." + (" Its intervals take the covariance that this report works out." if any(g.sd_interval for g in r.groups if r.curve) else ""),
        "report: arithmetic of this report on the engine's numbers, in ordinary floating point; not proved.",
    ]
    if r.curve and r.curve.covariance:
        said.append("Standard errors come from the inverse of the engine's Hessian of minus the log-likelihood in means and variances; the delta method takes them to spreads and shares. Shares have their interval on the probit scale, spreads in the logarithm. All are for many litters; with few they are rough.")
    return Section("Where the numbers come from", None, [], said)


def sections(r):
    if not r.answer.answered:
        return [study(r), stopped(r), sources(r)]
    return [study(r), fit(r), meaning(r), difference(r), stopped(r), sources(r)]


def cut(label, width):
    return label if len(label) <= width else label[: width - 1] + "…"


def text(r, name, show_bits=False, picture=()):
    """The report for a terminal."""
    out = [f"Litterfit: {name}", ""]
    for i, s in enumerate(sections(r)):
        out.append(s.title.upper())
        if s.head:
            out.append(" " * LABEL + "".join(cut(h, CELL - 1).rjust(CELL) for h in s.head))
        for line in s.rows:
            label = "  " + "  " * line.depth + line.label
            width = CELL * 2
            cells = "".join(c.rjust(CELL) for c in line.cells) if len(line.cells) == 2 else line.cells[0].rjust(width)
            if len(label) > LABEL:
                out.append(label)
                label = ""
            out.append(f"{label:<{LABEL}}{cells}   {line.source}".rstrip())
            if show_bits and line.bits:
                out.append(f"{'      bits ' + ' '.join(b or '-' for b in line.bits)}")
        if s.rows and s.sentences:
            out.append("")
        for sentence in s.sentences:
            out += textwrap.wrap(sentence, WIDTH, initial_indent="  ", subsequent_indent="  ")
        out.append("")
        if i == 0 and picture:
            out += list(picture) + [""]
    return "\n".join(out).rstrip() + "\n"
