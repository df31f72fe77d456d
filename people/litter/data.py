"""The report for other programs, as JSON."""
import json

from . import engine as engines
from .numbers import engine


def number(x):
    return None if x is None else x.plain()


def pair(xs):
    return None if xs is None else [x.plain() for x in xs]


def plain(r, name):
    a, q, t = r.answer, r.request, r.table
    out = {
        "litterfit": 1,
        "table": {"name": name, "delimiter": t.delimiter, "unread": t.unread, "empty_rows": t.empty,
                  "litters": [{"line": x.line, "name": x.name, "group": x.group, "affected": x.affected, "total": x.total} for x in t.litters]},
        "engine": {"way": r.lib.way, "interface": r.lib.version},
        "request": {"bounds": [list(b) for b in q.bounds], "tolerance": q.tolerance, "evaluations": q.evaluations, "iterations": q.iterations, "quadrature": q.quadrature},
        "ending": engines.ENDINGS.get(a.ending, "unknown"),
        "reason": engines.REASONS.get(a.reason) if a.ending == 2 else None,
        "status": engines.STATUSES.get(a.status, "unknown") if a.answered else None,
        "exit": r.status(),
        "work": {"evaluations": a.evaluations, "iterations": a.iterations, "quadrature": a.quadrature},
        "groups": [],
    }
    for g, group in enumerate(r.groups):
        one = {"label": group.label}
        for name in ("litters", "pups", "affected", "extreme", "raw"):
            one[name] = number(getattr(group, name))
        if a.answered:
            for name in ("mean", "mean_error", "sd", "sd_error", "variance", "share", "correlation"):
                one[name] = number(getattr(group, name))
            for name in ("sd_interval", "share_interval", "correlation_interval"):
                one[name] = pair(getattr(group, name))
            one["mean_on_bound"], one["sd_on_bound"] = group.mean_bound, group.sd_bound
        out["groups"].append(one)
    if a.answered:
        out["nll"], out["norm"] = number(engine(a.nll)), number(engine(a.norm))
        out["covariance"] = {"of": ["mean 0", "mean 1", "variance 0", "variance 1"], "value": r.curve.covariance, "from": "report", "why_none": r.curve.why}
        out["difference"] = {"mean": number(r.difference), "error": number(r.difference_error), "interval": pair(r.difference_interval)}
        out["tests"] = [
            {"equal": x.what, "why_none": x.why, "p": x.p, "statistic": x.statistic, "degrees": 1, "shared": x.shared, "from": "report",
             "nll": None if x.nll is None else number(engine(x.nll)), "fits": x.fits, "quadrature": x.quadrature, "notes": x.notes}
            for x in r.tests
        ]
    return out


def text(r, name):
    return json.dumps(plain(r, name), indent=1, ensure_ascii=False, allow_nan=False) + "\n"
