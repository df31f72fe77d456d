"""The picture: each litter's share of affected pups, the fitted share of its group, and the fitted distribution of litters. As SVG, and in characters."""
import html
import math
from statistics import NormalDist

from .numbers import phi

NORMAL = NormalDist()
BANDS = 20

STYLE = """
.lf{--ink:#1b1f24;--soft:#59636e;--line:#d1d9e0;--paper:#fff;--a:#0b6bb8;--b:#b35300}
@media (prefers-color-scheme:dark){.lf{--ink:#e6edf3;--soft:#9da7b1;--line:#3d444d;--paper:#0d1117;--a:#58a6ff;--b:#f0883e}}
@media print{.lf{--ink:#000;--soft:#333;--line:#bbb;--paper:#fff;--a:#0b6bb8;--b:#b35300}}
.lf text{font:13px system-ui,-apple-system,"Segoe UI",Roboto,"Liberation Sans",Arial,sans-serif;fill:var(--ink)}
.lf .soft{fill:var(--soft);font-size:12px}
.lf .name{font-weight:600}
.lf .grid{stroke:var(--line);stroke-width:1}
.lf .paper{fill:var(--paper)}
.lf .dist{fill-opacity:.22;stroke:none}
.lf .dot{fill-opacity:.55;stroke-width:1.2}
.lf .mean{stroke-width:2.5;fill:none}
.lf .range{fill-opacity:.12;stroke:none}
.lf .g0{fill:var(--a);stroke:var(--a)}
.lf .g1{fill:var(--b);stroke:var(--b)}
.lf .mean.g0,.lf .mean.g1{fill:none}
.lf .dist.g0,.lf .dist.g1,.lf .range.g0,.lf .range.g1{stroke:none}
""".strip()


def bands(mean, sd):
    """Of 1 the part of a group's litters whose own chance lies in each of the bands of 5 in 100, by the fit."""
    def below(p):
        if p <= 0:
            return 0.0
        if p >= 1:
            return 1.0
        x = NORMAL.inv_cdf(p)
        return phi((x - mean) / sd) if sd > 0 else float(x >= mean)
    edges = [below(k / BANDS) for k in range(BANDS + 1)]
    return [edges[k + 1] - edges[k] for k in range(BANDS)]


def free_place(blocked):
    """The place nearest the middle that no interval holds: an end of the stretch that the intervals about the middle make together."""
    low = high = 0.0
    while True:
        wider = [(start, end) for start, end in blocked if start < high and end > low and (start < low or end > high)]
        if not wider:
            return high if high <= -low else low
        low, high = min([low] + [w[0] for w in wider]), max([high] + [w[1] for w in wider])


def packed(litters, most, height, largest, room):
    """Each litter's place, none over another: (litter, x, y, r), x from the middle. None where they do not fit within the room on either side."""
    placed = []
    for litter in litters:
        # The area follows the pups.
        y, r = height * (1 - litter.affected / litter.total), largest * max(0.2, math.sqrt(litter.total / most))
        blocked = []
        for _, px, py, pr in placed:
            reach = r + pr + 0.6
            if abs(y - py) < reach:
                w = math.sqrt(reach**2 - (y - py) ** 2)
                blocked.append((px - w, px + w))
        x = free_place(blocked)
        if abs(x) + r > room:
            return None
        placed.append((litter, x, y, r))
    return placed


def swarm(litters, most, height, room):
    """The litters as large as they fit beside each other. So many that they do not fit at all lie over each other, spread over the room."""
    litters = sorted(litters, key=lambda x: (x.affected / x.total, -x.total))
    for largest in (10, 8.5, 7, 6, 5, 4, 3.2, 2.5, 2):
        placed = packed(litters, most, height, largest, room)
        if placed:
            return placed
    return [(x, room * (2 * (i * 0.618034 % 1) - 1), height * (1 - x.affected / x.total), 2.0) for i, x in enumerate(litters)]


def words(r, g):
    """What a panel shows, in a sentence."""
    group = r.groups[g]
    own = [x for x in r.table.litters if x.group == g]
    low, high = min(x.affected / x.total for x in own), max(x.affected / x.total for x in own)
    said = f"{group.label}: {len(own)} litters, from {100 * low:.0f} % to {100 * high:.0f} % of their pups affected."
    if r.answer.answered:
        said += f" Fitted share {100 * group.share.value:.1f} %"
        if group.share_interval:
            said += f", 95 % interval {100 * group.share_interval[0].value:.1f} % to {100 * group.share_interval[1].value:.1f} %"
        said += "."
    return said


def panel(r, g, x, y, width, height, most, largest):
    """One group: on the left the fitted distribution of litters, on the right the litters."""
    group, cls = r.groups[g], f"g{g}"
    own = [litter for litter in r.table.litters if litter.group == g]
    left, middle = x + 46, x + 46 + 0.30 * (width - 46)
    right = x + width
    out = []
    for k in range(0, 101, 20):
        at = y + height * (1 - k / 100)
        out.append(f'<line class="grid" x1="{left:.1f}" x2="{right:.1f}" y1="{at:.1f}" y2="{at:.1f}"/>')
        out.append(f'<text class="soft" x="{left - 6:.1f}" y="{at + 4:.1f}" text-anchor="end">{k} %</text>')
    if r.answer.answered:
        room = middle - left - 4
        step = height / BANDS
        for k, part in enumerate(bands(group.mean.value, group.sd.value)):
            w = room * part / largest
            if w > 0.2:
                out.append(f'<rect class="dist {cls}" x="{left:.1f}" y="{y + height - (k + 1) * step + 0.5:.1f}" width="{w:.1f}" height="{step - 1:.1f}"/>')
        if group.share_interval:
            low, high = (y + height * (1 - p.value) for p in group.share_interval)
            out.append(f'<rect class="range {cls}" x="{left:.1f}" y="{high:.1f}" width="{right - left:.1f}" height="{max(low - high, 0.5):.1f}"/>')
        at = y + height * (1 - group.share.value)
        out.append(f'<line class="mean {cls}" x1="{left:.1f}" x2="{right:.1f}" y1="{at:.1f}" y2="{at:.1f}"/>')
    centre = (middle + right) / 2
    # A diamond reaches a quarter further than its circle.
    for litter, px, py, pr in swarm(own, most, height, (right - middle) / 2 - 4):
        cx, cy = centre + px, y + py
        label = html.escape(f"{litter.name + ': ' if litter.name else ''}{litter.affected} of {litter.total} affected (line {litter.line})")
        if g == 0:
            shape = f'<circle class="dot {cls}" cx="{cx:.1f}" cy="{cy:.1f}" r="{pr:.1f}">'
            end = "</circle>"
        else:
            d = pr * 1.25
            shape = f'<path class="dot {cls}" d="M{cx:.1f} {cy - d:.1f}l{d:.1f} {d:.1f}l{-d:.1f} {d:.1f}l{-d:.1f} {-d:.1f}z">'
            end = "</path>"
        out.append(f"{shape}<title>{label}</title>{end}")
    title = group.label if len(group.label) <= 30 else group.label[:29] + "…"
    out.append(f'<text class="name" x="{left:.1f}" y="{y - 20:.1f}">{html.escape(title)}</text>')
    if r.answer.answered:
        said = f"fitted share {100 * group.share.value:.1f} %"
        if group.share_interval:
            said += f" ({100 * group.share_interval[0].value:.1f} to {100 * group.share_interval[1].value:.1f} %)"
        out.append(f'<text class="soft" x="{right:.1f}" y="{y - 20:.1f}" text-anchor="end">{said}</text>')
    out.append(f'<text class="soft" x="{left:.1f}" y="{y + height + 30:.1f}">litters by the fit</text>')
    out.append(f'<text class="soft" x="{centre:.1f}" y="{y + height + 30:.1f}" text-anchor="middle">litters of the table, size by pups</text>')
    return out


def scales(r):
    most = max(litter.total for litter in r.table.litters)
    largest = max([max(bands(g.mean.value, g.sd.value)) for g in r.groups] if r.answer.answered else [1.0])
    return most, largest


def svg(r, groups=(0, 1), style=True, ids="picture"):
    """The panels of the groups, side by side, as one SVG. With its style it stands alone."""
    width, height, gap, top = 380, 300, 24, 46
    most, largest = scales(r)
    across = len(groups) * width + (len(groups) - 1) * gap + 10
    out = [f'<svg class="lf" xmlns="http://www.w3.org/2000/svg" viewBox="-10 0 {across + 10} {height + top + 46}" role="img" aria-labelledby="{ids}-title {ids}-desc">']
    out.append(f'<title id="{ids}-title">Share of affected pups in each litter, with the fit: {html.escape(" and ".join(r.groups[g].label for g in groups))}</title>')
    out.append(f'<desc id="{ids}-desc">{html.escape(" ".join(words(r, g) for g in groups))}</desc>')
    if style:
        out.append(f"<style>{STYLE}</style>")
        out.append(f'<rect class="paper" x="-10" width="{across + 10}" height="{height + top + 46}"/>')
    for i, g in enumerate(groups):
        out += panel(r, g, i * (width + gap), top, width, height, most, largest)
    out.append("</svg>")
    return "\n".join(out) + "\n"


def characters(r):
    """The picture for a terminal: how many litters have their share in each band, and where the fitted share stands."""
    columns = 51
    indent = max(len(g.label[:12]) for g in r.groups) + 2
    out = ["  Each litter by its share of affected pups (a digit counts litters, + is ten or more)"]
    for g, group in enumerate(r.groups):
        counts = [0] * columns
        for litter in r.table.litters:
            if litter.group == g:
                counts[(litter.affected * (columns - 1) * 2 + litter.total) // (2 * litter.total)] += 1
        out.append("  " + group.label[:12].ljust(indent) + "|" + "".join(" " if c == 0 else str(c) if c < 10 else "+" for c in counts) + "|")
        if r.answer.answered:
            line = [" "] * columns
            if group.share_interval:
                low, high = (round(p.value * (columns - 1)) for p in group.share_interval)
                line[low : high + 1] = "-" * (high - low + 1)
            line[round(group.share.value * (columns - 1))] = "^"
            out.append("  " + "fit".ljust(indent) + "|" + "".join(line) + "|")
    scale = [" "] * (columns + 6)
    for k in (0, 20, 40, 60, 80, 100):
        at = k * (columns - 1) // 100
        scale[at : at + len(str(k))] = str(k)
    out.append("  " + " " * (indent + 1) + "".join(scale).rstrip() + " %")
    if r.answer.answered:
        out.append("  (^ the fitted share, - its 95 % interval)" if any(g.share_interval for g in r.groups) else "  (^ the fitted share)")
    return out
