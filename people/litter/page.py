"""The report as one HTML file that needs no network."""
import html

from . import picture, words

STYLE = """
:root{color-scheme:light dark;--ink:#1b1f24;--soft:#59636e;--line:#d1d9e0;--paper:#fff;--shade:#f6f8fa}
@media (prefers-color-scheme:dark){:root{--ink:#e6edf3;--soft:#9da7b1;--line:#3d444d;--paper:#0d1117;--shade:#161b22}}
*{box-sizing:border-box}
body{margin:0 auto;max-width:54rem;padding:1.25rem;background:var(--paper);color:var(--ink);font:16px/1.5 system-ui,-apple-system,"Segoe UI",Roboto,"Liberation Sans",Arial,sans-serif}
h1{font-size:1.5rem;margin:.2rem 0 1rem;overflow-wrap:anywhere}
h2{font-size:1.1rem;margin:2rem 0 .5rem}
p{margin:.5rem 0;max-width:46rem}
.wide{overflow-x:auto}
table{border-collapse:collapse;width:100%;font-variant-numeric:tabular-nums}
caption{text-align:left;color:var(--soft);padding:.2rem 0}
th,td{padding:.25rem .5rem;border-bottom:1px solid var(--line);text-align:right;vertical-align:top}
td{white-space:nowrap}
th{font-weight:600;max-width:16rem;overflow-wrap:break-word}
th:first-child,td.text{text-align:left}
tbody th{font-weight:400}
tbody th.under{padding-left:1.6rem;color:var(--soft)}
td.from{color:var(--soft);text-align:left}
.bits{display:block;font:.75rem/1.4 ui-monospace,Menlo,Consolas,"Liberation Mono",monospace;color:var(--soft)}
figure{margin:1rem 0;display:flex;flex-wrap:wrap;gap:.5rem 1rem}
figure svg{flex:1 1 20rem;min-width:0;max-width:100%;height:auto}
figcaption{flex-basis:100%;color:var(--soft);font-size:.9rem}
@media (max-width:30rem){body{padding:.75rem;font-size:15px}th,td{padding:.25rem .3rem}}
@media print{:root{--ink:#000;--soft:#333;--line:#999;--paper:#fff;--shade:#fff}body{max-width:none;padding:0;font-size:10.5pt}h2{break-after:avoid}figure,tr{break-inside:avoid}.wide{overflow:visible}}
""".strip()


def cell(line, i, show_bits):
    out = html.escape(line.cells[i])
    if show_bits and line.bits and line.bits[i]:
        out += f' <span class="bits">{line.bits[i]}</span>'
    return out


def section(s, show_bits):
    out = [f"<section><h2>{html.escape(s.title)}</h2>"]
    if s.rows:
        wide = max(len(line.cells) for line in s.rows)
        out.append('<div class="wide"><table><thead><tr><th scope="col">&nbsp;</th>')
        heads = s.head or ["Number"]
        out += [f'<th scope="col">{html.escape(h)}</th>' for h in heads]
        out.append('<th scope="col" style="text-align:left">From</th></tr></thead><tbody>')
        for line in s.rows:
            under = ' class="under"' if line.depth else ""
            out.append(f'<tr><th scope="row"{under}>{html.escape(line.label)}</th>')
            if len(line.cells) < wide:
                out.append(f'<td colspan="{wide}">{cell(line, 0, show_bits)}</td>')
            else:
                out += [f"<td>{cell(line, i, show_bits)}</td>" for i in range(wide)]
            out.append(f'<td class="from">{line.source}</td></tr>')
        out.append("</tbody></table></div>")
    out += [f"<p>{html.escape(sentence)}</p>" for sentence in s.sentences]
    out.append("</section>")
    return "\n".join(out)


def figure(r):
    caption = "Each mark is a litter: its height is the share of its pups that are affected, its area the number of pups."
    if r.answer.answered:
        caption += " The line is the fitted share of the group, the band about it the 95 % interval where there is one. The bars on the left show how the fit spreads the litters of a group over the shares, in bands of 5 %."
    svgs = [picture.svg(r, (g,), style=False, ids=f"group{g}") for g in (0, 1)]
    return '<figure aria-describedby="litters">\n' + "".join(svgs) + f"<figcaption>{caption} The same litters stand in the table at the end.</figcaption></figure>"


def litters(r):
    """The table behind the picture."""
    t = r.table
    out = ['<section><h2>The litters</h2><div class="wide"><table id="litters"><caption>What the picture shows, litter by litter.</caption><thead><tr><th scope="col">Line</th>']
    if t.named:
        out.append('<th scope="col" style="text-align:left">Name</th>')
    out.append('<th scope="col" style="text-align:left">Group</th><th scope="col">Affected</th><th scope="col">Pups</th><th scope="col">Share</th></tr></thead><tbody>')
    for x in t.litters:
        name = f'<td class="text">{html.escape(x.name)}</td>' if t.named else ""
        out.append(f'<tr><th scope="row">{x.line}</th>{name}<td class="text">{html.escape(t.labels[x.group])}</td><td>{x.affected}</td><td>{x.total}</td><td>{100 * x.affected / x.total:.1f} %</td></tr>')
    out.append("</tbody></table></div></section>")
    return "\n".join(out)


def page(r, name, show_bits=False):
    first, *rest = words.sections(r)
    body = [f"<h1>Litterfit: {html.escape(name)}</h1>", section(first, show_bits), figure(r)] + [section(s, show_bits) for s in rest] + [litters(r)]
    return (
        '<!DOCTYPE html>\n<html lang="en">\n<head>\n<meta charset="utf-8">\n<meta name="viewport" content="width=device-width, initial-scale=1">\n'
        f"<title>Litterfit: {html.escape(name)}</title>\n<style>\n{STYLE}\n{picture.STYLE}\n</style>\n</head>\n<body>\n<main>\n" + "\n".join(body) + "\n</main>\n</body>\n</html>\n"
    )
