"""report.html: the counts as bars, then the missed mutants with their digits drawn one above the other, then all others. One file, without
scripts, that can be sent as it is."""
from html import escape

import words

ROW = 60    # digits in a row; a longer stream goes on below

STYLE = """
body { font: 15px/1.45 system-ui, sans-serif; color: #1c2733; max-width: 72rem; margin: 2rem auto; padding: 0 1rem; }
h1 { font-size: 1.5rem; margin-bottom: .2rem; } h2 { font-size: 1.15rem; margin-top: 2rem; border-bottom: 1px solid #cfd8e0; }
p.lead { color: #4a5a68; margin-top: 0; }
.bar { display: grid; grid-template-columns: 9rem 3rem 1fr; align-items: center; margin: .2rem 0; }
.bar b { text-align: right; padding-right: .8rem; } .bar i { display: block; height: 1.1rem; border-radius: 2px; }
.killed { background: #3a7d5c; } .missed { background: #c0392b; } .none { background: #8aa0b4; } .open { background: #d9a441; }
table { border-collapse: collapse; width: 100%; } td, th { text-align: left; vertical-align: top; padding: .2rem .7rem .2rem 0; border-bottom: 1px solid #e6ebef; }
.figures td:last-child { text-align: right; font-variant-numeric: tabular-nums; white-space: nowrap; }
article { border: 1px solid #d5dde4; border-left: 5px solid #c0392b; border-radius: 4px; padding: .6rem 1rem .8rem; margin: .9rem 0; break-inside: avoid; }
article h3 { margin: 0; font-size: 1rem; } article p { margin: .25rem 0; } .quiet { color: #5b6b79; }
code { font: 13px/1.4 ui-monospace, monospace; background: #f1f4f7; padding: .05rem .3rem; border-radius: 3px; overflow-wrap: anywhere; }
.digits { display: grid; grid-template-columns: 5.2rem 1fr; gap: 1px .4rem; margin: .5rem 0 0; font: 12px/1.5 ui-monospace, monospace; align-items: center; }
.digits span.row { display: flex; flex-wrap: nowrap; gap: 1px; } .digits u { text-decoration: none; min-width: 1.02em; text-align: center; background: #eef2f5; }
.digits u.wide { min-width: 2.1em; } .digits u.one { background: #b9cbdb; } .digits u.dtx { background: #fff; color: #93a1ad; box-shadow: inset 0 0 0 1px #dde4ea; }
.digits u.bad { background: #c0392b; color: #fff; font-weight: bold; } .digits .place { color: #93a1ad; }
"""

CLASSES = {"killed": "killed", "missed": "missed", "no difference": "none", "open": "open"}


def bars(figures):
    """The counts as bars."""
    most = max(figures.count.values())
    return "".join(f'<div class="bar"><span>{kind}</span><b>{figures.count[kind]}</b><i class="{CLASSES[kind]}" '
                   f'style="width:{100 * figures.count[kind] / most:.1f}%"></i></div>' for kind in words.KINDS)


def figure_rows(report):
    """What the counts come to."""
    figures = report.figures()
    rows = [("Score of the bench over all mutants", figures.score(False)), ("Score over those that make a difference", figures.score(True)),
            ("Survivors that a comparison of all pins calls missed, though nothing that is defined differs", figures.wrongly_missed())]
    rows += [(f"No difference: {words.REASONS[reason]}", count) for reason, count in sorted(figures.reasons.items())]
    rows.append((f"Control: mutants that do differ, shown to the prover, and how many it called equal",
                 f"{sum(figures.control.values())}, {figures.control['equal']}"))
    return "".join(f"<tr><td>{escape(name)}</td><td>{value}</td></tr>" for name, value in rows)


def cell(item, other, wide):
    """One digit; it is marked where the other stream has another."""
    kind = "bad" if item != other else "one" if item == "1" else "dtx" if item == "-" else ""
    return f'<u class="{kind}{" wide" if wide else ""}">{escape(item or "·")}</u>'


def digits(said, gave, numbers):
    """Two streams drawn one above the other; of a long one only the rows in which they differ."""
    length = max(len(said), len(gave))
    said, gave = said + [""] * (length - len(said)), gave + [""] * (length - len(gave))
    row, lines, alike = (16 if numbers else ROW), [], 0
    for at in range(0, length, row):
        pairs = list(zip(said[at:at + row], gave[at:at + row]))
        if length > row and all(s == g for s, g in pairs):
            alike += len(pairs)
            continue
        lines.append(f'<span class="place">from {at}</span><span></span>' if length > row else "")
        lines.append('<span>standard</span><span class="row">' + "".join(cell(s, g, numbers) for s, g in pairs) + "</span>")
        lines.append('<span>circuit</span><span class="row">' + "".join(cell(g, s, numbers) for s, g in pairs) + "</span>")
    rest = f"<p class=quiet>the other {alike} are alike</p>" if alike else ""
    return f'<div class="digits">{"".join(lines)}</div>{rest}' if length else ""


def missed_article(report, verdict):
    """A missed mutant."""
    numbers = report.contract.numbers
    before = "".join(f"<p>before it <code>{escape(text)}</code></p>" for text in verdict.texts[:-1])
    power = f" power={verdict.power}" if verdict.power else ""
    drawn = digits(words.run_items(verdict.said, numbers), words.run_items(verdict.gave, numbers), numbers)
    return (f"<article><h3>{verdict.number} &middot; {escape(verdict.lines)}</h3><p class=quiet>{escape(verdict.what)}</p>{before}"
            f"<p>stimulus <code>{escape(verdict.texts[-1] + power)}</code></p><p><b>{escape(words.fault(verdict, numbers))}</b></p>"
            f"<p class=quiet>{escape(verdict.answer)} &middot; {escape(words.debt(verdict, report.owed_of()))}</p>{drawn}</article>")


def owed_rows(report):
    """The lines that are owed."""
    return "".join(f"<tr><td>{one.number}</td><td>{'<br>'.join(f'<code>{escape(line)}</code>' for line in one.lines)}</td>"
                   f"<td>{', '.join(map(str, one.mutants))}</td></tr>" for one in report.owed)


def mutant_rows(report, kind):
    """The mutants of a class, a row each."""
    owed_of = report.owed_of()
    return "".join(f"<tr><td>{v.number}</td><td>{escape(v.lines)}</td><td>{escape(v.what)}</td>"
                   f"<td>{escape(words.summary(v, owed_of, report.contract.numbers))}</td></tr>" for v in report.found if v.kind == kind)


def section(report, kind, title):
    """A table of the mutants of a class, where there are some."""
    rows = mutant_rows(report, kind)
    return f"<h2>{title}</h2><table><tr><th>mutant</th><th>source</th><th>edit</th><th></th></tr>{rows}</table>" if rows else ""


def html(report):
    """The page."""
    c = report.contract
    missed = "".join(missed_article(report, v) for v in report.found if v.kind == "missed") or "<p>None.</p>"
    return (f'<!DOCTYPE html><html lang="en"><meta charset="utf-8"><meta name="viewport" content="width=device-width"><title>{c.circuit}: mutants</title><style>{STYLE}</style>'
            f"<h1>{c.circuit}</h1><p class=lead>{len(report.found)} mutants of seed {report.seed}, judged by <code>{c.call}</code>; bench "
            f"{escape(report.bench)}. {escape(report.anchor())}</p>{bars(report.figures())}<table class=figures>{figure_rows(report)}</table>"
            f"<h2>Missed: the bench owes a line</h2>{missed}<h2>Owed lines</h2><table><tr><th></th><th>line</th><th>for mutants</th></tr>"
            f"{owed_rows(report)}</table>{section(report, 'open', 'Open: neither proved nor seen')}"
            f"{section(report, 'no difference', 'No difference to the standard')}{section(report, 'killed', 'Killed by the bench')}</html>\n")
