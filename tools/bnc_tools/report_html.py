"""The text of the page that bnc-report makes: what stands there without the script."""
import os
from html import escape

from . import chart
from .exact import Number, decimal, spelt
from .faults import counted
from .report import MOST_CUTS, Page, best_values, digest, kinds_of, script_data
from .solution import Activity, activities
from .tree import BOUND, EMPTY, INFEASIBLE, OTHER, SPLIT

HERE = os.path.dirname(os.path.abspath(__file__))
MOST_ROWS = 2_000  # rows and columns in a table
WORDS = {SPLIT: "split in two", BOUND: "closed by a bound", INFEASIBLE: "closed: infeasible", EMPTY: "closed: two bounds cross",
         OTHER: "another line"}


def part(name: str) -> str:
    """A file that the page is made of."""
    with open(os.path.join(HERE, name), encoding="utf-8") as file:
        return file.read()


def cell(value: Number) -> str:
    """A number in a table, a fraction with its decimals."""
    return escape(spelt(value)) + (f' <span class="quiet">({decimal(value)})</span>' if value.denominator != 1 else "")


# ---- sections

def header(page: Page) -> str:
    source, claim = page.source, page.source.head.claim
    direction = "maximised" if source.head.maximise else "minimised"
    if claim.infeasible:
        shown = "No feasible point"
    elif claim.low is not None and claim.low == claim.high:
        shown = f"Optimal: {escape(spelt(claim.low))} <small>{also(claim.low)}{direction}</small>"
    else:
        low, high = ("none" if end is None else spelt(end) for end in (claim.low, claim.high))
        shown = f"Between {low} and {high} <small>{direction}</small>"
    title = source.model.title or os.path.basename(source.model_path)
    return (f'<p class="eyebrow">Report of a certificate</p><h1>{escape(title)}</h1><p class="claim">{shown}</p>'
            f'<p class="checked">\u2713 All {counted(source.head.derived, "derived line")} of the certificate hold.</p>')


def also(value: Number) -> str:
    return "" if value.denominator == 1 else f"= {decimal(value)}, " if not decimal(value).startswith("about") else f"{decimal(value)}, "


def answer(page: Page) -> str:
    """The values of the best listed point."""
    values = best_values(page.source)
    if values is None:
        return f"<p>{'No point satisfies all rows and bounds.' if page.source.head.claim.infeasible else 'The certificate lists no point.'}</p>"
    names = page.source.head.names
    rows = [f'<tr><td class="name">{escape(name)}</td><td class="n">{spelt(values[at])}</td></tr>'
            for at, name in enumerate(names) if values.get(at, 0) != 0]
    zeros = [name for at, name in enumerate(names) if values.get(at, 0) == 0]
    made = scrolled(table(["Column", "#Value"], rows)) if rows else "<p>Each column is 0.</p>"
    if zeros and rows:
        shown = ", ".join(escape(name) for name in zeros[:MOST_ROWS]) + (" .." if len(zeros) > MOST_ROWS else "")
        made += f'<details><summary>{counted(len(zeros), "column")} at 0</summary><p class="quiet">{shown}</p></details>'
    return made


def table(heads: list[str], rows: list[str]) -> str:
    """A table, whose rows are cut off where they are too many. A head with `#` is that of numbers."""
    cells = "".join(f'<th scope="col" class="n">{head[1:]}</th>' if head[0] == "#" else f'<th scope="col">{head}</th>' for head in heads)
    rest = f'<tr><td colspan="{len(heads)}" class="quiet">and {len(rows) - MOST_ROWS:,} more</td></tr>' if len(rows) > MOST_ROWS else ""
    return f"<table><thead><tr>{cells}</tr></thead><tbody>{''.join(rows[:MOST_ROWS])}{rest}</tbody></table>"


def scrolled(content: str) -> str:
    return f'<div class="scroll" tabindex="0">{content}</div>'


def figures(page: Page) -> str:
    """The model in figures."""
    source, model = page.source, page.source.model
    binary = sum(1 for column in model.columns if (column.low, column.high) == (0, 1))
    senses = {sense: sum(1 for row in model.rows if row.sense == sense) for sense in "LGE"}
    entries = sum(len(row.terms) for row in model.rows)
    shown = ", ".join(f"{senses[sense]:,} {word}" for sense, word in (("L", "at most"), ("G", "at least"), ("E", "equal")) if senses[sense])
    facts = [
        ("File", f"<code>{escape(os.path.basename(source.model_path))}</code>"),
        ("Columns", f"{len(model.columns):,}, {binary:,} of them 0 or 1"),
        ("Rows", f"{len(model.rows):,}{': ' + shown if shown else ''}"),
        ("Entries", f"{entries:,}"),
        ("Objective", objective(page)),
    ]
    return facts_list(facts)


def objective(page: Page) -> str:
    """The objective in words; a long one is folded."""
    model = page.source.model
    word = "Maximise" if model.maximise else "Minimise"
    if not model.objective:
        return "none: any feasible point will do"
    text = escape(sum_text([(model.columns[column].name, value) for column, value in model.objective.items()]))
    if len(model.objective) <= 12:
        return f"{word} {text}"
    return f"<details><summary>{word} a sum of {len(model.objective):,} columns</summary>{text}</details>"


def sum_text(terms: list[tuple[str, Number]]) -> str:
    """A sum of columns, as a reader writes it."""
    made = ""
    for name, value in terms[:MOST_ROWS]:
        sign = (" - " if value < 0 else " + ") if made else ("-" if value < 0 else "")
        made += sign + (f"{spelt(abs(value))} " if abs(value) != 1 else "") + name
    return made + (" + .." if len(terms) > MOST_ROWS else "")


def facts_list(facts: list[tuple[str, str]]) -> str:
    return "<dl>" + "".join(f"<dt>{name}</dt><dd>{value}</dd>" for name, value in facts) + "</dl>"


def rows_section(page: Page) -> str:
    """The rows of the model at the best point."""
    values = best_values(page.source)
    if values is None or not page.source.model.rows:
        return ""
    named = {name: values.get(at, 0) for at, name in enumerate(page.source.head.names)}
    made = [row_of_table(row) for row in activities(page.source.model, named)]
    return f"""<section id="rows"><h2>Rows at this point</h2>
<p class="quiet">The slack says how far a row is from the nearer of its sides. Rows without slack are marked.</p>
{scrolled(table(["Row", "#At least", "#Activity", "#At most", "#Slack"], made))}</section>"""


def row_of_table(row: Activity) -> str:
    low, high = ("" if side is None else cell(side) for side in (row.low, row.high))
    mark = ' class="tight"' if row.slack() == 0 else ""
    return (f'<tr{mark}><td class="name">{escape(row.name)}</td><td class="n">{low}</td><td class="n">{cell(row.activity)}</td>'
            f'<td class="n">{high}</td><td class="n">{cell(row.slack())}</td></tr>')


def search_section(page: Page) -> str:
    """What the journal says of the search."""
    search = page.source.search
    if search is None:
        return """<section id="search"><h2>The search</h2><p class="quiet">Give bnc-report the journal, too: then the better points that were
found stand here, and the relaxation\u2019s values at the nodes.</p></section>"""
    facts = facts_list([("Journal", f"<code>{escape(os.path.basename(page.source.journal_path))}</code>"), ("Events", f"{search.events:,}"),
                        ("Nodes", f"{search.nodes:,}"), ("Cuts", f"{search.cuts:,}"), ("Better points", f"{len(search.incumbents):,}")])
    picture = chart.picture(search)
    if picture is None:
        return f'<section id="search"><h2>The search</h2>{facts}<p class="quiet">No point was found.</p></section>'
    rows = [f'<tr><td class="n">{point.ended:,}</td><td class="n">N{point.node}</td><td class="n">{cell(point.value)}</td></tr>'
            for point in search.incumbents]
    return f"""<section id="search"><h2>The search</h2>
<ul class="legend"><li>{stroke("best")} best point so far</li>
<li>{stroke("bound", "5 4")} relaxation of the open nodes, as the journal has it (the certificate doesn\u2019t rest on it)</li></ul>
{picture}
<details><summary>{counted(len(rows), "better point")} and the journal in figures</summary>
{facts}<br>{scrolled(table(["#Nodes settled", "#Node", "#Objective"], rows))}</details></section>"""


def stroke(colour: str, dashes: str = "none") -> str:
    """A piece of a line of the picture, for its legend."""
    return (f'<svg width="26" height="10" aria-hidden="true"><path d="M0 5H26" stroke="var(--{colour})" stroke-width="2" '
            f'stroke-dasharray="{dashes}"/></svg>')


def tree_legend(page: Page) -> str:
    counts = kinds_of(page.tree)
    items = [f'<span class="k-s">N</span>{WORDS[SPLIT]}']
    items += [f'<span class="k-{kind}">N</span>{counts[kind]:,} {WORDS[kind]}' for kind in sorted(counts) if kind in WORDS]
    if page.tree.best is not None:
        items.append('<span class="k-best">N</span>has the best point')
    if page.source.search is not None and page.source.search.incumbents:
        items.append("\u2605 solved: a better point was found there")
    return "".join(f"<li>{item}</li>" for item in items)


def tree_section(page: Page) -> str:
    """The tree; the script draws it."""
    return f"""<section id="tree"><h2>The tree of nodes</h2>
<p class="quiet">A node is a part of the problem: the bounds on the way to it. Each split goes on in two nodes, and each other node is closed for
a reason. Choose a node to see its proof.</p>
<ul class="legend">{tree_legend(page)}</ul>
<div class="bar"><button id="fewer">Fewer levels</button><button id="more">More levels</button>
<button id="best">Way to the best point</button><span class="quiet" id="shown"></span></div>
<div class="treebox"><div class="picture" id="picture"></div><div class="panel" id="panel" aria-live="polite"></div></div>
{left_out_nodes(page)}</section>"""


def left_out_nodes(page: Page) -> str:
    if not page.tree.dropped:
        return ""
    return (f'<p class="quiet">The picture has the {len(page.tree.lines):,} nodes nearest to the root. {page.tree.dropped:,} nodes below them are'
            " left out.</p>")


def cuts_section(page: Page) -> str:
    if not page.cuts:
        return ""
    more = f'<p class="quiet">These are the first {MOST_CUTS}.</p>' if len(page.cuts) == MOST_CUTS else ""
    return f"""<section id="cuts"><h2>{counted(len(page.cuts), "cut")}</h2>
<p class="quiet">Rows that follow from the model\u2019s rows by a sum that is rounded. Each feasible point satisfies them.</p>
<div id="cutlist"></div>{more}</section>"""


def lines_section(page: Page) -> str:
    """All derived lines; the script lists them."""
    gone = ""
    if page.dropped():
        gone = (f'<p class="quiet">This page has {len(page.texts):,} of {page.source.head.derived:,} lines: cuts, and the lines of the nodes nearest'
                " to the root. The others stand in the certificate alone, and were checked like these.</p>")
    return f"""<section id="lines"><h2>All derived lines</h2>
<p class="quiet">Open a line to see its arithmetic: which lines times which numbers, how the sum is rounded, and why it shows the line.</p>{gone}
<div class="bar"><button id="back">Back</button><button id="next">Next</button><span class="quiet" id="range"></span>
<label>Find <input id="find" size="12" placeholder="N0, K2, 40" autocomplete="off"></label></div>
<div id="list"></div></section>"""


def footer(page: Page) -> str:
    source = page.source
    checks = f"bnc-check {os.path.basename(source.model_path)} {os.path.basename(source.certificate_path)}"
    return f"""<p>This page was made by bnc-report, which checked each line of the certificate against the model by the rules of VIPR 1.0. To check
again: <code>{escape(checks)}</code></p>
<p>SHA-256 of the model: <code>{digest(source.model_text)}</code><br>SHA-256 of the certificate: <code>{source.digest}</code></p>"""


def html(page: Page) -> str:
    """The whole page."""
    links = [("answer", "Answer"), ("search", "Search"), ("tree", "Tree"), ("cuts", "Cuts"), ("lines", "Lines")]
    nav = "".join(f'<li><a href="#{name}">{word}</a></li>' for name, word in links if name != "cuts" or page.cuts)
    title = page.source.model.title or os.path.basename(page.source.model_path)
    return f"""<!doctype html>
<html lang="en"><head><meta charset="utf-8"><meta name="viewport" content="width=device-width, initial-scale=1">
<title>{escape(title)}: {escape(page.source.head.claim.told())}</title>
<link rel="icon" href="data:,"><style>
{part("report.css")}</style></head>
<body><header>{header(page)}</header><nav aria-label="Sections"><ul>{nav}</ul></nav>
<main><noscript><p>The tree and the lines need the page\u2019s script. The answer doesn\u2019t.</p></noscript>
<div class="two"><section id="answer"><h2>Answer</h2>{answer(page)}</section>
<section id="model"><h2>Model</h2>{figures(page)}</section></div>
{rows_section(page)}
{search_section(page)}
{tree_section(page)}
{cuts_section(page)}
{lines_section(page)}
</main><footer>{footer(page)}</footer>
<script type="application/json" id="data">{script_data(page)}</script>
<script>
{part("report.js")}</script></body></html>
"""
