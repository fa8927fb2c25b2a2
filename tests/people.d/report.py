#!/usr/bin/env python3
"""Tests bnc-report: the page in a real headless browser, where there is one, and bad input.

  tests/people.d/report.py PROGRAM [--pictures FOLDER]

PROGRAM is the built bnc. With --pictures it writes pictures of a page into FOLDER: docs/images has those of the documentation.
"""
import argparse
import fcntl
import os
import re
import subprocess
import sys
from fractions import Fraction

import browser
import models
import written
from people import TOOLS, Skipped, Tests, example, inside, need
from bnc_tools import report
from bnc_tools.journal import encodings, read_search, records, single_events
from bnc_tools.model import read_model

FIRST = "a knapsack with its journal"
SIZES = (("wide", 1280, 800), ("phone", 390, 844))
NUMBER = re.compile(r"-?[0-9]+(/[0-9]+)?")
SIGNS = ("\u2265", "\u2264", "=")


# ---- pages

def made(tests, name, *words):
    """Writes the page of a certificate, and gives its path."""
    done = inside("bnc-report", *words)
    need((done.status, done.error) == (0, ""), f"{name}: {done.status} {done.error}")
    return tests.path(name + ".html", done.out.encode("utf-8"))


def knapsack(tests):
    """A knapsack with a tree of some hundred nodes: the paths of its model, journal and certificate."""
    if not hasattr(tests, "knapsack"):
        tests.knapsack = tests.solve("knapsack", models.knapsack(5, 14, 4), "--cuts", "6")[:3]
    return tests.knapsack


def profits(tests):
    """The same knapsack, maximised."""
    if not hasattr(tests, "profits"):
        tests.profits = tests.solve("profits", models.maximised(models.knapsack(5, 14, 4)), "--cuts", "6")[:3]
    return tests.profits


def pages(tests):
    """The pages that the browser loads: what they are, and their paths."""
    model, journal, certificate = knapsack(tests)
    found = [(FIRST, made(tests, "k", model, certificate, journal)), ("a knapsack", made(tests, "p", model, certificate))]
    model, journal, certificate = profits(tests)
    found.append(("a maximised knapsack with its journal", made(tests, "x", model, certificate, journal)))
    for name in ("blend", "coins", "one"):
        model, journal, certificate, _ = tests.solve(name, example(name))
        found.append((name, made(tests, name, model, certificate, journal)))
    found.append(("a maximised model", made(tests, "m", tests.path("m.mps", written.MAXIMISED), tests.path("m.cert", written.MAX_CUT))))
    for title, text, certificate, _ in written.TAKEN:
        if title in ("an E row that is derived, and shows both directions", "a bound from a point (sol)", "a split", "an absurd sum of the other sense"):
            found.append((title, made(tests, f"t{len(found)}", tests.path("t.mps", text), tests.path("t.cert", certificate))))
    return found


def alone(tests):
    """a page needs nothing from outside, and says all of the answer without its script"""
    with open(made(tests, "k", *(knapsack(tests)[at] for at in (0, 2, 1))), encoding="utf-8") as file:
        text = file.read()
    for word in ("src=", "@import", "url(", "http://", "https://"):
        need(word not in text.replace("http://www.w3.org/2000/svg", ""), f"it has {word}")
    static = text[:text.index('<script type="application/json"')]
    for word in ("Optimal: -366", "x13", "All 327 derived lines", "Rows at this point", "nodes settled"):
        need(word in static, f"{word} is missing")
    return f"{len(text):,} bytes"


def names_that_hurt(tests):
    """names and titles with marks of HTML are shown as they are, and run nothing"""
    text = written.MAXIMISED.replace("NAME two", "NAME </script><b>&amp;").replace(" x ", " <i>&lt;</script> ")
    certificate = written.MAX_CUT.replace("\nx\n", "\n<i>&lt;</script>\n")
    path = made(tests, "h", tests.path("h.mps", text), tests.path("h.cert", certificate))
    with open(path, encoding="utf-8") as file:
        page = file.read()
    need(page.count("</script>") == 2 and "<i>" not in page and "&lt;i&gt;&amp;lt;&lt;/script&gt;" in page, "a name isn't escaped")


def left_out(tests):
    """where not all has room, the page says what is left out, and keeps what is nearest to the root"""
    model, certificate = tests.path("e.mps", models.equation(9, 7)), tests.path("e.cert", models.equation_certificate(9, 7))
    kept = report.MOST_NODES, report.MOST_BYTES, report.MOST_MASKS
    report.MOST_NODES, report.MOST_BYTES, report.MOST_MASKS = 101, 9_000, 50
    try:
        path = made(tests, "e", model, certificate)
    finally:
        report.MOST_NODES, report.MOST_BYTES, report.MOST_MASKS = kept
    with open(path, encoding="utf-8") as file:
        page = file.read()
    need("The picture has the 101 nodes nearest to the root. 318 nodes below them are left out." in page, "the picture doesn't say what is left out")
    found = re.search(r"This page has ([0-9]+) of 837 lines", page)
    need(found and 20 < int(found[1]) < 200, f"{found}")
    tests.cut_page = path
    return found[0]


# ---- the page's arithmetic, from its own text

def row_of(text):
    """A row from the text that the page shows: coefficients by name, sign, right side."""
    *words, sign, side = text.split(" ")
    need(sign in SIGNS, f"no row: {text}")
    terms, factor, number = {}, 1, None
    for word in words:
        if word in ("+", "-"):
            factor = -1 if word == "-" else 1
        elif NUMBER.fullmatch(word):
            number = Fraction(word)
        else:
            if word.startswith("-"):
                factor, word = -1, word[1:]
            terms[word] = terms.get(word, 0) + factor * (1 if number is None else number)
            factor, number = 1, None
    return {name: value for name, value in terms.items() if value}, sign, Fraction(side)


READ_LINE = """(() => {
  const line = document.querySelector(%r);
  line.querySelectorAll(".row button").forEach(button => button.click());
  return {row: line.querySelector("p .row").textContent, rounding: line.querySelector(".rounding")?.textContent ?? null,
    verdicts: [...line.querySelectorAll(".verdict")].map(one => [one.className, one.textContent]),
    parts: [...line.querySelectorAll("tr.part")].map(part => [...part.cells].map(cell => cell.textContent)),
    sum: line.querySelector("tr.sum td:last-child")?.textContent ?? null};
})()"""


def check_line(shown):
    """Adds up what the page shows of a line, and sees that the sum, its rounding and its end are right."""
    total, side = {}, Fraction(0)
    for _, row, times, gives in shown["parts"]:
        terms, _, right = row_of(row)
        factor = Fraction(times)
        need(row_of(gives)[0] == {name: factor * value for name, value in terms.items() if factor} and row_of(gives)[2] == factor * right,
             f"{row} times {times} is not {gives}")
        for name, value in terms.items():
            total[name] = total.get(name, 0) + factor * value
        side += factor * right
    total = {name: value for name, value in total.items() if value}
    terms, sign, right = row_of(shown["sum"])
    need((terms, right) == (total, side), f"the parts add up to {total} and {side}, and the page says {shown['sum']}")
    if shown["rounding"]:
        up = sign == "\u2265"
        right = Fraction(-(-right // 1) if up else right // 1)
        need(spelt(right) in shown["rounding"] and all(value.denominator == 1 for value in terms.values()), shown["rounding"])
    wanted_terms, wanted_sign, wanted = row_of(shown["row"])
    absurd = not terms and (right > 0 if sign == "\u2265" else right < 0 if sign == "\u2264" else right != 0)
    tight = right >= wanted if wanted_sign == "\u2265" else right <= wanted if wanted_sign == "\u2264" else right == wanted
    need(absurd or terms == wanted_terms and tight, f"{shown['sum']} doesn't show {shown['row']}")


def spelt(value):
    return str(value)


# ---- the browser

def no_faults(page, what):
    need(not page.faults, f"{what}: {page.faults}")


def check_sizes(page, what, path):
    """The page at each size, one also in the dark form: no fault, and nothing wider than the window."""
    is_first = what == FIRST
    for name, width, height in SIZES if is_first or what == "blend" else SIZES[:1]:
        for dark in (False, True) if is_first else (False,):
            page.size(width, height, dark)
            page.load(path)
            need(page.value("document.documentElement.scrollWidth") <= width, f"{what} is wider than {width}")
            no_faults(page, f"{what}, {name}")


def settle(page):
    """Waits until the page has done what it was asked to, and is laid out anew."""
    page.value("new Promise(done => setTimeout(done, 5))")


def click(page, selector):
    """A click of the mouse in the middle of an element."""
    settle(page)
    x, y = page.value(f"""(() => {{ const element = document.querySelector({selector!r}); element.scrollIntoView({{block: "center", behavior: "instant"}});
      const box = element.getBoundingClientRect(); return [box.x + box.width / 2, box.y + box.height / 2]; }})()""")
    for kind in ("mousePressed", "mouseReleased"):
        page.call("Input.dispatchMouseEvent", type=kind, x=x, y=y, button="left", clickCount=1)
    settle(page)


def press(page, key):
    for kind in ("keyDown", "keyUp"):
        page.call("Input.dispatchKeyEvent", type=kind, key=key, code=key)


def check_nodes(page, what):
    """Opens each node that is shown, by a click, and adds up its line."""
    count = 0
    for node in page.value("[...document.querySelectorAll('.node')].map(one => one.dataset.node)")[:10]:
        click(page, f"[data-node='{node}'] rect")
        label = page.value(f"document.querySelector('[data-node=\"{node}\"] text').textContent")
        title = page.value("document.querySelector('#panel h3').textContent")
        need(title.startswith(label + ":"), f"{what}: a click on {label} opens {title}")
        shown = page.value(READ_LINE % "#panel")
        need(all(name == "verdict" for name, _ in shown["verdicts"]), f"{what}: {shown['verdicts']}")
        if shown["parts"]:
            check_line(shown)
            count += 1
    return count


def check_lines(page, what):
    """Opens lines of the list, by a click, and adds them up."""
    count = 0
    for number in page.value("[...document.querySelectorAll('#list .line')].map(one => one.dataset.line)")[:14]:
        item = f"#line-{number}"
        click(page, f"{item} > summary")
        need(page.value(f"document.querySelector('{item}').open"), f"{what}: line {number} doesn't open")
        if page.value(f"document.querySelector('{item} .arithmetic') !== null"):
            shown = page.value(READ_LINE % item)
            need(len(shown["verdicts"]) == 1 and shown["verdicts"][0][0] == "verdict", f"{what}: {shown['verdicts']}")
            check_line(shown)
            count += 1
    return count


def in_browser(tests):
    """in the browser: no script error and no request at two sizes, light and dark; nodes and lines open, and their arithmetic adds up"""
    nodes = lines = count = 0
    page = started(tests)
    for what, path in pages(tests):
        check_sizes(page, what, path)
        page.size(1280, 800)
        nodes += check_nodes(page, what)
        lines += check_lines(page, what)
        no_faults(page, what)
        count += 1
    return f"{count} pages; {nodes} nodes and {lines} lines added up"


def started(tests):
    """The browser, which all cases share. It ends with the tests."""
    if browser.program() is None:
        raise Skipped("no Chromium is installed (Debian: apt-get install chromium)")
    if not hasattr(tests, "browser"):
        tests.browser = tests.held.enter_context(browser.Browser())
    return tests.browser


def folding(tests):
    """in the browser: the tree folds by mouse and by keys, the way to the best point opens, a line is found and linked"""
    model, journal, certificate = knapsack(tests)
    page = started(tests)
    page.size(1280, 800)
    page.load(made(tests, "k", model, certificate, journal))
    shown = "document.querySelectorAll('.node').length"
    before = page.value(shown)
    click(page, "[data-fold='1'] circle")
    need(page.value(shown) < before and page.value("document.querySelector('[data-node=\"1\"]').getAttribute('aria-expanded')") == "false", "no fold")
    page.value("focusNode(1)")
    press(page, "ArrowRight")
    need(page.value(shown) == before, "the right arrow doesn't unfold")
    press(page, "ArrowRight")
    press(page, "Enter")
    need(page.value("document.activeElement.dataset.node") == page.value("String(children[1][0])"), "the right arrow doesn't go to the child")
    click(page, "#fewer")
    need(page.value(shown) < before, "Fewer levels shows as many nodes")
    click(page, "#best")
    need("it has the best point" in page.value("document.querySelector('#panel h3').textContent"), "the way to the best point")
    page.value("document.querySelector('#find').value = 'n0'; find()")
    need(page.value("document.querySelectorAll('#list .line').length") >= 1, "no line is found")
    click(page, "#list .line > summary")
    click(page, "#list .line li .link")
    need(page.value("document.querySelectorAll('.line.shown').length") == 1, "a link opens no line")
    no_faults(page, "folding")
    if hasattr(tests, "cut_page"):
        page.load(tests.cut_page)
        check_nodes(page, "a page with lines left out")
        no_faults(page, "a page with lines left out")


# ---- bad input

def bad_input(tests):
    """files that aren't there, a certificate that doesn't hold, another model's: one line, and no page"""
    model, journal, certificate = knapsack(tests)
    none = tests.path("none")
    inside("bnc-report", none, certificate).need_refused(5, "none: can't be read")
    inside("bnc-report", model, none).need_refused(5, "none: can't be read")
    inside("bnc-report", model, certificate, none).need_refused(5, "none: can't be read")
    inside("bnc-report", model, certificate, tests.folder.name).need_refused(5, "can't be read: is a directory")
    inside("bnc-report", tests.path("o.mps", example("coins")), certificate).need_refused(1, "the certificate has 14 columns, and the model 2")
    with open(certificate, "rb") as file:
        text = file.read()
    inside("bnc-report", model, tests.path("w.cert", text.replace(b"RTP range -366", b"RTP range -365"))).need_refused(1, "w.cert:")
    inside("bnc-report", model, tests.path("w.cert", text[:-40])).need_refused(1, "a part of a certificate")
    inside("bnc-report", model).need_refused(2, "bnc-report --help")
    done = subprocess.run(["sh", "-c", '"$0" "$1" "$2" | head -c 10', os.path.join(TOOLS, "bnc-report"), model, certificate], capture_output=True, timeout=300)
    need((done.stdout, done.stderr) == (b"<!doctype ", b""), f"a reader that goes away: {done.stderr}")


def journals(tests):
    """a journal that is cut or changed here and there, of another model, of a search that isn't finished, or in use"""
    model, journal, certificate, _ = tests.solve("b", example("blend"))
    with open(journal, "rb") as file:
        whole = file.read()
    ends = {}
    for at in range(0, len(whole), 5):
        for content in (whole[:at], whole[:at] + bytes([whole[at] ^ 255]) + whole[at + 1:]):
            done = inside("bnc-report", model, certificate, tests.path("j", content))
            if done.status:
                done.need_refused(4, "j: ")
            ends[done.status] = ends.get(done.status, 0) + 1
    inside("bnc-report", model, certificate, tests.path("j", b"x" * 40)).need_refused(4, "is no journal")
    other = tests.solve("c", example("coins"))[1]
    inside("bnc-report", model, certificate, other).need_refused(4, "is of another model: the two texts differ at byte")
    two = tests.solve("d", example("blend"), "--cuts", "0")
    inside("bnc-report", model, certificate, two[1]).need_refused(4, "is of another search: it has")
    with open(journal, "rb") as held:
        fcntl.flock(held, fcntl.LOCK_EX)
        if os.path.exists("/proc/locks"):
            inside("bnc-report", model, certificate, journal).need_refused(4, "is in use: a run writes it")
    need(inside("bnc-report", model, certificate, journal).status == 0, "the whole journal is refused")
    return f"{ends.get(4, 0)} journals refused, {ends.get(0, 0)} taken"


def older_form(tests):
    """a journal in encoding 1 of which each record is one event, as it was before there were groups, tells the same search"""
    model, journal, certificate, _ = tests.solve("b", example("blend"))
    with open(journal, "rb") as file:
        payloads = [content for _, content in records(file, journal)]
    singles = payloads[:1] + [code for payload, encoding in encodings(payloads) for code in single_events(payload, encoding)]
    need(len(singles) >= len(payloads), "there is no group")
    frames = b"".join(b"\x01" + len(payload).to_bytes(4, "little") + payload for payload in singles)
    other = tests.path("b.journal2", b"BNCJRNL1" + frames + b"\x00")
    one, two = inside("bnc-report", model, certificate, journal), inside("bnc-report", model, certificate, other)
    need((two.status, two.error) == (0, "") and two.out == one.out.replace("b.journal", "b.journal2"), f"{two.status} {two.error}")
    return f"{len(singles)} records and {len(payloads)}"


def told_by(paths):
    """The better points, the bounds and the relaxations that a journal tells of its model."""
    model, journal, _ = paths
    with open(model, "rb") as file:
        search = read_search(journal, file.read(), read_model(model))
    return [(point.node, point.value) for point in search.incumbents], search.bounds, sorted((node, value) for node, (value, _) in search.relaxed.items())


def turned_over(tests):
    """the journal of a maximised knapsack tells what that of the minimised one does, with the other sign"""
    least, greatest = told_by(knapsack(tests)), told_by(profits(tests))
    need(greatest == tuple([(at, -value) for at, value in found] for found in least), f"{least} and {greatest}")
    return f"{len(least[0])} points, {len(least[1])} bounds, {len(least[2])} relaxations"


# ---- pictures

def pictures(tests, folder):
    """Pictures of the knapsack's page, for the documentation."""
    model, journal, certificate = knapsack(tests)
    path = made(tests, "k", model, certificate, journal)
    with browser.Browser() as page:
        for name, width, height in SIZES:
            page.size(width, height)
            page.load(path)
            page.picture(os.path.join(folder, f"report_{name}.png"))
            page.value("document.querySelector('#tree').scrollIntoView({behavior: 'instant'})")
            page.picture(os.path.join(folder, f"report_tree_{name}.png"))
        page.size(1280, 800, dark=True)
        page.load(path)
        page.value("document.querySelector('#search').scrollIntoView({behavior: 'instant'})")
        page.picture(os.path.join(folder, "report_dark.png"))


CASES = [alone, names_that_hurt, left_out, in_browser, folding, bad_input, journals, older_form, turned_over]


def main():
    parser = argparse.ArgumentParser(usage="report.py PROGRAM [--pictures FOLDER]")
    parser.add_argument("program")
    parser.add_argument("--pictures")
    asked = parser.parse_args()
    tests = Tests(asked.program)
    if asked.pictures:
        pictures(tests, asked.pictures)
        return 0
    return tests.run(CASES)


if __name__ == "__main__":
    sys.exit(main())
