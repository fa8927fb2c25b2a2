"""The command `bnc-report`."""
import sys
from typing import Optional

from . import faults
from .certificate import Head, Text, opened
from .check import check
from .faults import JOURNAL, Fault
from .journal import Search, read_search
from .model import judged
from .progress import Progress
from .report import Source, digest_of_file, page_of
from .report_html import html
from .tree import Shape
from .words import Parser, add_upper

ABOUT = "Makes a page of a certificate: the answer, the tree of nodes, the cuts, and the arithmetic of each derived line."
MORE = """\
The page is HTML, on standard output. It needs no network and no other file. With the journal it shows the better points over the nodes, too.
The certificate is checked first; where it doesn't hold, there is no page."""


def parser() -> Parser:
    made = Parser("bnc-report", ABOUT, MORE, reads_journal=True)
    made.add_argument("model", metavar="MODEL", help="the model, in free MPS")
    made.add_argument("certificate", metavar="CERT", help="its certificate")
    made.add_argument("journal", metavar="JOURNAL", nargs="?", help="the journal of the search that made the certificate")
    add_upper(made)
    return made


def nodes_of(shape: Shape) -> int:
    """How many nodes the tree of a certificate has."""
    return 2 * len(shape.splits) + 1


def same_search(path: str, search: Search, shape: Shape) -> Search:
    """`Fault`: the search isn't the one that made the certificate."""
    if search.open() > 0:
        raise Fault(JOURNAL, path, f"the search isn't finished: {search.open()} of {search.nodes} nodes are open")
    if search.nodes != nodes_of(shape):
        raise Fault(JOURNAL, path, f"is of another search: it has {search.nodes} nodes, and the certificate {nodes_of(shape)}")
    return search


def source_of(asked, text: Text, progress: Progress) -> Source:
    """Reads and checks all that a page is made from."""
    model_text = faults.whole(asked.model)
    model = judged(asked.model, model_text, asked.upper)
    shape = Shape()
    head: Head = check(text, model, progress, shape.see)
    shape.head = head
    search: Optional[Search] = None
    if asked.journal:
        search = same_search(asked.journal, read_search(asked.journal, model_text, model), shape)
    return Source(asked.model, model_text, model, asked.certificate, head, shape, digest_of_file(text.file), search, asked.journal or "")


def action(words: list[str]) -> int:
    asked = parser().parse_args(words)
    progress = Progress("bnc-report")
    with opened(asked.certificate) as file:
        text = Text(file, asked.certificate)
        try:
            source = source_of(asked, text, progress)
        finally:
            progress.end()
        text.go_to(source.head.mark)
        page = page_of(source, text)
    sys.stdout.reconfigure(encoding="utf-8", errors="backslashreplace")
    sys.stdout.write(html(page))
    return 0


def main(words=None) -> int:
    return faults.run("bnc-report", action, sys.argv[1:] if words is None else words)
