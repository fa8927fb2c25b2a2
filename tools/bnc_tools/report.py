"""Makes the page of a certificate: one file of HTML that needs nothing else. docs/TOOLS.md says what it shows."""
import hashlib
import json
import os
from dataclasses import dataclass, field
from typing import Optional

from .certificate import Derived, Head, Text, lines_of
from .check import model_rows, same_row
from .exact import spelt
from .journal import Search
from .model import Model
from .rows import Row, reduced
from .tree import AGAIN, SPLIT, Shape, Tree, masks, reason_text, tree_of, way_to

MOST_NODES = 100_000  # nodes of the tree in a page
MOST_BYTES = 17_500_000  # bytes of data in a page, the model's rows among them
MOST_MASKS = 3_000_000  # bytes of what the lines of nodes assume
MOST_ASSUMED = 200_000  # numbers of assumptions of other lines
FOUND_BYTES = 45  # about what the journal's figures of a node take
MOST_CUTS = 300  # lines in the list of cuts


@dataclass
class Source:
    """The files that a page is made from, and what was read of them."""

    model_path: str
    model_text: bytes
    model: Model
    certificate_path: str
    head: Head
    shape: Shape
    digest: str = ""  # of the certificate
    search: Optional[Search] = None
    journal_path: str = ""


@dataclass
class Page:
    """What a page has: the tree, the derived lines that had room, and those of cuts."""

    source: Source
    tree: Tree
    texts: dict[int, str] = field(default_factory=dict)
    tables: dict[tuple, int] = field(default_factory=lambda: {(): 0})
    cuts: list[int] = field(default_factory=list)
    ranks: dict[int, int] = field(default_factory=dict)
    nodes: set[int] = field(default_factory=set)
    nodes_data: dict = field(default_factory=dict)
    deepest: int = -1

    def is_cut(self, number: int) -> bool:
        """Whether a line is of no node, and assumed by none."""
        return number not in self.nodes and number not in self.source.shape.branches

    def rank(self, number: int) -> int:
        """What comes first where not all lines have room: cuts, then assumptions and nodes by their depth."""
        return self.ranks[number] + 1 if number in self.ranks else 0 if self.is_cut(number) else 1 << 30

    def dropped(self) -> int:
        return self.source.head.derived - len(self.texts)


def page_of(source: Source, text: Text) -> Page:
    """Chooses what a page has. `text` stands in front of the derived lines, which are read once more."""
    tree = tree_of(source.shape, MOST_NODES)
    page = Page(source, tree, ranks=tree.ranks(), nodes=source.shape.nodes())
    best = best_values(source)
    if best is not None:
        tree.best = way_to(tree, source.shape, best)
    page.nodes_data = tree_data(tree, source.shape)
    page.deepest = deepest(page)
    for number, derived in enumerate(lines_of(text, source.head), start=len(source.head.rows)):
        if page.rank(number) <= page.deepest:
            page.texts[number] = line_text(page, derived)
            if page.is_cut(number) and len(page.cuts) < MOST_CUTS:
                page.cuts.append(number)
    return page


def best_values(source: Source):
    """The values of the best listed point; none where there is no point."""
    head = source.head
    if not head.points:
        return None
    return (max if head.maximise else min)(head.points, key=lambda point: head.value_at(point.values)).values


def deepest(page: Page) -> int:
    """The greatest rank for which there is room beside the model's rows and the tree."""
    given, sizes = len(page.source.head.rows), {}
    for at, size in enumerate(page.source.shape.sizes):
        rank = page.rank(given + at)
        sizes[rank] = sizes.get(rank, 0) + size
    left, found = MOST_BYTES - len(json.dumps(rows_data(page))) - len(json.dumps(page.nodes_data, separators=(",", ":"))), -1
    left -= len(page.tree.lines) * FOUND_BYTES if page.source.search else 0
    for rank in sorted(sizes):
        left -= sizes[rank]
        if left < 0:
            break
        found = rank
    return found


# ---- the data of the page's script

def flat(terms) -> list:
    """Terms as a flat list: column, number, column, number."""
    return [item for column, value in terms for item in (column, spelt(value))]


def line_text(page: Page, derived: Derived) -> str:
    """A derived line as the page keeps it: label, sense, right side, the number of its coefficients in a table, and the reason."""
    row = reduced(derived.row)
    table = page.tables.setdefault(tuple(flat(row.terms())), len(page.tables))
    return f"{derived.label.decode('utf-8', 'surrogateescape')} {row.sense} {spelt(row.right_side())} {table} {reason_text(derived)}"


def row_data(name: str, row: Row) -> list:
    row = reduced(row)
    return [name, row.sense, spelt(row.right_side()), flat(row.terms())]


def rows_data(page: Page) -> list[list]:
    return [row_data(name, listed.row) for name, listed in zip(names_of_rows(page.source), page.source.head.rows)]


def names_of_rows(source: Source) -> list[str]:
    """A name for each row of CON: the model's, where the rows stand in the model's order; else the label."""
    head, model = source.head, source.model
    wanted = model_rows(model, list(range(len(model.columns))))
    if head.names == model.names() and len(wanted) == len(head.rows) and all(
            same_row(listed.row, row) for listed, (_, row) in zip(head.rows, wanted)):
        return [name.removeprefix("row ").removeprefix("the ") for name, _ in wanted]
    return [listed.label for listed in head.rows]


def search_data(page: Page) -> Optional[dict]:
    """What the journal says of nodes: the relaxation's value at splits, and better points. A node is found by the label of its line."""
    search = page.source.search
    if search is None:
        return None
    at = {page.texts[line].split(" ", 1)[0]: at for at, line in enumerate(page.tree.lines) if line in page.texts}
    relaxed = {at[f"N{node}"]: [spelt(value), spelt(number)] for node, (value, number) in search.relaxed.items() if f"N{node}" in at}
    found = {at[f"N{point.node}"]: spelt(point.value) for point in search.incumbents if f"N{point.node}" in at}
    return {"relaxed": relaxed, "found": found}


def tree_data(tree: Tree, shape: Shape) -> dict:
    """The nodes, each with what its line assumes: as a mask, as long as there is room, then `-`."""
    kept, size = [], 0
    for mask in masks(tree, shape):
        size += len(mask)
        kept.append(mask if size <= MOST_MASKS else "-")
    return {"line": tree.lines, "parent": tree.parents, "branch": tree.branches, "kind": "".join(tree.kinds), "size": tree.sizes,
            "mask": kept, "best": tree.best}


def assumed_data(page: Page) -> dict:
    """What lines assume that the tree doesn't say; none where there is no room for it."""
    told = {line for line, mask in zip(page.tree.lines, page.nodes_data["mask"]) if mask != "?"}
    assumed, made, left = page.source.shape.assumed, {}, MOST_ASSUMED
    for number in page.texts:
        if number in assumed and number not in told:
            left -= len(assumed[number])
            made[number] = list(assumed[number]) if left >= 0 else None
    return made


def page_data(page: Page) -> dict:
    """All that the page's script needs."""
    source, numbers = page.source, list(page.texts)
    head, places = source.head, source.shape.file_lines
    in_order = all(line == places[0] + at for at, line in enumerate(places))
    return {
        "columns": head.names,
        "rows": rows_data(page),
        "labels": [listed.label for listed in head.rows],
        "given": len(head.rows),
        "tables": list(page.tables),
        "lines": list(page.texts.values()),
        "numbers": numbers if page.dropped() else None,
        "fileLine": places[0] if in_order and places else None,
        "fileLines": None if in_order else list(places),
        "assumed": assumed_data(page),
        "tree": page.nodes_data,
        "search": search_data(page),
        "cuts": page.cuts,
        "file": os.path.basename(source.certificate_path),
    }


def script_data(page: Page) -> str:
    """The data as text that may stand in a script element."""
    return json.dumps(page_data(page), separators=(",", ":")).replace("<", "\\u003c")


def digest(content: bytes) -> str:
    return hashlib.sha256(content).hexdigest()


def digest_of_file(file) -> str:
    """The SHA-256 of a file from its beginning."""
    made = hashlib.sha256()
    file.seek(0)
    while piece := file.read(1 << 20):
        made.update(piece)
    return made.hexdigest()


def kinds_of(tree: Tree) -> dict[str, int]:
    """How many nodes of the page are of each kind."""
    counts: dict[str, int] = {}
    for kind in tree.kinds:
        if kind not in (SPLIT, AGAIN):
            counts[kind] = counts.get(kind, 0) + 1
    return counts
