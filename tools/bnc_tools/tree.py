"""The tree of a certificate: which derived line is which node, and why each node is closed."""
from array import array
from dataclasses import dataclass, field
from typing import Optional

from .certificate import Derived, Head
from .check import Lines, satisfies
from .exact import spelt
from .rows import Row

SPLIT, BOUND, INFEASIBLE, EMPTY, OTHER, AGAIN = "s", "b", "i", "e", "o", "a"


class Shape:
    """What is kept of each derived line while a certificate is checked: its reason, the four lines of a split, and why it closes a node."""

    def __init__(self, head: Optional[Head] = None):
        self.head = head
        self.kinds = bytearray()
        self.splits: dict[int, tuple[int, int, int, int]] = {}  # of a line: first, below, second, above
        self.branches: dict[int, Row] = {}  # the rows of assumptions
        self.file_lines = array("q")
        self.sizes = array("q")  # about how many bytes a page takes for each
        self.seen_rows: set[int] = set()
        self.assumed: dict[int, array] = {}

    def see(self, lines: Lines, derived: Derived, assumed: frozenset):
        """Notes a line that holds."""
        number = len(lines.rows) - 1
        self.head = lines.head
        self.file_lines.append(derived.line)
        self.sizes.append(self.size(derived))
        self.kinds.append(ord(self.kind(lines, derived)))
        if derived.reason == b"uns":
            self.splits[number] = tuple(derived.numbers)
        elif derived.reason == b"asm":
            self.branches[number] = derived.row
        if assumed:
            self.assumed[number] = array("q", assumed)

    def size(self, derived: Derived) -> int:
        """About how many bytes a page takes for a line. Coefficients that several lines share count once."""
        size = len(derived.label) + len(reason_text(derived)) + 24
        if derived.row.columns and id(derived.row) not in self.seen_rows:
            self.seen_rows.add(id(derived.row))
            size += 16 * len(derived.row.columns)
        return size

    def kind(self, lines: Lines, derived: Derived) -> str:
        """Why a node whose line this is would be closed."""
        if derived.reason == b"uns":
            return SPLIT
        if derived.reason not in (b"lin", b"rnd"):
            return OTHER
        if derived.row.columns:
            return BOUND
        rows = [lines.rows[number] for number in derived.numbers]
        is_box = len(rows) == 2 and len(rows[0].columns) == 1 and rows[0].columns == rows[1].columns
        return EMPTY if is_box else INFEASIBLE

    def nodes(self) -> set[int]:
        """The lines of nodes: the last one, and those that the splits name."""
        return {self.last()}.union(*((first, second) for first, _, second, _ in self.splits.values()))

    def kind_at(self, number: int) -> str:
        return chr(self.kinds[number - len(self.head.rows)])

    def last(self) -> int:
        """The number of the last line."""
        return len(self.head.rows) + len(self.kinds) - 1


def reason_text(derived: Derived) -> str:
    """The reason of a line: its word, then the lines that it names, each with its multiplier where there is one."""
    reason = [derived.reason.decode()]
    if derived.factors:
        reason += [f"{number} {spelt(factor)}" for number, factor in zip(derived.numbers, derived.factors)]
    else:
        reason += map(str, derived.numbers)
    return " ".join(reason)


@dataclass
class Tree:
    """Nodes from the root on, level by level: the line of each, its parent, the assumption that leads to it, and why it is closed."""

    lines: list[int] = field(default_factory=list)
    parents: list[int] = field(default_factory=list)
    branches: list[int] = field(default_factory=list)
    kinds: list[str] = field(default_factory=list)
    depths: list[int] = field(default_factory=list)
    sizes: list[int] = field(default_factory=list)  # how many nodes there are at and below each
    dropped: int = 0  # nodes that were left out
    best: Optional[int] = None  # the node that has the best point

    def ranks(self) -> dict[int, int]:
        """For each line of a node, and for each assumption that leads to one, its depth."""
        ranks: dict[int, int] = {}
        for at, line in enumerate(self.lines):
            ranks.setdefault(line, self.depths[at])
            if at:
                ranks.setdefault(self.branches[at], self.depths[at])
        return ranks


def tree_of(shape: Shape, most: int) -> Tree:
    """The tree of the last line, with at most so many nodes: those of the least depth."""
    tree, seen = Tree(), {shape.last()}
    add(tree, shape, shape.last(), -1, -1)
    at = 0
    while at < len(tree.lines):
        if tree.kinds[at] == SPLIT:
            first, below, second, above = shape.splits[tree.lines[at]]
            if len(tree.lines) + 2 > most:
                break
            for line, branch in ((first, below), (second, above)):
                add(tree, shape, line, at, branch, again=line in seen)
                seen.add(line)
        at += 1
    count_nodes(tree, shape)
    return tree


def add(tree: Tree, shape: Shape, line: int, parent: int, branch: int, again: bool = False):
    """Adds a node. A line that is a node already isn't followed again."""
    tree.lines.append(line)
    tree.parents.append(parent)
    tree.branches.append(branch)
    tree.depths.append(0 if parent < 0 else tree.depths[parent] + 1)
    given = line < len(shape.head.rows)
    tree.kinds.append(AGAIN if again and not given else OTHER if given else shape.kind_at(line))


def count_nodes(tree: Tree, shape: Shape):
    """The sizes of the subtrees. Below a node whose children were left out, the lines are counted."""
    sizes = [1] * len(tree.lines)
    has_children = bytearray(len(tree.lines))
    for parent in tree.parents[1:]:
        has_children[parent] = 1
    for at in range(len(tree.lines) - 1, -1, -1):
        if tree.kinds[at] == SPLIT and not has_children[at]:
            below = lines_below(shape, tree.lines[at])
            tree.dropped += below
            sizes[at] += below
        if tree.parents[at] >= 0:
            sizes[tree.parents[at]] += sizes[at]
    tree.sizes = sizes


def lines_below(shape: Shape, line: int) -> int:
    """How many nodes a tree has below the node of a line. A line that is named twice counts once."""
    seen, left = set(), [line]
    while left:
        split = shape.splits.get(left.pop())
        for child in (split[0], split[2]) if split else ():
            if child not in seen:
                seen.add(child)
                left.append(child)
    return len(seen)


def way_to(tree: Tree, shape: Shape, values) -> Optional[int]:
    """The node without children in the tree whose branches a point satisfies."""
    children = {}
    for at, parent in enumerate(tree.parents):
        children.setdefault(parent, []).append(at)
    at = 0
    while at in children:
        fits = [child for child in children[at] if satisfies(shape.branches[tree.branches[child]], values)]
        if not fits:
            return None
        at = fits[0]
    return at if tree.kinds[at] != SPLIT else None


def masks(tree: Tree, shape: Shape) -> list[str]:
    """For each node which branches of its path its line assumes: bit k, in hexadecimal, is the branch that leads to depth k + 1. A line that
    assumes anything else has the word `?`."""
    children = [[] for _ in tree.lines]
    for at, parent in enumerate(tree.parents[1:], start=1):
        children[parent].append(at)
    made, path, left = [""] * len(tree.lines), {}, [0]
    while left:
        at = left.pop()
        if at < 0:
            del path[tree.branches[-at]]
            continue
        if at:
            path[tree.branches[at]] = tree.depths[at] - 1
            left.append(-at)
        made[at] = mask(shape.assumed.get(tree.lines[at], ()), path)
        left += children[at]
    return made


def mask(assumed, path: dict[int, int]) -> str:
    bits = 0
    for number in assumed:
        if number not in path:
            return "?"
        bits |= 1 << path[number]
    return f"{bits:x}" if bits else ""
