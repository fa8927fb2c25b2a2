"""Checks a certificate against its model by the rules of VIPR 1.0.

The rules are those of docs/CERTIFICATE.md, with what VIPR 1.0 allows beside: E rows among derived lines, the reason `sol`, rows in any order.
`strict` checking leaves that out. Each line is forgotten behind the last one that names it, so the memory doesn't grow with the lines.
"""
from array import array
from dataclasses import dataclass
from typing import Callable, Optional

from .certificate import Derived, Head, Text, Wrong, lines_of, read_head
from .exact import Number, brief
from .faults import counted, place, printable
from .model import Model
from .progress import Progress
from .rows import EMPTY, Row, combined, dominates, dominates_strictly, is_absurd, quotient, row_of, rounded, same_terms

NOTHING = frozenset()
KINDS = {"G": "a G row", "L": "an L row", "E": "an E row"}


@dataclass
class Rules:
    """Which rules hold."""

    strict: bool = False

    def dominates(self, row: Row, other: Row) -> bool:
        return dominates_strictly(row, other) if self.strict else dominates(row, other)


# ---- the problem

def check_problem(path: str, head: Head, model: Model, rules: Rules):
    """Checks that the certificate is about the model. `Wrong`: where it isn't, and why."""
    def wrong(where: str, what: str) -> Wrong:
        return Wrong(place(path, head.lines[where]), f"{what} of the certificate {'is' if what[-1] != 's' else 'are'} not the model's")

    names = model.names()
    if sorted(head.names) != sorted(names) or rules.strict and head.names != names:
        raise Wrong(place(path, head.lines["VAR"]), other_names(head.names, names))
    if len(head.integers) != len(names):
        raise Wrong(place(path, head.lines["INT"]), f"the integer columns are {len(head.integers)}, and all {len(names)} of the model are integer")
    if rules.strict and head.integers != list(range(len(names))):
        raise wrong("INT", "the integer columns")
    if head.maximise != model.maximise:
        raise wrong("OBJ", "the direction")
    at = {name: number for number, name in enumerate(head.names)}
    order = [at[name] for name in names]
    if head.objective != {order[column]: value for column, value in model.objective.items()}:
        raise wrong("OBJ", "the objective")
    (check_rows_in_order if rules.strict else check_rows)(path, head, model, order)


def other_names(found: list[str], names: list[str]) -> str:
    """Says how the columns of a certificate differ from the model's."""
    if len(found) != len(names):
        return f"the certificate has {counted(len(found), 'column')}, and the model {len(names)}"
    for here, there in zip(found, names):
        if here != there:
            return f"the certificate has the column {printable(here)} where the model has {printable(there)}"
    return "the columns are not the model's"


def model_rows(model: Model, order: list[int]) -> list[tuple[str, Row]]:
    """The rows of a model, then for each column those of its lower and its upper bound; each with a name. `order` numbers the columns."""
    rows = [(f"row {row.name}", row_of(row.sense, row.side, ((order[column], value) for column, value in row.terms.items())))
            for row in model.rows]
    for number, column in zip(order, model.columns):
        rows.append((f"the lower bound of {column.name}", row_of("G", column.low, [(number, 1)])))
        rows.append((f"the upper bound of {column.name}", row_of("L", column.high, [(number, 1)])))
    return rows


def same_row(one: Row, other: Row) -> bool:
    return one.sense == other.sense and one.side * other.scale == other.side * one.scale and same_terms(one, other)


def check_rows_in_order(path: str, head: Head, model: Model, order: list[int]):
    """CON as bnc writes it: the model's rows, and then the bounds of each column."""
    wanted = model_rows(model, order)
    if len(head.rows) != len(wanted) or head.bounds != 2 * len(model.columns):
        raise Wrong(place(path, head.lines["CON"]), f"{len(head.rows)} rows, {head.bounds} of them bounds, and the model has {len(wanted)} and"
                    f" {2 * len(model.columns)}")
    for listed, (name, row) in zip(head.rows, wanted):
        if not same_row(listed.row, row):
            raise Wrong(place(path, listed.line), f"{printable(listed.label)} is not {name} of the model")


def sides(row: Row) -> list[tuple]:
    """The inequalities of a row, as values that can be compared: an E row has two."""
    terms = tuple(row.terms())
    return [(sense, row.right_side(), terms) for sense in ("GL" if row.sense == "E" else row.sense)]


def check_rows(path: str, head: Head, model: Model, order: list[int]):
    """CON in any order: each inequality of the model stands there as often as in the model, and no other does."""
    names, left = {}, {}
    for name, row in model_rows(model, order):
        for side in sides(row):
            names[side] = name
            left[side] = left.get(side, 0) + 1
    for listed in head.rows:
        for side in sides(listed.row):
            if not left.get(side):
                again = ", or stands there once more than in the model" if side in left else ""
                raise Wrong(place(path, listed.line), f"{printable(listed.label)} is no row and no bound of the model{again}")
            left[side] -= 1
    for side, count in left.items():
        if count:
            raise Wrong(place(path, head.lines["CON"]), f"{printable(names[side])} of the model is missing")


# ---- the points

def check_points(path: str, head: Head, model: Model) -> Optional[Number]:
    """Checks each point against the model, and gives the best value of the objective; none where there is no point."""
    at = {name: number for number, name in enumerate(head.names)}
    order = [at[name] for name in model.names()]
    rows, best = model_rows(model, order), None
    for point in head.points:
        for column, value in point.values.items():
            if value.denominator != 1:
                raise Wrong(place(path, point.line), f"the point {printable(point.label)} has {brief(value)} for"
                            f" {printable(head.names[column])}")
        for name, row in rows:
            if not satisfies(row, point.values):
                raise Wrong(place(path, point.line), f"the point {printable(point.label)} breaks {printable(name)} of the model")
        value = head.value_at(point.values)
        if best is None or (value > best if head.maximise else value < best):
            best = value
    return best


def satisfies(row: Row, values: dict[int, Number]) -> bool:
    total = sum(value * values.get(column, 0) for column, value in zip(row.columns, row.values))
    return total >= row.side if row.sense == "G" else total <= row.side if row.sense == "L" else total == row.side


# ---- the derived lines

def last_uses(text: Text, head: Head, progress: Progress) -> array:
    """For each line the last one that names it, or -1. Where a line can't be read, what stands before it counts."""
    given = len(head.rows)
    last = array("q", bytes(8 * given))
    for at in range(given):
        last[at] = -1
    try:
        for number, derived in enumerate(lines_of(text, head), start=given):
            last.append(-1)
            for named in derived.numbers:
                if named < number:
                    last[named] = number
            progress.step()
    except Wrong:
        pass
    return last


class Lines:
    """The lines so far: the row of each, and what it assumes. A line that no later one names is forgotten."""

    def __init__(self, path: str, head: Head, last: array, best: Optional[Number], rules: Rules):
        self.path, self.head, self.last, self.rules = path, head, last, rules
        self.cutoff = None
        if best is not None:
            self.cutoff = row_of("G" if head.maximise else "L", best, head.objective.items())
        self.rows: list[Optional[Row]] = [listed.row for listed in head.rows]
        self.assumed: list[frozenset] = [NOTHING] * len(self.rows)
        self.is_assumption = bytearray(len(self.rows))
        self.derived: Optional[Derived] = None

    def wrong(self, what: str) -> Wrong:
        """What is wrong with the line at hand."""
        number = len(self.rows)
        return Wrong(place(self.path, self.derived.line), f"derived line {number - len(self.head.rows) + 1} of {self.head.derived}"
                     f" ({printable(self.derived.label)}, number {number}): {what}")

    def add(self, derived: Derived) -> frozenset:
        """Checks a derived line against those before it. Gives the numbers of the assumptions that it rests on, without its own."""
        self.derived = derived
        reason, assumed = derived.reason, NOTHING
        if reason == b"uns":
            assumed = self.split(derived)
        elif reason == b"sol":
            self.check_solution(derived)
        elif reason != b"asm":
            assumed = self.combination(derived)
        self.rows.append(derived.row)
        self.assumed.append(assumed)
        self.is_assumption.append(reason == b"asm")
        return assumed

    def assumes(self, number: int) -> frozenset:
        """All that a line assumes: an assumption assumes itself."""
        return frozenset((number,)) if self.is_assumption[number] else self.assumed[number]

    def forget(self, derived: Derived):
        """Forgets the lines that no later one names."""
        number, given = len(self.rows) - 1, len(self.head.rows)
        if number >= len(self.last):
            raise Wrong(self.path, "the file was changed while it was read")
        for named in (*derived.numbers, number):
            if self.last[named] <= number and named >= given and number + 1 < given + self.head.derived:
                self.rows[named], self.assumed[named] = None, NOTHING

    def row(self, number: int) -> Row:
        """The row of an earlier line."""
        if number >= len(self.rows):
            raise self.wrong(f"it names line {number}, which doesn't stand before it")
        row = self.rows[number]
        if row is None:
            raise self.wrong(f"line {number} was used after its last use: the file was changed while it was read")
        return row

    # ---- lin and rnd

    def combination(self, derived: Derived) -> frozenset:
        rows = [self.row(number) for number in derived.numbers]
        found = combined(rows, derived.factors)
        target = derived.row
        self.check_sense(derived, found.sense)
        sense = target.sense if found.sense == "E" and target.sense != "E" else found.sense
        row = Row(sense, found.row.side, found.row.columns, found.row.values, found.row.scale)
        if derived.reason == b"rnd":
            row = self.rounded(row)
        if not self.rules.dominates(row, target):
            raise self.wrong(self.not_dominated(row, target))
        return self.union(derived.numbers)

    def check_sense(self, derived: Derived, sense: Optional[str]):
        """Whether the signs allow a combination; for `strict` rules one of the line's own sense."""
        if sense is not None and not self.rules.strict or sense in (derived.row.sense, "E") and derived.row.sense != "E":
            return
        if derived.row.sense == "E" and self.rules.strict:
            raise self.wrong("it is an E row, which no reason but asm gives")
        for number, factor in zip(derived.numbers, derived.factors):
            row = self.rows[number]
            if row.sense != "E" and (row.sense == derived.row.sense) != (factor > 0):
                raise self.wrong(f"the multiplier {brief(factor)} of line {number}, {KINDS[row.sense]}, has the wrong sign for"
                                 f" {KINDS[derived.row.sense]}")
        raise self.wrong("its multipliers mix both directions")

    def rounded(self, row: Row) -> Row:
        for column, value in zip(row.columns, row.values):
            if value % row.scale:
                raise self.wrong(f"it is rounded, and the sum has {brief(quotient(value, row.scale))} times {self.name(column)}")
        if row.sense == "E" and row.side % row.scale:
            raise self.wrong(f"it is an E row, whose right side {brief(row.right_side())} can't be rounded")
        return rounded(row)

    def union(self, numbers: list[int]) -> frozenset:
        """All that these lines assume."""
        is_assumption, assumed = self.is_assumption, self.assumed
        found = frozenset(number for number in numbers if is_assumption[number])
        return found.union(*(assumed[number] for number in numbers if assumed[number]))

    def name(self, column: int) -> str:
        return printable(self.head.names[column])

    def not_dominated(self, row: Row, target: Row) -> str:
        """Why a combination doesn't dominate a line."""
        if row.sense != target.sense and row.sense != "E":
            return f"its lines add up to {KINDS[row.sense]}, which isn't absurd, and it is {KINDS[target.sense]}"
        here, there = dict(row.terms()), dict(target.terms())
        for column in sorted(set(here) | set(there)):
            if here.get(column, 0) != there.get(column, 0):
                return f"its lines add up to {brief(here.get(column, 0))} times {self.name(column)}, and it has {brief(there.get(column, 0))}"
        return f"its lines add up to the right side {brief(row.right_side())}, and it has {brief(target.right_side())}"

    # ---- uns

    def split(self, derived: Derived) -> frozenset:
        first, below, second, above = derived.numbers
        for number in derived.numbers:
            self.row(number)
        if self.rules.strict and derived.row.sense == "E":
            raise self.wrong("it is an E row, which no reason but asm gives")
        for number in (first, second):
            if not self.rules.dominates(self.rows[number], derived.row):
                raise self.wrong(f"line {number} doesn't dominate it")
        for number in (below, above):
            if not self.is_assumption[number]:
                raise self.wrong(f"line {number} is no assumption")
        low, high = self.rows[below], self.rows[above]
        if low.sense == "G" and not self.rules.strict:
            low, high = high, low
        self.check_branches(low, high)
        return (self.assumes(first) - {below}) | (self.assumes(second) - {above})

    def check_branches(self, low: Row, high: Row):
        """Whether each whole point satisfies one of two rows."""
        if (low.sense, high.sense) != ("L", "G"):
            raise self.wrong("its branches are not an L and a G row")
        if not same_terms(low, high):
            raise self.wrong("its branches have other coefficients")
        if not low.has_whole_terms() or not low.has_whole_side():
            raise self.wrong("its branches have a fraction")
        if high.side * low.scale != (low.side + low.scale) * high.scale:
            raise self.wrong(f"its branches are at most {brief(low.right_side())} and at least {brief(high.right_side())}: the second isn't the"
                             " first and 1")

    # ---- sol

    def check_solution(self, derived: Derived):
        """`sol`: a point that is listed has this objective, so worse points need not be looked at."""
        if self.cutoff is None:
            raise self.wrong("no point is listed")
        if not dominates(self.cutoff, derived.row):
            raise self.wrong("the best listed point doesn't show it")


# ---- the claim

def check_claim(path: str, head: Head, lines: Lines, best: Optional[Number]):
    """Checks that the last line, which assumes nothing, and the points show the claim."""
    def wrong(what: str) -> Wrong:
        where = lines.derived.line if lines.derived else head.lines["DER"]
        return Wrong(place(path, where), what)

    row, assumed = (lines.rows[-1], lines.assumes(len(lines.rows) - 1)) if lines.rows else (EMPTY, NOTHING)
    claim = head.claim
    if assumed:
        raise wrong(f"the last line assumes line {min(assumed)}: nothing may be assumed in the end")
    if claim.infeasible:
        if not is_absurd(row):
            raise wrong("infeasibility is claimed, and the last line isn't absurd")
        return
    bound = claim.high if head.maximise else claim.low
    if bound is not None and not lines.rules.dominates(row, row_of("L" if head.maximise else "G", bound, head.objective.items())):
        raise wrong(f"the last line doesn't show that the objective is at {'most' if head.maximise else 'least'} {brief(bound)}")
    reached = claim.low if head.maximise else claim.high
    if reached is not None and (best is None or (best < reached if head.maximise else best > reached)):
        side = "least" if head.maximise else "most"
        raise Wrong(place(path, head.lines["SOL"]), f"no listed point has an objective of at {side} {brief(reached)}")
    if lines.rules.strict and claim.low != claim.high:
        raise Wrong(place(path, head.lines["RTP"]), "the range has more than one number")


def check(text: Text, model: Model, progress: Optional[Progress] = None,
          see: Optional[Callable[[Lines, Derived, frozenset], None]] = None) -> Head:
    """Checks a whole certificate against a model, by the strict rules where the text is read strictly. Gives what stands in front of its lines.

    `see` is called behind each derived line that holds, with the lines so far, the last of them, and what it assumes. `progress` is told each line
    twice, since the lines are read twice. `Wrong`: the first thing that is wrong.
    """
    rules = Rules(text.strict)
    head = read_head(text)
    check_problem(text.path, head, model, rules)
    best = check_points(text.path, head, model)
    head.mark = text.mark()
    progress = progress or Progress("")
    progress.begin(2 * head.derived)
    last = last_uses(text, head, progress)
    text.go_to(head.mark)
    lines = Lines(text.path, head, last, best, rules)
    for derived in lines_of(text, head):
        assumed = lines.add(derived)
        if see is not None:
            see(lines, derived, assumed)
        lines.forget(derived)
        progress.step()
    text.end()
    check_claim(text.path, head, lines, best)
    return head
