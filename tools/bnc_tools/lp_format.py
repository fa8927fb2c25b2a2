"""Reads models in the CPLEX LP format, which most solvers and PuLP write. All numbers are exact."""
from __future__ import annotations

import re
from dataclasses import dataclass
from fractions import Fraction

from .linear_model import INFINITY, LinearModel, ModelError, Row, add_term, is_infinity, wanted_decimal

# The sections, by the words that begin them at the front of a line.
SECTIONS = [
    (r"max(imi[sz]e|imum)?", "maximise"),
    (r"min(imi[sz]e|imum)?", "minimise"),
    (r"subject\s+to|such\s+that|st|s\.t\.|st\.", "rows"),
    (r"bounds?", "bounds"),
    (r"generals?|gen|integers?|int", "whole"),
    (r"binar(y|ies)|bin", "binary"),
    (r"end", "end"),
]
REFUSED_SECTIONS = [
    (r"semi-continuous|semis?", "semi-continuous columns"),
    (r"sos[12]?", "SOS sets"),
    (r"general\s+constraints|gencons", "constraints that aren't linear"),
    (r"lazy\s+constraints|user\s+cuts", "lazy constraints or cuts: write them as rows"),
    (r"pwlobj", "a piecewise linear objective"),
]
TOKEN = re.compile(
    r"(?P<blank>\s+)"
    r"|(?P<sense><=|=<|>=|=>|<|>|=)"
    r"|(?P<number>(?:[0-9]+\.?[0-9]*|\.[0-9]+)(?:[eE][+-]?[0-9]+)?)"
    r"|(?P<sign>[+-])"
    r"|(?P<colon>:)"
    r"|(?P<name>[A-Za-z_!\"#$%&(),;?@'`{}~|/][A-Za-z0-9_!\"#$%&(),;?@'`{}~|/.\[\]]*)"
    r"|(?P<other>.)"
)
SENSES = {"<=": "L", "=<": "L", "<": "L", ">=": "G", "=>": "G", ">": "G", "=": "E"}
FLIPPED = {"L": "G", "G": "L", "E": "E"}


@dataclass
class Token:
    """A word of the text: its kind (`number`, `name`, `sign`, `sense`, `colon`), the word, and its line."""

    kind: str
    word: str
    line: int


@dataclass
class Side:
    """One side of a comparison: terms and a constant."""

    terms: dict[int, Fraction]
    constant: Fraction


def section_at(text: str) -> tuple[str, int] | None:
    """The section that begins at the front of a line, and where its words end; none where none begins. `ModelError`: one that is not linear."""
    for pattern, what in REFUSED_SECTIONS:
        if re.match(rf"\s*(?:{pattern})\s*(?::|$)", text, re.IGNORECASE):
            raise ModelError(f"the model has {what}")
    for pattern, section in SECTIONS:
        found = re.match(rf"\s*(?:{pattern})(?=\s|$)(?!\s*(?::|[<>=]))", text, re.IGNORECASE)
        if found:
            return section, found.end()
    return None


def tokens_of(text: str, line: int) -> list[Token]:
    """The words of a part of a line. `ModelError`: a sign of something that isn't linear, or that means nothing."""
    made = []
    for found in TOKEN.finditer(text):
        kind, word = found.lastgroup, found[0]
        if kind == "other":
            quadratic = word in "[]^*"
            raise ModelError("the model is quadratic: a row or the objective has a product of columns" if quadratic else f"unknown sign {word!r}", line)
        if kind != "blank":
            made.append(Token(kind, word, line))
    return made


def split_sections(text: str) -> dict[str, list[Token]]:
    """The words of each section. `ModelError`: the text has no objective or no END, or a section that isn't taken."""
    parts: dict[str, list[Token]] = {}
    section, number = None, 0
    for number, whole_line in enumerate(text.split("\n"), 1):
        line = whole_line.split("\\")[0]
        try:
            began = section_at(line)
        except ModelError as error:
            raise ModelError(error.reason, number) from None
        if began:
            section, line = began[0], line[began[1]:]
            parts.setdefault(section, [])
            if section == "end":
                return parts
        words = tokens_of(line, number)
        if words and section is None:
            raise ModelError("the text doesn't begin with Minimize or Maximize", number)
        if words:
            parts[section] += words
    raise ModelError("the text ends without End: see whether the file is whole", number)


class Reader:
    """Takes the words of one section, one by one, and fills the model."""

    def __init__(self, model: LinearModel, words: list[Token]):
        self.model, self.words, self.at = model, words, 0

    def peek(self, ahead: int = 0) -> Token | None:
        return self.words[self.at + ahead] if self.at + ahead < len(self.words) else None

    def kind(self, ahead: int = 0) -> str:
        found = self.peek(ahead)
        return found.kind if found else ""

    def take(self, *kinds: str) -> Token:
        """The next word. `ModelError`: it is of another kind."""
        found = self.peek()
        if found is None:
            raise ModelError("a section ends too early", self.words[-1].line if self.words else None)
        if found.kind not in kinds:
            raise ModelError(f"unexpected {found.word!r}", found.line)
        self.at += 1
        return found

    def label(self) -> str | None:
        """The name in front of a row or of the objective, if there is one."""
        if self.kind() in ("name", "number") and self.kind(1) == "colon":
            name = self.take("name", "number").word
            self.take("colon")
            return name
        return None

    def sign(self) -> int:
        sign = 1
        while self.kind() == "sign":
            sign = -sign if self.take("sign").word == "-" else sign
        return sign

    def has_name_for(self, number: Token | None, is_right: bool) -> bool:
        """Whether the next name belongs to this number. Right of a comparison, one on another line begins the next row."""
        if self.kind() != "name" or self.kind(1) == "colon":
            return False
        return number is None or not is_right or self.peek().line == number.line

    def term(self, side: Side, is_right: bool) -> None:
        """Adds a term or a number to a side."""
        factor = Fraction(self.sign())
        number = self.take("number") if self.kind() == "number" else None
        if number:
            factor *= wanted_decimal(number.word, number.line)
        if self.has_name_for(number, is_right):
            add_term(side.terms, self.model.place(self.take("name").word), factor)
        elif number:
            side.constant += factor
        else:
            self.take("name")

    def side(self, is_right: bool = False) -> Side:
        """A sum of terms, up to a comparison, the next row or the end."""
        side = Side({}, Fraction(0))
        self.term(side, is_right)
        while self.kind() == "sign":
            self.term(side, is_right)
        return side

    def objective(self) -> None:
        self.model.objective_name = self.label() or self.model.objective_name
        if self.kind():
            side = self.side()
            self.model.objective, self.model.constant = side.terms, side.constant
        if self.kind():
            raise ModelError(f"unexpected {self.peek().word!r} in the objective", self.peek().line)

    def rows(self) -> None:
        while self.kind():
            self.row()

    def row(self) -> None:
        """A row: two sides, or a sum between two numbers."""
        line = self.peek().line
        name = self.label() or f"R{len(self.model.rows) + 1}"
        row = Row(name, None, None)
        sides, senses = [self.side()], []
        while self.kind() == "sense":
            senses.append(SENSES[self.take("sense").word])
            sides.append(self.side(is_right=True))
        if len(senses) not in (1, 2):
            raise ModelError(f"row {name} has {len(senses)} comparisons, where one or two may be", line)
        if len(senses) == 1:
            set_side(row, senses[0], difference(sides[0], sides[1]))
        else:
            if sides[0].terms or sides[2].terms or "E" in senses:
                raise ModelError(f"row {name} is no sum between two numbers", line)
            set_side(row, FLIPPED[senses[0]], difference(sides[1], sides[0]))
            set_side(row, senses[1], difference(sides[1], sides[2]))
        self.model.rows.append(row)

    def bound_value(self) -> Fraction | str | None:
        """A number or an infinity in BOUNDS; none where a name stands here."""
        start, sign = self.at, self.sign()
        found = self.peek()
        if found and found.kind == "number" or found and found.kind == "name" and is_infinity(found.word):
            self.at += 1
            if is_infinity(found.word):
                return "-inf" if sign < 0 else "+inf"
            return sign * wanted_decimal(found.word, found.line)
        self.at = start
        return None

    def bounds(self) -> None:
        while self.kind():
            self.bound()

    def bound(self) -> None:
        """One bound: `l <= x <= u`, `x <= u`, `x free`, and the like."""
        first = self.bound_value()
        flipped = FLIPPED[SENSES[self.take("sense").word]] if first is not None else None
        found = self.take("name")
        column = self.model.columns[self.model.place(found.word)]
        if first is not None:
            set_bound(column, flipped, first, found.line)
        elif self.kind() == "name" and self.peek().word.lower() == "free":
            self.take("name")
            column.low = column.high = None
            return
        elif self.kind() != "sense":
            raise ModelError(f"column {found.word} has no bound behind it", found.line)
        if self.kind() == "sense":
            sense = SENSES[self.take("sense").word]
            value = self.bound_value()
            if value is None:
                raise ModelError(f"the bound of column {found.word} is no number", found.line)
            set_bound(column, sense, value, found.line)

    def names(self, is_binary: bool) -> None:
        """A list of columns that are whole."""
        while self.kind():
            column = self.model.columns[self.model.place(self.take("name").word)]
            column.is_whole = True
            if is_binary:
                column.low, column.high = Fraction(0), Fraction(1)


def difference(left: Side, right: Side) -> Side:
    """Left minus right, as terms and the number that they are compared with."""
    terms = dict(left.terms)
    for place, value in right.terms.items():
        add_term(terms, place, -value)
    return Side(terms, right.constant - left.constant)


def set_side(row: Row, sense: str, side: Side) -> None:
    """Sets one side of a row. An infinity on its own side asks for nothing."""
    row.terms = side.terms
    if sense in "GE" and side.constant > -INFINITY:
        row.low = side.constant
    if sense in "LE" and side.constant < INFINITY:
        row.high = side.constant


def set_bound(column, sense: str, value: Fraction | str, line: int) -> None:
    """Sets one bound of a column, or both. `ModelError`: an infinity on the wrong side."""
    wrong = {"L": "-inf", "G": "+inf"}.get(sense)
    if value == wrong or sense == "E" and isinstance(value, str):
        raise ModelError(f"column {column.name} has an infinity on the wrong side of a bound", line)
    number = None if isinstance(value, str) else value
    if sense in "GE":
        column.low = number
    if sense in "LE":
        column.high = number


def check_upper(model: LinearModel) -> None:
    """`ModelError`: a column has an upper bound below 0 and the lower bound 0, which readers take for different models."""
    for column in model.columns:
        if column.low == 0 and column.high is not None and column.high < 0:
            raise ModelError(f"column {column.name} has an upper bound below 0, and no line says anything of its lower bound: say which is meant")


def read_lp(text: str) -> LinearModel:
    """The model of a text in the CPLEX LP format. `ModelError`: the text is no such model, or has what isn't linear."""
    parts = split_sections(text)
    model = LinearModel(is_maximised="maximise" in parts)
    if "maximise" in parts and "minimise" in parts:
        raise ModelError("the text asks for a least and for a greatest value at once")
    Reader(model, parts.get("maximise") or parts.get("minimise") or []).objective()
    Reader(model, parts.get("rows", [])).rows()
    Reader(model, parts.get("bounds", [])).bounds()
    check_upper(model)
    Reader(model, parts.get("whole", [])).names(is_binary=False)
    Reader(model, parts.get("binary", [])).names(is_binary=True)
    return model
