"""Linear models as other programs state them: columns and rows by name, exact numbers, either direction of the objective."""
from __future__ import annotations

import re
from dataclasses import dataclass, field
from fractions import Fraction
from functools import lru_cache

NUMBER = re.compile(r"([+-]?)([0-9]*)\.?([0-9]*)(?:[eE]([+-]?[0-9]+))?")
INFINITY = Fraction(10) ** 20
# An exponent of more digits is an infinity or a 0 for every program, and would take long to work out.
MOST_EXPONENT = 400
# Python itself takes no more than 4,300 digits at once.
LONGEST_NUMBER = 1000


class ModelError(Exception):
    """A model that can't be had: what is wrong, and the line of the text, where there is one."""

    def __init__(self, reason: str, line: int | None = None):
        super().__init__(reason)
        self.reason, self.line = reason, line


@dataclass
class Column:
    """A column: its name, its bounds (none: without end) and whether it is whole."""

    name: str
    low: Fraction | None = Fraction(0)
    high: Fraction | None = None
    is_whole: bool = False


@dataclass
class Row:
    """A row: low <= terms <= high, where none is without end. The terms go from places of columns to numbers."""

    name: str
    low: Fraction | None
    high: Fraction | None
    terms: dict[int, Fraction] = field(default_factory=dict)


@dataclass
class LinearModel:
    """A model: minimise (or maximise) objective + constant over the columns' bounds and the rows."""

    title: str = ""
    objective_name: str = "cost"
    is_maximised: bool = False
    constant: Fraction = Fraction(0)
    objective: dict[int, Fraction] = field(default_factory=dict)
    columns: list[Column] = field(default_factory=list)
    rows: list[Row] = field(default_factory=list)
    places: dict[str, int] = field(default_factory=dict)

    def place(self, name: str) -> int:
        """The place of the column of this name, which is added where it is new."""
        if name not in self.places:
            self.places[name] = len(self.columns)
            self.columns.append(Column(name))
        return self.places[name]


@lru_cache(maxsize=10_000)
def decimal(word: str) -> Fraction | None:
    """The exact number of a decimal, as `-0.25` or `1e-3`; none where the word is no decimal, or is very long."""
    found = NUMBER.fullmatch(word)
    if not found or not (found[2] or found[3]) or len(word) > LONGEST_NUMBER:
        return None
    digits = int(found[2] + found[3])
    exponent = max(-MOST_EXPONENT, min(MOST_EXPONENT, int(found[4] or 0)))
    value = Fraction(digits) * Fraction(10) ** (exponent - len(found[3]))
    return -value if found[1] == "-" else value


def wanted_decimal(word: str, line: int | None = None) -> Fraction:
    """The exact number of a decimal. `ModelError`: the word is none."""
    value = decimal(word)
    if value is None:
        raise ModelError(f"{word[:40]} is no number", line)
    return value


def shown(value: Fraction) -> str:
    """A number as a message shows it."""
    return repr(float(value)).removesuffix(".0") if abs(value) < 10**300 else "of more than 300 digits"


def is_infinity(word: str) -> bool:
    """Whether the word is an infinity, with any sign."""
    if re.fullmatch(r"[+-]?inf(inity)?", word, re.IGNORECASE):
        return True
    value = decimal(word)
    return value is not None and abs(value) >= INFINITY


def add_term(terms: dict[int, Fraction], place: int, value: Fraction) -> None:
    """Adds a number to the term of a column. A term of 0 is left out."""
    total = terms[place] + value if place in terms else value
    if total:
        terms[place] = total
    else:
        terms.pop(place, None)
