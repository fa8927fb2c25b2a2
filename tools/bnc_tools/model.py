"""Reads models: texts in free MPS, as docs/MODEL_FORMAT.md states them.

The reader is written from that page and shares nothing with the program. It refuses what the program refuses, by the same line and kind, but that
it has no limit on the number of columns and rows.
"""
import re
from dataclasses import dataclass, field
from fractions import Fraction
from math import ceil, floor
from typing import Optional

from .exact import Number, lowest
from .faults import MODEL, Fault, place, printable, whole

LARGEST = 10 ** 9  # the greatest size of a number of a model
INFINITE = 10 ** 20  # from this size on a bound is an infinity
FINEST = 15  # places behind the point
WORDS = {"MIN": False, "MINIMIZE": False, "MAX": True, "MAXIMIZE": True}
NUMBER = re.compile(r"([+-]?)([0-9]*)\.?([0-9]*)(?:[eE]([+-]?[0-9]+))?")
INFINITY = re.compile(r"([+-]?)inf(inity)?", re.I)
FIELD = re.compile(r"[!-~]{1,255}")


class Refusal(Exception):
    """What is wrong with a line of a model: its kind, as docs/MODEL_FORMAT.md lists it, and a word that shows where."""

    def __init__(self, kind: str, word: str = "", line: Optional[int] = None):
        super().__init__(kind)
        self.kind, self.word, self.line = kind, word, line


@dataclass(slots=True)
class Column:
    """A column: its name, its bounds, and what the sections have said of it so far."""

    name: str
    line: int  # the first line that names it
    is_whole: bool
    low: Optional[int] = 0
    high: Optional[int] = None
    is_negative: bool = False  # the upper bound was set below 0 by UP or UI
    has_low: bool = False  # a line said something of the lower bound


@dataclass(slots=True)
class ModelRow:
    """A row: its name, its sense (G, L or E), its right side, and its coefficients by the numbers of the columns."""

    name: str
    sense: str
    side: Number
    terms: dict[int, Number]


@dataclass(slots=True)
class Model:
    """A model: columns and rows in their order, a row with a range as two rows, and the objective with its direction."""

    title: str
    columns: list[Column]
    rows: list[ModelRow]
    objective: dict[int, Number]
    maximise: bool

    def names(self) -> list[str]:
        return [column.name for column in self.columns]


# ---- numbers

@dataclass(slots=True)
class Spelling:
    """A number of a text: its sign, its digits without zeros at their ends, and the power of ten that they are multiplied by."""

    sign: int
    digits: str
    power: int

    def is_infinite(self) -> bool:
        return bool(self.digits) and len(self.digits) + self.power > 20

    def value(self) -> Number:
        """The exact number. `Refusal`: TooLarge or TooFine."""
        if not self.digits:
            return 0
        places = len(self.digits) + self.power  # in front of the point
        if places > 10 or places == 10 and self.size() > LARGEST:
            raise Refusal("TooLarge")
        if self.power < -FINEST:
            raise Refusal("TooFine")
        return self.sign * self.size()

    def size(self) -> Number:
        return lowest(int(self.digits) * Fraction(10) ** self.power)


def spelling(word: str) -> Optional[Spelling]:
    """The number that a field spells, or none."""
    found = NUMBER.fullmatch(word)
    if not found or not (found[2] or found[3]):
        return None
    digits, power = (found[2] + found[3]).lstrip("0"), int(found[4] or 0) - len(found[3])
    short = digits.rstrip("0")
    return Spelling(-1 if found[1] == "-" else 1, short, power + len(digits) - len(short))


def coefficient(word: str) -> Number:
    """A number of COLUMNS."""
    found = spelling(word)
    if found is None:
        raise Refusal("BadNumber", word)
    return found.value()


def finite(word: str) -> Number:
    """A number of RHS or RANGES."""
    found = spelling(word)
    if INFINITY.fullmatch(word) or found is not None and found.is_infinite():
        raise Refusal("Infinite", word)
    return coefficient(word)


def bound(word: str, above: Optional[bool]) -> Optional[Number]:
    """A number of BOUNDS, or none where it is an infinity on the side (above or not) on which it takes the bound away."""
    word_found, found = INFINITY.fullmatch(word), spelling(word)
    if word_found or found is not None and found.is_infinite():
        is_above = word_found[1] != "-" if word_found else found.sign > 0
        if above is None or is_above != above:
            raise Refusal("Infinite", word)
        return None
    return coefficient(word)


# ---- sections

@dataclass
class Sections:
    """What the sections have said so far. Rows and columns are found by their names."""

    title: str = ""
    maximise: Optional[bool] = None
    senses: dict[str, str] = field(default_factory=dict)
    rows_line: int = 0
    objective: Optional[str] = None
    columns: dict[str, Column] = field(default_factory=dict)
    numbers: dict[str, int] = field(default_factory=dict)
    terms: dict[str, dict[int, Number]] = field(default_factory=dict)
    last: Optional[str] = None  # the column of the last line
    seen: set[str] = field(default_factory=set)  # the rows that this column has named
    is_whole: bool = False  # the last marker was INTORG
    sides: dict[str, Number] = field(default_factory=dict)
    ranges: dict[str, Number] = field(default_factory=dict)
    sets: dict[str, str] = field(default_factory=dict)

    # ---- data lines

    def take(self, section: str, fields: list[str], line: int):
        """A data line of a section. `Refusal`: what is wrong with it."""
        takers = {"ROWS": self.row, "COLUMNS": self.column, "RHS": self.right_side, "RANGES": self.range, "BOUNDS": self.bound}
        if section not in takers:
            raise Refusal("BadSection", fields[0])
        for word in fields:
            if not FIELD.fullmatch(word):
                raise Refusal("BadFields", word)
        takers[section](fields, line)

    def row(self, fields: list[str], _line: int):
        if len(fields) != 2 or fields[0] not in ("N", "L", "G", "E"):
            raise Refusal("BadFields", fields[0])
        sense, name = fields
        if name in self.senses:
            raise Refusal("Duplicate", name)
        self.senses[name] = sense
        if sense == "N" and self.objective is None:
            self.objective = name

    def column(self, fields: list[str], line: int):
        if len(fields) == 3 and fields[1] == "'MARKER'" and fields[2] in ("'INTORG'", "'INTEND'"):
            self.is_whole = fields[2] == "'INTORG'"
            return
        if len(fields) not in (3, 5):
            raise Refusal("BadFields", fields[0])
        if fields[1] not in self.senses:
            raise Refusal("UnknownRow", fields[1])
        self.open_column(fields[0], line)
        for row, word in zip(fields[1::2], fields[2::2]):
            self.entry(row, word)

    def open_column(self, name: str, line: int):
        """Begins a column, unless it is that of the last line."""
        if name == self.last:
            return
        if name in self.columns:
            raise Refusal("Duplicate", name)
        self.numbers[name] = len(self.columns)
        self.columns[name] = Column(name, line, self.is_whole)
        self.last, self.seen = name, set()

    def entry(self, row: str, word: str):
        self.known(row, self.seen)
        value = coefficient(word)
        if value != 0:
            self.terms.setdefault(row, {})[self.numbers[self.last]] = value

    def known(self, row: str, seen: set[str]):
        """Notes a row that a line names. `Refusal`: it isn't there, or was named before."""
        if row not in self.senses:
            raise Refusal("UnknownRow", row)
        if row in seen:
            raise Refusal("Duplicate", row)
        seen.add(row)

    def without_set(self, section: str, fields: list[str], named: bool) -> list[str]:
        """The fields behind the set's name, where there is one. `Refusal`: it is another one than before."""
        if not named:
            return fields
        if self.sets.setdefault(section, fields[0]) != fields[0]:
            raise Refusal("ManySets", fields[0])
        return fields[1:]

    def right_side(self, fields: list[str], _line: int):
        self.pairs("RHS", self.sides, fields)

    def range(self, fields: list[str], _line: int):
        self.pairs("RANGES", self.ranges, fields)

    def pairs(self, section: str, into: dict[str, Number], fields: list[str]):
        if len(fields) not in (2, 3, 4, 5):
            raise Refusal("BadFields", fields[0])
        fields = self.without_set(section, fields, len(fields) % 2 == 1)
        for row, word in zip(fields[0::2], fields[1::2]):
            if row not in self.senses:
                raise Refusal("UnknownRow", row)
            if row in into:
                raise Refusal("Duplicate", row)
            into[row] = finite(word)

    # ---- bounds

    def bound(self, fields: list[str], _line: int):
        kind, rest = fields[0], fields[1:]
        if kind in ("UP", "LO", "FX", "LI", "UI") and len(rest) in (2, 3):
            name, word = self.without_set("BOUNDS", rest, len(rest) == 3)
            self.set_bound(kind, self.named(name), word)
        elif kind in ("FR", "MI", "PL", "BV") and len(rest) in (1, 2, 3):
            name = self.without_set("BOUNDS", rest, len(rest) > 1)[0]
            self.free_bound(kind, self.named(name))
        else:
            raise Refusal("BadFields", kind)

    def named(self, name: str) -> Column:
        if name not in self.columns:
            raise Refusal("UnknownColumn", name)
        return self.columns[name]

    def set_bound(self, kind: str, column: Column, word: str):
        """UP, UI, LO, LI and FX. A fractional bound is rounded inward."""
        if kind in ("UP", "UI"):
            value = bound(word, True)
            column.high, column.is_negative = None if value is None else floor(value), value is not None and value < 0
        elif kind in ("LO", "LI"):
            value = bound(word, False)
            column.low, column.has_low = None if value is None else ceil(value), True
        else:
            value = bound(word, None)
            column.low, column.high, column.has_low, column.is_negative = ceil(value), floor(value), True, False
        column.is_whole = column.is_whole or kind in ("LI", "UI")

    def free_bound(self, kind: str, column: Column):
        """FR, MI, PL and BV."""
        if kind == "BV":
            column.low, column.high, column.is_whole = 0, 1, True
        if kind in ("FR", "MI"):
            column.low = None
        if kind in ("FR", "PL"):
            column.high = None
        if kind != "MI":
            column.is_negative = False
        if kind != "PL":
            column.has_low = True

    # ---- the end

    def judge(self, upper: Optional[int]):
        """`Refusal`: what the whole text lacks, with its line."""
        if self.objective is None:
            raise Refusal("NoObjective", line=self.rows_line)
        for column in self.columns.values():
            if not column.is_whole:
                raise Refusal("Continuous", column.name, column.line)
            if column.is_negative and not column.has_low:
                raise Refusal("NegativeUpper", column.name, column.line)
            if upper is None and (column.low is None or column.high is None):
                raise Refusal("NoBound", column.name, column.line)

    def rows_of(self, name: str) -> list[ModelRow]:
        """The row of a name; two where it has a range."""
        terms, side, sense = self.terms.get(name, {}), self.sides.get(name, 0), self.senses[name]
        if name not in self.ranges:
            return [ModelRow(name, sense, side, terms)]
        width = self.ranges[name]
        low = side - abs(width) if sense == "L" or sense == "E" and width < 0 else side
        return [ModelRow(name, "G", lowest(low), terms), ModelRow(name, "L", lowest(low + abs(width)), terms)]

    def model(self, upper: Optional[int]) -> Model:
        columns = list(self.columns.values())
        for column in columns:
            column.low = -upper if column.low is None else column.low
            column.high = upper if column.high is None else column.high
        rows = [row for name, sense in self.senses.items() if sense != "N" for row in self.rows_of(name)]
        return Model(self.title, columns, rows, self.terms.get(self.objective, {}), bool(self.maximise))


# ---- the text

class Reader:
    """Goes through the lines of a text, from section to section."""

    ORDER = {"NAME": 0, "OBJSENSE": 1, "ROWS": 2, "COLUMNS": 3, "RHS": 4, "RANGES": 4, "BOUNDS": 4, "ENDATA": 5}

    def __init__(self):
        self.sections, self.section, self.passed, self.line = Sections(), None, [], 0

    def read(self, text: str, upper: Optional[int]) -> Model:
        """The model of a text. `Refusal`: with its line."""
        lines = text.split("\n")
        ends = [line[:-1] if line.endswith("\r") else line for line in lines[:-1]]
        for number, line in enumerate(ends + ([lines[-1]] if lines[-1] else []), start=1):
            self.line = number
            if line.startswith("*") or not line.strip(" \t"):
                continue
            if self.one(line, [word for word in re.split(r"[ \t]+", line) if word]):
                self.sections.judge(upper)
                return self.sections.model(upper)
        raise Refusal("NoEnd")

    def one(self, line: str, fields: list[str]) -> bool:
        """A line that isn't empty. Whether it is ENDATA."""
        if line[0] not in " \t":
            self.begin(line, fields)
            return self.section == "ENDATA"
        if self.section == "OBJSENSE" and self.sections.maximise is None:
            self.direction(fields)
        else:
            self.sections.take(self.section or "", fields, self.line)
        return False

    def begin(self, line: str, fields: list[str]):
        """A section line."""
        word = fields[0]
        if word not in self.ORDER or not self.comes(word):
            raise Refusal("BadSection", word)
        if len(fields) > 1 and word not in ("NAME", "OBJSENSE"):
            raise Refusal("BadSection", fields[1])
        self.section = word
        self.passed.append(word)
        if word == "NAME":
            self.sections.title = line[4:].strip(" \t")
        elif word == "ROWS":
            self.sections.rows_line = self.line
        elif word == "OBJSENSE" and len(fields) > 1:
            self.direction(fields[1:])

    def comes(self, word: str) -> bool:
        """Whether this section may come now."""
        if self.section == "OBJSENSE" and self.sections.maximise is None or word in self.passed:
            return False
        last = max((self.ORDER[passed] for passed in self.passed), default=-1)
        needed = {2: -1, 3: 2, 4: 3, 5: 3}.get(self.ORDER[word], -1)
        return self.ORDER[word] >= last and last >= needed

    def direction(self, fields: list[str]):
        if len(fields) != 1 or fields[0] not in WORDS:
            raise Refusal("BadSection", fields[-1])
        self.sections.maximise = WORDS[fields[0]]


def model_of(text: bytes, upper: Optional[int] = None) -> Model:
    """The model of a text, with bounds from `upper` for the columns that lack one. `Refusal`: its kind and its line."""
    reader = Reader()
    try:
        return reader.read(text.decode("latin-1"), upper)
    except Refusal as refusal:
        refusal.line = reader.line if refusal.line is None else refusal.line
        raise


def read_model(path: str, upper: Optional[int] = None) -> Model:
    """The model of the file at a path. `Fault`: it can't be read, or is refused; then with its line and kind."""
    return judged(path, whole(path), upper)


def judged(path: str, text: bytes, upper: Optional[int] = None) -> Model:
    """The model of a text that stands at a path. `Fault`: it is refused."""
    try:
        return model_of(text, upper)
    except Refusal as refusal:
        named = f" ({printable(refusal.word)})" if refusal.word else ""
        hint = ": give --upper" if refusal.kind == "NoBound" else ""
        raise Fault(MODEL, place(path, refusal.line), f"the model is refused: {refusal.kind}{named}{hint}") from None
