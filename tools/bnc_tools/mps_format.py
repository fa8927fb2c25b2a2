"""Reads models in MPS as other programs write it, in fixed columns or free, with what the profile of `bnc` doesn't have. All numbers are exact."""
from __future__ import annotations

import re
from dataclasses import dataclass
from fractions import Fraction

from .linear_model import LinearModel, ModelError, Row, add_term, is_infinity, wanted_decimal

SECTIONS = ("NAME", "OBJSENSE", "ROWS", "COLUMNS", "RHS", "RANGES", "BOUNDS", "ENDATA")
REFUSED_SECTIONS = {
    "QUADOBJ": "is quadratic", "QMATRIX": "is quadratic", "QSECTION": "is quadratic", "QCMATRIX": "is quadratic", "CSECTION": "has cones",
    "SOS": "has SOS sets", "SOS1": "has SOS sets", "SOS2": "has SOS sets", "SETS": "has SOS sets", "INDICATORS": "has indicators",
    "GENCONS": "has constraints that aren't linear", "LAZYCONS": "has lazy constraints: write them as rows", "USERCUTS": "has cuts of its user",
    "OBJNAME": "names its objective in OBJNAME: put it first in ROWS",
}
# Where a fixed line has its fields, and the places between them that stay blank.
FIELDS = ((1, 3), (4, 12), (14, 22), (24, 36), (39, 47), (49, 61))
NAMES = (FIELDS[1], FIELDS[2], FIELDS[4])
GAPS = (0, 3, 12, 13, 22, 23, 36, 37, 38, 47, 48)
BOUND_TYPES = ("UP", "LO", "FX", "FR", "MI", "PL", "BV", "LI", "UI")
NO_NUMBER = ("FR", "MI", "PL", "BV")


@dataclass
class Data:
    """A data line: its fields, and its number."""

    fields: list[str]
    line: int


def is_data(line: str) -> bool:
    return line[:1] in (" ", "\t") and bool(line.strip())


def is_fixed_line(line: str) -> bool:
    """Whether a data line keeps to the columns of fixed MPS: nothing stands between the fields, and each name begins at the front of its field."""
    if "\t" in line or len(line.rstrip()) > FIELDS[-1][1]:
        return False
    names = [line[first:last] for first, last in NAMES]
    return all(line[at : at + 1] in ("", " ") for at in GAPS) and all(not name.strip() or name[0] != " " for name in names)


def has_blank_names(lines: list[str]) -> bool:
    """Whether the text is in fixed columns, and has a name with a blank in it. Else its fields may be told by blanks alone."""
    data = [line for line in lines if is_data(line)]
    if not all(map(is_fixed_line, data)):
        return False
    return any(" " in line[first:last].strip() for line in data for first, last in FIELDS)


def fields_of(line: str, is_fixed: bool) -> list[str]:
    """The fields of a data line."""
    if not is_fixed:
        return line.split()
    return [part for part in (line[first:last].strip() for first, last in FIELDS) if part]


def finite(word: str, line: int) -> Fraction:
    """The number of a field. `ModelError`: it is none, or an infinity."""
    if is_infinity(word):
        raise ModelError(f"{word[:40]} is an infinity where a number has to be", line)
    return wanted_decimal(word, line)


class MpsReader:
    """Takes the lines of a text, section by section, and fills the model."""

    def __init__(self) -> None:
        self.model = LinearModel()
        self.rows: dict[str, Row] = {}
        self.types: dict[str, str] = {}
        self.free_rows: set[str] = set()
        self.objective = ""
        self.sides: dict[str, Fraction] = {}
        self.ranges: dict[str, Fraction] = {}
        self.is_whole = False
        self.sets: dict[str, str] = {}
        self.lower_told: set[str] = set()

    def objsense(self, data: Data) -> None:
        word = data.fields[0].upper()
        if not re.fullmatch(r"MIN(IMI[SZ]E)?|MAX(IMI[SZ]E)?", word):
            raise ModelError(f"unknown direction {data.fields[0]}", data.line)
        self.model.is_maximised = word.startswith("MAX")

    def row(self, data: Data) -> None:
        if len(data.fields) != 2 or data.fields[0].upper() not in ("N", "L", "G", "E"):
            raise ModelError("a line of ROWS is no type and name", data.line)
        kind, name = data.fields[0].upper(), data.fields[1]
        if name in self.types:
            raise ModelError(f"row {name} stands twice in ROWS", data.line)
        self.types[name] = kind
        if kind != "N":
            self.rows[name] = Row(name, None, None)
        elif not self.objective:
            self.objective = self.model.objective_name = name
        else:
            self.free_rows.add(name)

    def column(self, data: Data) -> None:
        fields = data.fields
        if len(fields) >= 3 and fields[1] == "'MARKER'":
            self.is_whole = fields[-1] == "'INTORG'"
            return
        if len(fields) not in (3, 5):
            raise ModelError("a line of COLUMNS is no column with one or two entries", data.line)
        is_new = fields[0] not in self.model.places
        place = self.model.place(fields[0])
        if is_new:
            self.model.columns[place].is_whole = self.is_whole
        for row, word in zip(fields[1::2], fields[2::2]):
            self.entry(row, place, finite(word, data.line), data.line)

    def entry(self, row: str, place: int, value: Fraction, line: int) -> None:
        if row not in self.types:
            raise ModelError(f"no row of ROWS is called {row}", line)
        if row in self.free_rows:
            return
        terms = self.model.objective if row == self.objective else self.rows[row].terms
        if place in terms:
            raise ModelError(f"column {self.model.columns[place].name} has two entries in row {row}", line)
        add_term(terms, place, value)

    def one_set(self, section: str, name: str, line: int) -> None:
        """`ModelError`: a section has a second set."""
        if self.sets.setdefault(section, name) != name:
            raise ModelError(f"{section} has a second set, {name}: keep one", line)

    def pairs(self, section: str, into: dict[str, Fraction], data: Data) -> None:
        """A line of RHS or RANGES."""
        fields = data.fields
        if len(fields) not in (2, 3, 4, 5):
            raise ModelError(f"a line of {section} has a wrong count of fields", data.line)
        if len(fields) % 2:
            self.one_set(section, fields[0], data.line)
            fields = fields[1:]
        for row, word in zip(fields[0::2], fields[1::2]):
            if row not in self.types:
                raise ModelError(f"no row of ROWS is called {row}", data.line)
            if row in into:
                raise ModelError(f"row {row} stands twice in {section}", data.line)
            into[row] = finite(word, data.line)

    def bound(self, data: Data) -> None:
        """A line of BOUNDS: a type, perhaps the set's name, a column, and a number where the type has one."""
        kind, fields = data.fields[0].upper(), data.fields[1:]
        if kind not in BOUND_TYPES:
            semi = kind in ("SC", "SI", "SF")
            raise ModelError("the model has semi-continuous columns" if semi else f"unknown type of bound {data.fields[0]}", data.line)
        word = "0"
        if kind not in NO_NUMBER and fields:
            word = fields.pop()
        elif len(fields) == 3:
            fields.pop()
        if len(fields) not in (1, 2):
            raise ModelError("a line of BOUNDS has a wrong count of fields", data.line)
        if len(fields) == 2:
            self.one_set("BOUNDS", fields[0], data.line)
        if fields[-1] not in self.model.places:
            raise ModelError(f"no column of COLUMNS is called {fields[-1]}", data.line)
        self.set_bound(kind, fields[-1], word, data.line)

    def set_bound(self, kind: str, name: str, word: str, line: int) -> None:
        """Sets what a line of BOUNDS says. `ModelError`: its number is none, or an infinity that leaves no value."""
        column = self.model.columns[self.model.places[name]]
        endless = is_infinity(word)
        value = None if endless else finite(word, line)
        if endless and (kind == "FX" or word.startswith("-") != (kind in ("LO", "LI"))):
            raise ModelError(f"column {name} has an infinity on the wrong side of a bound", line)
        if kind in ("UP", "UI", "FX"):
            column.high = value
        if kind in ("LO", "LI", "FX"):
            column.low = value
        if kind == "BV":
            column.low, column.high = Fraction(0), Fraction(1)
        if kind in ("FR", "MI"):
            column.low = None
        if kind in ("FR", "PL"):
            column.high = None
        column.is_whole = column.is_whole or kind in ("LI", "UI", "BV")
        if kind not in ("UP", "UI", "PL"):
            self.lower_told.add(name)

    def take(self, section: str, data: Data) -> None:
        """Takes a data line of a section."""
        if section == "OBJSENSE":
            self.objsense(data)
        elif section == "ROWS":
            self.row(data)
        elif section == "COLUMNS":
            self.column(data)
        elif section in ("RHS", "RANGES"):
            self.pairs(section, self.sides if section == "RHS" else self.ranges, data)
        elif section == "BOUNDS":
            self.bound(data)
        else:
            raise ModelError("a data line stands outside of a section", data.line)

    def finish(self) -> LinearModel:
        """The model. `ModelError`: it has no objective, or an upper bound below 0 with nothing said of the lower one."""
        if not self.objective:
            raise ModelError("ROWS has no N row, which would be the objective")
        self.model.constant = -self.sides.get(self.objective, Fraction(0))
        for name, row in self.rows.items():
            row.low, row.high = interval(self.types[name], self.sides.get(name, Fraction(0)), self.ranges.get(name))
            self.model.rows.append(row)
        for column in self.model.columns:
            if column.high is not None and column.high < 0 and column.name not in self.lower_told:
                raise ModelError(f"column {column.name} has an upper bound below 0, and no line says anything of its lower bound: say which is meant")
        return self.model


def interval(kind: str, side: Fraction, width: Fraction | None) -> tuple[Fraction | None, Fraction | None]:
    """The interval of a row of this type, right side and range."""
    if kind == "E":
        return (side, side) if width is None else (min(side, side + width), max(side, side + width))
    if kind == "G":
        return side, None if width is None else side + abs(width)
    return None if width is None else side - abs(width), side


def section_of(line: str, number: int) -> tuple[str, list[str]]:
    """The section that a line begins, and the words behind it. `ModelError`: the section isn't taken."""
    word, *rest = line.split()
    name = word.upper()
    if name == "RANGE":
        name = "RANGES"
    if name in REFUSED_SECTIONS:
        raise ModelError(f"the model {REFUSED_SECTIONS[name]}", number)
    if name not in SECTIONS:
        raise ModelError(f"unknown section {word}", number)
    return name, rest


def read_mps(text: str) -> LinearModel:
    """The model of a text in MPS. `ModelError`: the text is no such model, or has what isn't linear."""
    lines = [line.rstrip("\r") for line in text.split("\n")]
    is_fixed = has_blank_names(lines)
    reader, section, number = MpsReader(), "", 0
    # PuLP tells the direction in a comment, and nowhere else.
    reader.model.is_maximised = lines[0].startswith("*SENSE:Maximize")
    for number, line in enumerate(lines, 1):
        if line.startswith("*") or not line.strip():
            continue
        if is_data(line):
            reader.take(section, Data(fields_of(line, is_fixed), number))
            continue
        section, rest = section_of(line, number)
        if section == "ENDATA":
            return reader.finish()
        if section == "NAME" and rest:
            reader.model.title = rest[0]
        if section == "OBJSENSE" and rest:
            reader.objsense(Data(rest, number))
    raise ModelError("the text ends without ENDATA: see whether the file is whole", number)
