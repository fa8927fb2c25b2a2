"""Writes a model in the profile of free MPS that `bnc` reads (docs/MODEL_FORMAT.md), and says why one can't be written so."""
from __future__ import annotations

import re
from dataclasses import dataclass
from fractions import Fraction
from functools import lru_cache

from .exact import decimal
from .linear_model import Column, LinearModel, ModelError, Row, shown

MOST_COLUMNS = 8000
MOST_ROWS = 8000
MOST_SIZE = 10**9
MOST_PLACES = 15
MOST_BYTES = 33_554_432


@dataclass
class ProfileText:
    """A model's text in the profile, and the names that its columns and rows have there, by their places."""

    text: str
    column_names: list[str]
    row_names: list[str]


@lru_cache(maxsize=10_000)
def spelled(value: Fraction) -> str:
    """The decimal of a number. `ModelError`: it has none with at most 15 places behind the point."""
    text = decimal(value, MOST_PLACES)
    if text.startswith("about "):
        raise ModelError(f"the number {shown(value)} has more than {MOST_PLACES} places behind the point: round it, or multiply its row")
    return text


def is_taken_name(name: str) -> bool:
    """Whether the profile takes this name of a row or a column, and no line can be read otherwise by it."""
    return bool(re.fullmatch(r"[!-~]{1,255}", name)) and name != "'MARKER'" and not name.startswith("*")


def profile_names(names: list[str], stem: str) -> list[str]:
    """These names, in which each that the profile refuses, or that stands there already, is replaced by the stem and its place."""
    used = {name for name in names if is_taken_name(name)}
    made, seen = [], set()
    for place, name in enumerate(names):
        if not is_taken_name(name) or name in seen:
            name = f"{stem}_{place + 1}"
            while name in used:
                name += "_"
            used.add(name)
        seen.add(name)
        made.append(name)
    return made


def is_fixed_whole(column: Column) -> bool:
    """Whether a column has one value, a whole number: it may be called whole, whatever the model says."""
    return column.low is not None and column.low == column.high and column.low.denominator == 1


def column_fault(column: Column) -> str | None:
    """Why the profile has no such column, if it hasn't."""
    name = column.name
    if not column.is_whole and not is_fixed_whole(column):
        return f"column {name} is continuous: bnc solves models of whole columns only"
    if column.low is None:
        return f"column {name} has no lower bound: add it, or use --upper"
    if column.high is None:
        return f"column {name} has no upper bound: add it, or use --upper"
    return None


def size_fault(model: LinearModel) -> str | None:
    """Why the profile has no model of this size, if it hasn't."""
    rows = sum(2 if is_ranged(row) else 1 for row in model.rows if not is_free(row))
    if len(model.columns) > MOST_COLUMNS:
        return f"the model has {len(model.columns)} columns: bnc takes at most {MOST_COLUMNS}"
    if rows > MOST_ROWS:
        return f"the model has {rows} rows (a row with two sides counts twice): bnc takes at most {MOST_ROWS}"
    return None


def number_fault(model: LinearModel) -> str | None:
    """The first number that is too large or too fine for the profile, and where it stands, if there is one."""
    for where, values in numbers(model):
        for value in values:
            if abs(value) > MOST_SIZE:
                return f"the number {shown(value)} of {where} is above {MOST_SIZE}: divide the row, or bound the column more closely"
            if 10**MOST_PLACES % value.denominator:
                return f"the number {shown(value)} of {where} has more than {MOST_PLACES} places behind the point: round it, or multiply the row"
    return None


def numbers(model: LinearModel):
    """Each part of a model that has numbers, by what it is called, with these numbers."""
    yield "the objective", model.objective.values()
    for row in model.rows:
        if not is_free(row):
            sides = [side for side in (row.low, row.high) if side is not None]
            width = [row.high - row.low] if is_ranged(row) else []
            yield f"row {row.name}", [*row.terms.values(), *sides, *width]
    for column in model.columns:
        yield f"column {column.name}", [bound for bound in (column.low, column.high) if bound is not None]


def profile_fault(model: LinearModel) -> str | None:
    """Why the profile doesn't have this model, by the first cause; none where it has it."""
    for fault in (size_fault(model), *map(column_fault, model.columns), number_fault(model)):
        if fault:
            return fault
    return None


def bound_by(model: LinearModel, upper: int) -> None:
    """Gives each column that lacks a bound the bounds of `bnc solve --upper`."""
    for column in model.columns:
        column.low = Fraction(-upper) if column.low is None else column.low
        column.high = Fraction(upper) if column.high is None else column.high


def is_free(row: Row) -> bool:
    """Whether a row asks for nothing."""
    return row.low is None and row.high is None


def is_ranged(row: Row) -> bool:
    """Whether a row has two sides that differ."""
    return row.low is not None and row.high is not None and row.low != row.high


def sense(row: Row) -> str:
    """The type of a row in ROWS. A row of two sides is a G row with a range."""
    return "E" if row.low == row.high else "G" if row.low is not None else "L"


def bound_lines(column: Column, name: str) -> list[str]:
    """The lines of BOUNDS of a column. A lower bound is written wherever an upper one below 0 would leave it open."""
    low, high = column.low, column.high
    if low is not None and low == high:
        return [f" FX bnd {name} {spelled(low)}"]
    if (low, high) == (0, 1):
        return [f" BV bnd {name}"] if column.is_whole else [f" UP bnd {name} 1"]
    lower = [f" MI bnd {name}"] if low is None else [f" LO bnd {name} {spelled(low)}"] if low != 0 or (high is not None and high < 0) else []
    return lower + ([] if high is None else [f" UP bnd {name} {spelled(high)}"])


def column_lines(name: str, entries: list[tuple[str, Fraction]], objective: str) -> list[str]:
    """The lines of COLUMNS of a column. One without an entry has a 0 in the objective."""
    if not entries:
        return [f" {name} {objective} 0"]
    return [f" {name} {row} {spelled(value)}" for row, value in entries]


def remarks(model: LinearModel) -> list[str]:
    """Comment lines that say what the text can't."""
    if not model.constant:
        return []
    return [f"* The constant {spelled(model.constant)} of the objective is left out: add it to the value."]


def entries_by_column(model: LinearModel, objective: str, row_names: list[str]) -> list[list[tuple[str, Fraction]]]:
    """For each column its entries: the row's name, and the number."""
    entries: list[list[tuple[str, Fraction]]] = [[] for _ in model.columns]
    for place, value in model.objective.items():
        entries[place].append((objective, value))
    for name, row in zip(row_names, model.rows):
        if not is_free(row):
            for place, value in row.terms.items():
                entries[place].append((name, value))
    return entries


def columns_section(model: LinearModel, names: list[str], entries: list, objective: str) -> list[str]:
    """COLUMNS: the columns that aren't whole, and then, between markers, those that are. Order among them is kept."""
    lines = ["COLUMNS"]
    whole = [column.is_whole or is_fixed_whole(column) for column in model.columns]
    for place, name in enumerate(names):
        if not whole[place]:
            lines += column_lines(name, entries[place], objective)
    lines.append(" m1 'MARKER' 'INTORG'")
    for place, name in enumerate(names):
        if whole[place]:
            lines += column_lines(name, entries[place], objective)
    return [*lines, " m2 'MARKER' 'INTEND'"]


def sides_sections(kept: list[tuple[str, Row]]) -> list[str]:
    """RHS and RANGES."""
    sides = [(name, row.high if row.low is None else row.low) for name, row in kept]
    lines = ["RHS"] + [f" rhs {name} {spelled(side)}" for name, side in sides if side != 0]
    ranges = [f" rng {name} {spelled(row.high - row.low)}" for name, row in kept if is_ranged(row)]
    return lines + (["RANGES"] + ranges if ranges else [])


def profile_text(model: LinearModel, remark: str = "") -> ProfileText:
    """The model's text in the profile. `ModelError`: a number has no short decimal. Other faults are for `bnc`, or `profile_fault`, to find.

    A row that asks for nothing is left out, and so is the objective's constant. `remark` is a comment for the first line.
    """
    columns = profile_names([column.name for column in model.columns], "column")
    objective, *rows = profile_names([model.objective_name, *(row.name for row in model.rows)], "row")
    kept = [(name, row) for name, row in zip(rows, model.rows) if not is_free(row)]
    title = re.sub(r"[^!-~]+", "_", model.title)[:255] or "model"
    lines = ([f"* {remark}"] if remark else []) + remarks(model) + [f"NAME {title}"]
    lines += (["OBJSENSE MAX"] if model.is_maximised else []) + ["ROWS", f" N {objective}"]
    lines += [f" {sense(row)} {name}" for name, row in kept]
    lines += columns_section(model, columns, entries_by_column(model, objective, rows), objective)
    lines += sides_sections(kept)
    lines.append("BOUNDS")
    for name, column in zip(columns, model.columns):
        lines += bound_lines(column, name)
    return ProfileText("\n".join([*lines, "ENDATA", ""]), columns, rows)
