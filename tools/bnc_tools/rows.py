"""Rows in whole numbers: which are absurd, which dominate which, and what rows times multipliers add up to.

A row keeps its numbers over one denominator, its scale. So sums and comparisons need no fraction, and are exact.
"""
from dataclasses import dataclass
from fractions import Fraction
from math import gcd, lcm
from typing import Iterable, Optional

from .exact import Number, lowest


@dataclass(slots=True, eq=False)
class Row:
    """A row: `values[i] / scale` times column `columns[i]`, summed up, is at least (G), at most (L) or equal to (E) `side / scale`.

    Columns rise, no value is 0, and the scale is at least 1.
    """

    sense: str
    side: int
    columns: tuple[int, ...]
    values: tuple[int, ...]
    scale: int

    def right_side(self) -> Number:
        return quotient(self.side, self.scale)

    def terms(self) -> list[tuple[int, Number]]:
        return [(column, quotient(value, self.scale)) for column, value in zip(self.columns, self.values)]

    def has_whole_terms(self) -> bool:
        return self.scale == 1 or all(value % self.scale == 0 for value in self.values)

    def has_whole_side(self) -> bool:
        return self.side % self.scale == 0


def quotient(above: int, below: int) -> Number:
    """The exact quotient of two whole numbers."""
    return above // below if above % below == 0 else lowest(Fraction(above, below))


def row_of(sense: str, side: Number, terms: Iterable[tuple[int, Number]]) -> Row:
    """The row of a sense, a right side, and pairs of a column and its coefficient. No column comes twice."""
    kept = sorted((column, value) for column, value in terms if value != 0)
    scale = lcm(side.denominator, *(value.denominator for _, value in kept))
    columns = tuple(column for column, _ in kept)
    values = tuple(value.numerator * (scale // value.denominator) for _, value in kept)
    return Row(sense, side.numerator * (scale // side.denominator), columns, values, scale)


EMPTY = Row("G", 0, (), (), 1)  # `0 >= 0`


def is_absurd(row: Row) -> bool:
    """Whether the row has no coefficients, and 0 misses its right side."""
    if row.columns:
        return False
    return row.side > 0 if row.sense == "G" else row.side < 0 if row.sense == "L" else row.side != 0


def is_void(row: Row) -> bool:
    """Whether the row has no coefficients, and 0 meets its right side: then each point satisfies it."""
    return not row.columns and not is_absurd(row)


def same_terms(one: Row, other: Row) -> bool:
    """Whether two rows have equal coefficients."""
    if one.columns != other.columns:
        return False
    if one.scale == other.scale:
        return one.values == other.values
    return all(a * other.scale == b * one.scale for a, b in zip(one.values, other.values))


def is_as_tight(row: Row, other: Row) -> bool:
    """Whether the right side of a row, for the sense of another one, asks at least as much as the other's."""
    here, there = row.side * other.scale, other.side * row.scale
    return here >= there if other.sense == "G" else here <= there if other.sense == "L" else here == there


def dominates(row: Row, other: Row) -> bool:
    """Whether a row shows another one by itself: it is absurd, or has its coefficients and asks as much; or the other one asks nothing.

    An E row stands for a G and an L row.
    """
    if is_absurd(row):
        return True
    if (row.sense == other.sense or row.sense == "E") and same_terms(row, other) and is_as_tight(row, other):
        return True
    return is_void(other)


def dominates_strictly(row: Row, other: Row) -> bool:
    """The same by docs/CERTIFICATE.md, which knows no E row here and has no rule for rows that ask nothing."""
    if row.sense != "E" and is_absurd(row):
        return True
    return row.sense == other.sense != "E" and same_terms(row, other) and is_as_tight(row, other)


@dataclass(slots=True)
class Sum:
    """What rows times multipliers add up to: the sense that the signs allow (E where they allow both), or none; and the row without its sense."""

    sense: Optional[str]
    row: Row


def sense_of(rows: list[Row], factors: list[Number]) -> Optional[str]:
    """The sense of a combination: G where each G row has a multiplier of at least 0 and each L row one of at most 0, L the other way round,
    E where all rows are E rows or have the multiplier 0. None: neither."""
    is_g = is_l = False
    for row, factor in zip(rows, factors):
        if row.sense != "E" and factor != 0:
            if (row.sense == "G") == (factor > 0):
                is_g = True
            else:
                is_l = True
    return None if is_g and is_l else "G" if is_g else "L" if is_l else "E"


def combined(rows: list[Row], factors: list[Number]) -> Sum:
    """Adds up rows times multipliers."""
    scale, wholes = 1, factors
    if not all(type(factor) is int for factor in factors) or any(row.scale != 1 for row in rows):
        scale = lcm(*(factor.denominator * row.scale for row, factor in zip(rows, factors)))
        wholes = [factor.numerator * (scale // (factor.denominator * row.scale)) for row, factor in zip(rows, factors)]
    side, sums = 0, {}
    for row, factor in zip(rows, wholes):
        side += factor * row.side
        for column, value in zip(row.columns, row.values):
            sums[column] = sums.get(column, 0) + factor * value
    columns = tuple(sorted(column for column, value in sums.items() if value))
    values = tuple(sums[column] for column in columns)
    sense = sense_of(rows, factors)
    return Sum(sense, Row(sense or "E", side, columns, values, scale))


def rounded(row: Row) -> Row:
    """A row whose coefficients are whole, with its right side rounded: up for a G row, down for an L row."""
    side = row.side // row.scale
    if row.sense == "G" and side * row.scale != row.side:
        side += 1
    return Row(row.sense, side, row.columns, tuple(value // row.scale for value in row.values), 1)


def reduced(row: Row) -> Row:
    """The same row over its least scale."""
    shared = gcd(row.scale, row.side, *row.values)
    if shared == 1:
        return row
    return Row(row.sense, row.side // shared, row.columns, tuple(value // shared for value in row.values), row.scale // shared)
