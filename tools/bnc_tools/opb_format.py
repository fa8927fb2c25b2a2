"""Reads pseudo-Boolean models in the OPB format: columns that are 0 or 1, whole numbers, linear terms."""
from __future__ import annotations

import re
from dataclasses import dataclass
from fractions import Fraction

from .linear_model import Column, LinearModel, ModelError, Row, add_term, wanted_decimal


@dataclass
class Statement:
    """The words up to a semicolon, and the line on which they begin."""

    words: list[str]
    line: int


def statements_of(text: str) -> list[Statement]:
    """The statements of a text, without its comments. `ModelError`: the last one has no end."""
    made, words, begun = [], [], 0
    for number, line in enumerate(text.split("\n"), 1):
        if line.lstrip().startswith("*"):
            continue
        for word in re.findall(r";|(?:min|max|soft):|[<>]?=|[\[\]]|[^\s;<>=\[\]]+|[<>]", line):
            if word == ";":
                made.append(Statement(words, begun))
                words = []
            else:
                begun = begun if words else number
                words.append(word)
    if words:
        raise ModelError("the text ends within a statement: see whether the file is whole", begun)
    return made


def read_sum(model: LinearModel, statement: Statement, words: list[str]) -> tuple[dict[int, Fraction], Fraction]:
    """The terms and the constant of a sum of numbers times literals; `~x` is 1 - x. `ModelError`: a word that doesn't belong there."""
    terms: dict[int, Fraction] = {}
    constant = Fraction(0)
    if len(words) % 2:
        has_product = any(is_literal(a) and is_literal(b) for a, b in zip(words, words[1:]))
        raise ModelError("a product of columns, which isn't linear" if has_product else "a number without a column", statement.line)
    for number, literal in zip(words[0::2], words[1::2]):
        if is_literal(number) and is_literal(literal):
            raise ModelError("a product of columns, which isn't linear", statement.line)
        if not re.fullmatch(r"[+-]?[0-9]+", number) or not is_literal(literal):
            raise ModelError(f"unexpected {number} {literal}", statement.line)
        name = literal.removeprefix("~")
        factor = wanted_decimal(number, statement.line)
        if literal != name:
            constant, factor = constant + factor, -factor
        add_term(terms, binary_place(model, name), factor)
    return terms, constant


def is_literal(word: str) -> bool:
    """Whether a word is a column, or a column behind a `~`."""
    return bool(re.fullmatch(r"~?[A-Za-z_][^\s~]*", word))


def binary_place(model: LinearModel, name: str) -> int:
    """The place of a column that is 0 or 1."""
    if name not in model.places:
        model.places[name] = len(model.columns)
        model.columns.append(Column(name, Fraction(0), Fraction(1), True))
    return model.places[name]


def read_row(model: LinearModel, statement: Statement) -> Row:
    """A row: a sum, a comparison and a whole number."""
    words = statement.words
    if len(words) < 2 or words[-2] not in (">=", "<=", "="):
        raise ModelError("a row has no comparison with a number at its end", statement.line)
    sense, right = words[-2], words[-1]
    if not re.fullmatch(r"[+-]?[0-9]+", right):
        raise ModelError(f"the right side {right} is no whole number", statement.line)
    terms, constant = read_sum(model, statement, words[:-2])
    side = wanted_decimal(right, statement.line) - constant
    return Row(f"R{len(model.rows) + 1}", None if sense == "<=" else side, None if sense == ">=" else side, terms)


def read_opb(text: str) -> LinearModel:
    """The model of a text in OPB. `ModelError`: the text is no such model, or has soft rows or products."""
    model = LinearModel()
    for place, statement in enumerate(statements_of(text)):
        first = statement.words[0] if statement.words else ""
        if first in ("soft:", "["):
            raise ModelError("soft rows have no counterpart in a linear model", statement.line)
        if first in ("min:", "max:"):
            if place:
                raise ModelError("the objective doesn't stand first", statement.line)
            model.is_maximised = first == "max:"
            model.objective, model.constant = read_sum(model, statement, statement.words[1:])
        elif statement.words:
            model.rows.append(read_row(model, statement))
    return model
