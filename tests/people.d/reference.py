"""A second checker of certificates, written before `tools/bnc-check` and apart from it: slow, whole in memory, in fractions, by the rules of
docs/CERTIFICATE.md alone. The tests compare the two. Its models have to be ones that `bnc` accepts.
"""
import re
from fractions import Fraction
from math import ceil, floor


class Wrong(Exception):
    """What is wrong with a certificate."""


def need(holds, what):
    if not holds:
        raise Wrong(what)


# ---- the model

class Model:
    """Names, rows (sense, right side, terms), the objective's terms and direction, and a pair of bounds for each column. Terms go from columns to numbers."""

    def __init__(self):
        self.names, self.rows, self.objective, self.maximise, self.bounds = [], [], {}, False, []


def number(field):
    """The exact number of a field of a model."""
    found = re.fullmatch(r"([+-]?)([0-9]*)\.?([0-9]*)(?:[eE]([+-]?[0-9]+))?", field)
    need(found and (found[2] or found[3]), f"no number: {field}")
    digits = int((found[2] + found[3]).lstrip("0") or "0")
    if digits == 0:
        return Fraction(0)
    return (-1 if found[1] == "-" else 1) * Fraction(digits) * Fraction(10) ** (int(found[4] or 0) - len(found[3]))


def is_infinite(field):
    return bool(re.fullmatch(r"[+-]?inf(inity)?", field, re.I)) or abs(number(field)) >= Fraction(10) ** 20


class Sections:
    """What the sections of a text say, each row and column by its name."""

    def __init__(self):
        self.names, self.column, self.senses, self.order, self.objective, self.direction = [], {}, {}, [], None, "MIN"
        self.terms, self.sides, self.ranges, self.low, self.high = {}, {}, {}, {}, {}

    def rows(self, fields):
        kind, name = fields
        self.senses[name] = kind
        if kind != "N":
            self.order.append(name)
        elif self.objective is None:
            self.objective = name

    def columns(self, fields):
        if len(fields) == 3 and fields[1] == "'MARKER'" and fields[2] in ("'INTORG'", "'INTEND'"):
            return
        name = fields[0]
        if name not in self.column:
            self.column[name] = len(self.names)
            self.names.append(name)
        for row, value in zip(fields[1::2], fields[2::2]):
            if number(value) != 0:
                self.terms.setdefault(row, {})[self.column[name]] = number(value)

    def pairs(self, into, fields):
        fields = fields[len(fields) % 2:]
        for row, value in zip(fields[0::2], fields[1::2]):
            into[row] = number(value)

    def bound(self, fields):
        kind = fields[0]
        if kind in ("FR", "MI", "PL", "BV"):
            name, value = fields[1] if len(fields) == 2 else fields[2], None
        else:
            name, value = fields[-2], fields[-1]
        at = self.column[name]
        if kind in ("UP", "UI"):
            self.high[at] = None if is_infinite(value) else floor(number(value))
        elif kind in ("LO", "LI"):
            self.low[at] = None if is_infinite(value) else ceil(number(value))
        elif kind == "FX":
            self.low[at], self.high[at] = ceil(number(value)), floor(number(value))
        elif kind == "BV":
            self.low[at], self.high[at] = 0, 1
        if kind in ("FR", "MI"):
            self.low[at] = None
        if kind in ("FR", "PL"):
            self.high[at] = None

    def take(self, section, fields):
        if section == "OBJSENSE":
            self.direction = fields[0]
        elif section == "ROWS":
            self.rows(fields)
        elif section == "COLUMNS":
            self.columns(fields)
        elif section == "RHS":
            self.pairs(self.sides, fields)
        elif section == "RANGES":
            self.pairs(self.ranges, fields)
        elif section == "BOUNDS":
            self.bound(fields)

    def row(self, name):
        """The row of this name; two where it has a range."""
        terms, side, sense = self.terms.get(name, {}), self.sides.get(name, Fraction(0)), self.senses[name]
        if name not in self.ranges:
            return [(sense, side, terms)]
        width = self.ranges[name]
        low = side - abs(width) if sense == "L" or sense == "E" and width < 0 else side
        return [("G", low, terms), ("L", low + abs(width), terms)]

    def model(self, upper):
        made = Model()
        made.names = self.names
        made.objective = self.terms.get(self.objective, {})
        made.maximise = self.direction.startswith("MAX")
        for name in self.order:
            made.rows += self.row(name)
        for at in range(len(self.names)):
            low, high = self.low.get(at, 0), self.high.get(at)
            need(upper is not None or low is not None and high is not None, f"column {self.names[at]} lacks a bound")
            made.bounds.append((-upper if low is None else low, upper if high is None else high))
        return made


def read_model(text, upper=None):
    """The model of a text, in bytes, that `bnc` accepts."""
    sections, section = Sections(), None
    for line in text.decode("latin-1").split("\n"):
        fields = [field for field in re.split(r"[ \t\r]+", line) if field]
        if line.startswith("*") or not fields:
            continue
        if line[0] in " \t":
            sections.take(section, fields)
        else:
            section = fields[0]
            if section == "ENDATA":
                break
            if section == "OBJSENSE" and len(fields) > 1:
                sections.take(section, fields[1:])
    return sections.model(upper)


# ---- the certificate

class Words:
    """The words of one line, taken one by one."""

    def __init__(self, line):
        self.words, self.at = line.split(" "), 0

    def word(self):
        need(self.at < len(self.words), "a line ends too early")
        self.at += 1
        return self.words[self.at - 1]

    def whole(self):
        word = self.word()
        need(re.fullmatch(r"-?(0|[1-9][0-9]*)", word) and word != "-0", f"no whole number: {word}")
        return int(word)

    def number(self):
        word = self.word()
        found = re.fullmatch(r"(-?(?:0|[1-9][0-9]*))(?:/([1-9][0-9]*))?", word)
        need(found, f"no number: {word}")
        value = Fraction(int(found[1]), int(found[2] or 1))
        need(str(value) == word, f"not in lowest terms: {word}")
        return value

    def pairs(self):
        """A list: how many pairs, and each with a number that rises and a value that is not 0."""
        found, last = {}, -1
        for _ in range(self.whole()):
            index, value = self.whole(), self.number()
            need(index > last and value != 0, "a list does not rise, or has a 0")
            found[index], last = value, index
        return found

    def end(self):
        need(self.at == len(self.words), "a line has too many words")


class Lines:
    """The lines of a text, taken one by one."""

    def __init__(self, text):
        need(text.endswith(b"\n"), "the last line has no line feed")
        self.lines, self.at = text.decode("latin-1")[:-1].split("\n"), 0

    def raw(self):
        need(self.at < len(self.lines), "the text ends too early")
        self.at += 1
        return self.lines[self.at - 1]

    def words(self, *wanted):
        """The next line's words, of which these have to be the first."""
        words = Words(self.raw())
        for word in wanted:
            need(words.word() == word, f"line {self.at}: {word} is missing")
        return words

    def fixed(self, *wanted):
        self.words(*wanted).end()

    def row(self):
        """A row behind its label, and the words behind it."""
        words = self.words()
        words.word()
        sense = words.word()
        need(sense in ("G", "L", "E"), "a row has no sense")
        return (sense, words.number(), words.pairs()), words

    def end(self):
        need(self.at == len(self.lines), "there is more behind the last line")


def is_absurd(row):
    sense, side, terms = row
    return not terms and (sense == "G" and side > 0 or sense == "L" and side < 0)


def dominates(row, other):
    if is_absurd(row):
        return True
    if row[0] != other[0] or row[2] != other[2]:
        return False
    return row[1] >= other[1] if row[0] == "G" else row[1] <= other[1] if row[0] == "L" else row[1] == other[1]


def satisfies(row, point):
    sense, side, terms = row
    value = sum(number * point.get(column, 0) for column, number in terms.items())
    return value >= side if sense == "G" else value <= side if sense == "L" else value == side


class Derivation:
    """The lines so far: the row of each, what it assumes, and its reason."""

    def __init__(self, rows):
        self.rows = list(rows)
        self.assumed = [frozenset()] * len(rows)
        self.reasons = [None] * len(rows)

    def combination(self, sense, multipliers):
        """The right side, the terms and the assumptions of a combination of earlier lines, for a row of this sense."""
        side, terms, assumed = Fraction(0), {}, frozenset()
        for index, factor in multipliers.items():
            need(0 <= index < len(self.rows), "a reference to a later line")
            of, right, numbers = self.rows[index]
            need(of == "E" or (factor > 0) == (of == sense), "a multiplier has the wrong sign")
            side += factor * right
            for column, value in numbers.items():
                terms[column] = terms.get(column, 0) + factor * value
            assumed |= self.assumed[index]
        return side, {column: value for column, value in terms.items() if value != 0}, assumed

    def combined(self, reason, row, multipliers):
        side, terms, assumed = self.combination(row[0], multipliers)
        if reason == "rnd":
            need(all(value.denominator == 1 for value in terms.values()), "a rounded combination has a fraction")
            side = Fraction(ceil(side) if row[0] == "G" else floor(side))
        need(dominates((row[0], side, terms), row), "a combination does not dominate its line")
        return assumed

    def split(self, row, left, below, right, above):
        for index in (left, below, right, above):
            need(0 <= index < len(self.rows), "a reference to a later line")
        need(dominates(self.rows[left], row) and dominates(self.rows[right], row), "a part does not dominate its line")
        need(self.reasons[below] == self.reasons[above] == "asm", "a branch is no assumption")
        (low, most, terms), (high, least, others) = self.rows[below], self.rows[above]
        need((low, high) == ("L", "G") and terms == others, "two branches are not of one sum")
        whole = all(value.denominator == 1 for value in [most, *terms.values()])
        need(whole and least == most + 1, "two branches leave whole points out")
        return (self.assumed[left] - {below}) | (self.assumed[right] - {above})

    def add(self, row, words):
        """Adds a derived line, whose reason comes next."""
        need(row[0] in ("G", "L"), "a derived line is neither a G nor an L row")
        need(words.word() == "{", "a brace is missing")
        reason = words.word()
        if reason == "asm":
            assumed = frozenset([len(self.rows)])
        elif reason in ("lin", "rnd"):
            assumed = self.combined(reason, row, words.pairs())
        else:
            need(reason == "uns", f"no reason: {reason}")
            assumed = self.split(row, *(words.whole() for _ in range(4)))
        need(words.word() == "}" and words.word() == "-1", "the end of a derived line is missing")
        words.end()
        self.rows.append(row)
        self.assumed.append(assumed)
        self.reasons.append(reason)


def check_part(lines, model):
    """Checks that the certificate is about the model, and gives the rows, those of the bounds last."""
    columns = len(model.names)
    lines.fixed("VER", "1.0")
    lines.fixed("VAR", str(columns))
    for name in model.names:
        need(lines.raw() == name, f"column {name} is missing")
    lines.fixed("INT", str(columns))
    if columns:
        lines.fixed(*map(str, range(columns)))
    lines.fixed("OBJ", "max" if model.maximise else "min")
    words = lines.words()
    need(words.pairs() == model.objective, "the objective is another")
    words.end()
    wanted = list(model.rows)
    for column, (low, high) in enumerate(model.bounds):
        wanted += [("G", Fraction(low), {column: Fraction(1)}), ("L", Fraction(high), {column: Fraction(1)})]
    lines.fixed("CON", str(len(wanted)), str(2 * columns))
    for index, row in enumerate(wanted):
        found, words = lines.row()
        words.end()
        need(found == row, f"row {index} is another")
    return wanted


def check_points(lines, model, rows):
    """Checks the points, and gives the best value of the objective; none where there is no point."""
    words = lines.words("SOL")
    count, best = words.whole(), None
    words.end()
    for _ in range(count):
        words = lines.words()
        words.word()
        point = words.pairs()
        words.end()
        need(all(value.denominator == 1 and column < len(model.names) for column, value in point.items()), "a point is not whole")
        need(all(satisfies(row, point) for row in rows), "a point is not feasible")
        value = sum((number * point.get(column, 0) for column, number in model.objective.items()), Fraction(0))
        best = value if best is None else max(best, value) if model.maximise else min(best, value)
    return best


def check(text, model):
    """Checks a certificate, in bytes, against a model. It gives the claim as the program tells it. `Wrong`: the certificate is wrong."""
    lines = Lines(text)
    rows = check_part(lines, model)
    words = lines.words("RTP")
    kind = words.word()
    need(kind in ("range", "infeas"), "the claim is neither a range nor infeasibility")
    low, high = (words.number(), words.number()) if kind == "range" else (None, None)
    words.end()
    best = check_points(lines, model, rows)
    derivation = Derivation(rows)
    words = lines.words("DER")
    count = words.whole()
    words.end()
    for _ in range(count):
        derivation.add(*lines.row())
    lines.end()
    need(count > 0 and not derivation.assumed[-1], "the last line assumes something")
    last = derivation.rows[-1]
    if kind == "infeas":
        need(is_absurd(last), "the last line is not absurd")
        return "infeasible"
    shown, bound, reached = ("L", high, low) if model.maximise else ("G", low, high)
    need(dominates(last, (shown, bound, model.objective)), "the last line does not show its end of the range")
    need(best is not None and (best >= reached if model.maximise else best <= reached), "no point shows the other end of the range")
    need(low == high, "the range has more than one number")
    return f"optimal {low}"
