"""Reads certificates in the format VIPR 1.0, line by line.

A certificate is a sequence of words, which blanks, tabs and line ends part. Its sections come in the order VER, VAR, INT, OBJ, CON, RTP, SOL, DER.
Comments are lines that begin with `%`, in front of VER. `strict` reading holds it to the form that `bnc` writes (docs/CERTIFICATE.md): its lines,
single blanks, numbers in lowest terms, lists that rise, and all sections as that page states them.
"""
import re
import shutil
import tempfile
from dataclasses import dataclass
from typing import BinaryIO, Iterator, Optional

from .exact import Number, exact, spelt
from .faults import WRONG, Fault, place, printable, readable, unreadable
from .rows import Row, row_of

SENSES = {b"G": "G", b"L": "L", b"E": "E"}
REASONS = (b"asm", b"lin", b"rnd", b"uns", b"sol")
MOST_KNOWN = 20_000  # rows and numbers whose reading is remembered
INDEX = re.compile(rb"0|[1-9][0-9]{0,17}")
HINT = re.compile(rb"-1|[0-9]{1,18}")


class Wrong(Fault):
    """What is wrong with a certificate, and where."""

    def __init__(self, where: str, what: str):
        super().__init__(WRONG, where, what)


class Ends(Wrong):
    """The file is a part of a certificate: it ends too early."""


@dataclass(slots=True)
class Claim:
    """What a certificate claims: infeasibility, or a range; an end that is none is an infinity."""

    infeasible: bool
    low: Optional[Number] = None
    high: Optional[Number] = None

    def told(self) -> str:
        """The claim as `bnc` tells it; a range of more than one number by its ends."""
        if self.infeasible:
            return "infeasible"
        if self.low is not None and self.low == self.high:
            return f"optimal {spelt(self.low)}"
        return f"range {'-inf' if self.low is None else spelt(self.low)} {'inf' if self.high is None else spelt(self.high)}"


@dataclass(slots=True)
class Listed:
    """A row of CON with its label, or a point of SOL with its values; and the line of the file where it begins."""

    label: str
    line: int
    row: Optional[Row] = None
    values: Optional[dict[int, Number]] = None


@dataclass(slots=True)
class Head:
    """All that stands in front of the derived lines."""

    names: list[str]
    integers: list[int]
    maximise: bool
    objective: dict[int, Number]
    rows: list[Listed]
    bounds: int  # how many of the rows are said to be bounds
    claim: Optional[Claim] = None
    points: Optional[list[Listed]] = None
    derived: int = 0  # how many derived lines are to follow
    lines: Optional[dict[str, int]] = None  # where each section begins
    mark: Optional[tuple] = None  # where the derived lines begin

    def value_at(self, values: dict[int, Number]) -> Number:
        """The objective at a point."""
        return sum((number * values.get(column, 0) for column, number in self.objective.items()), 0)


@dataclass(slots=True)
class Derived:
    """A derived line: its label, its row, its reason with the numbers of the lines that it names and their multipliers, and its place in the file."""

    label: bytes
    row: Row
    reason: bytes
    numbers: list[int]
    factors: list[Number]
    line: int


class Text:
    """The words of a certificate, with the line of the file on which each stands."""

    def __init__(self, file: BinaryIO, path: str, strict: bool = False):
        self.file, self.path, self.strict = file, path, strict
        self.words, self.at, self.line, self.offset = [], 0, 0, 0
        self.is_cut = False  # the last line that was read has no line feed
        self.known_numbers, self.known_rows = {}, {}
        self.columns, self.objective = 0, None

    # ---- places

    def wrong(self, what: str) -> Wrong:
        """What is wrong with the word that was taken last. Where the file ends right behind it, the word may be a part of one."""
        if self.is_cut and self.at == len(self.words):
            return Ends(place(self.path, self.line), f"a part of a certificate: {what}, and the file ends there")
        return Wrong(place(self.path, self.line), what)

    def ends(self, what: str) -> Ends:
        return Ends(place(self.path, self.line), f"a part of a certificate: it ends where {what} should stand")

    def mark(self):
        """Where the reading stands, for a return."""
        return self.offset, self.line, self.words[self.at:]

    def go_to(self, mark):
        self.offset, self.line, self.words = mark
        self.at, self.is_cut = 0, False
        self.file.seek(self.offset)

    # ---- lines and words

    def raw(self) -> bytes:
        """The next line; empty at the end."""
        try:
            line = self.file.readline()
        except OSError as error:
            raise unreadable(self.path, error) from None
        if line:
            self.line += 1
            self.offset += len(line)
            self.is_cut = not line.endswith(b"\n")
        return line

    def load(self, what: str):
        """Takes the words of the next line. `Ends`: there is none."""
        line = self.raw()
        if not line:
            raise self.ends(what)
        self.words, self.at = line.split(), 0
        if self.strict and line != b" ".join(self.words) + b"\n":
            raise self.wrong("the line is not in the form that bnc writes: one blank between words, and a line feed at its end")

    def begin(self, what: str):
        """Where bnc begins a line."""
        if self.strict:
            self.done()
            self.load(what)

    def done(self):
        """Where bnc ends a line."""
        if self.strict and self.at != len(self.words):
            raise self.wrong(f"the line has a word too many: {printable(self.words[self.at])}")

    def word(self, what: str) -> bytes:
        """The next word. `Ends`: there is none."""
        while self.at == len(self.words):
            if self.strict:
                raise self.wrong(f"the line ends where {what} should stand")
            self.load(what)
        self.at += 1
        return self.words[self.at - 1]

    def wanted(self, wanted: bytes):
        word = self.word(printable(wanted))
        if word != wanted:
            raise self.wrong(f"{printable(word)} stands where {printable(wanted)} should")

    def index(self, what: str, below: Optional[int] = None) -> int:
        """A whole number of at least 0, and below another one where it is given."""
        word = self.word(what)
        if not (INDEX.fullmatch(word) if self.strict else word.isdigit() and len(word) < 19):
            raise self.wrong(f"{printable(word)} stands where {what} should")
        if below is not None and int(word) >= below:
            raise self.wrong(f"{what} is {int(word)}, and there are {below}")
        return int(word)

    def number(self, what: str) -> Number:
        word = self.word(what)
        value = self.known_numbers.get(word)
        if value is not None:
            return value
        try:
            return self.new_number(word)
        except ValueError as error:
            raise self.wrong(f"{printable(word)} stands where {what} should: {error}") from None

    def new_number(self, word: bytes) -> Number:
        """The number of a word, which is remembered. `ValueError`: it is none."""
        value = exact(word)
        if self.strict and spelt(value).encode() != word:
            raise ValueError("not in lowest terms")
        if len(self.known_numbers) >= MOST_KNOWN:
            self.known_numbers.clear()
        self.known_numbers[word] = value
        return value

    def pairs(self, what: str, below: Optional[int] = None) -> dict[int, Number]:
        """A list: how many pairs, and then each number with its value. Numbers below `below`, none twice. Values of 0 are left out."""
        return self.counted_pairs(self.index(f"the length of a list of {what}s"), what, below)

    def counted_pairs(self, count: int, what: str, below: Optional[int]) -> dict[int, Number]:
        found, last = {}, -1
        for _ in range(count):
            number = self.index(f"the number of a {what}", below)
            value = self.number(f"the number that goes with {what} {number}")
            if number in found:
                raise self.wrong(f"{what} {number} stands twice in a list")
            if self.strict and (number < last or value == 0):
                raise self.wrong("a list doesn't rise, or has a 0")
            found[number], last = value, number
        return {number: value for number, value in found.items() if value != 0}

    # ---- rows

    def row(self) -> Row:
        """A row behind its label."""
        word = self.word("a sense")
        sense = SENSES.get(word)
        if sense is None:
            raise self.wrong(f"{printable(word)} stands where a sense (G, L or E) should")
        side = self.number("a right side")
        return row_of(sense, side, self.terms().items())

    def terms(self) -> dict[int, Number]:
        """The coefficients of a row: a list, or the word OBJ for those of the objective."""
        word = self.word("the length of a list of columns")
        if word == b"OBJ" and self.objective is not None and not self.strict:
            return self.objective
        self.at -= 1
        return self.pairs("column", self.columns)

    def quick_row(self, text: bytes) -> Optional[Row]:
        """The row of a text without its label; none where it needs a closer look."""
        words = text.split()
        sense, count = SENSES.get(words[0]), len(words) // 2 - 1
        if sense is None or len(words) % 2 == 0 or not words[2].isdigit() or len(words[2]) > 9 or int(words[2]) != count:
            return None
        columns = quick_indices(words[3::2])
        values = self.quick_numbers(words[4::2] + [words[1]])
        if columns is None or values is None or count and max(columns) >= self.columns or len(set(columns)) != count:
            return None
        if self.strict and not is_formed(columns, values[:-1], words[2:3] + words[3::2]):
            return None
        row = row_of(sense, values[-1], zip(columns, values))
        if len(self.known_rows) >= MOST_KNOWN:
            self.known_rows.clear()
        self.known_rows[text] = row
        return row

    def quick_numbers(self, words: list[bytes]) -> Optional[list[Number]]:
        known = self.known_numbers
        try:
            return [known[word] if word in known else self.new_number(word) for word in words]
        except ValueError:
            return None

    # ---- derived lines

    def derived(self) -> Derived:
        """The next derived line."""
        if self.at == len(self.words):
            line = self.raw()
            if not line:
                raise self.ends("a derived line")
            quick = self.quick(line)
            if quick is not None:
                return quick
            self.words, self.at = line.split(), 0
            if self.strict and line != b" ".join(self.words) + b"\n":
                raise self.wrong("the line is not in the form that bnc writes: one blank between words, and a line feed at its end")
        return self.slow()

    def quick(self, line: bytes) -> Optional[Derived]:
        """A derived line that stands alone on a line; none where it needs a closer look."""
        left, _, right = line.partition(b" { ")
        inside, _, hint = right.partition(b" } ")
        head, words = left.split(None, 1), inside.split()
        if len(head) != 2 or not words or not HINT.fullmatch(hint.strip()):
            return None
        row = self.known_rows.get(head[1]) or self.quick_row(head[1])
        if row is None or self.strict and line != b" ".join(line.split()) + b"\n":
            return None
        return self.quick_reason(Derived(head[0], row, words[0], [], [], self.line), words)

    def quick_reason(self, made: Derived, words: list[bytes]) -> Optional[Derived]:
        """Fills in what the reason of a derived line names; none where it needs a closer look."""
        if made.reason in (b"lin", b"rnd"):
            count = len(words) // 2 - 1
            if len(words) % 2 or not words[1].isdigit() or len(words[1]) > 9 or int(words[1]) != count:
                return None
            made.numbers, made.factors = quick_indices(words[2::2]), self.quick_numbers(words[3::2])
            if made.numbers is None or made.factors is None or len(set(made.numbers)) != count:
                return None
            return None if self.strict and not is_formed(made.numbers, made.factors, words[1:2] + words[2::2]) else made
        if made.reason == b"uns" and len(words) == 5:
            made.numbers = quick_indices(words[1:])
            return None if made.numbers is None or self.strict and not all(map(INDEX.fullmatch, words[1:])) else made
        return made if made.reason in (b"asm", b"sol") and len(words) == 1 and not (self.strict and made.reason == b"sol") else None

    def slow(self) -> Derived:
        """The next derived line, word by word, with each fault at its place."""
        label, line = self.word("the label of a derived line"), self.line
        made = Derived(label, self.row(), b"", [], [], line)
        self.wanted(b"{")
        made.reason = self.word("a reason")
        if made.reason not in REASONS or self.strict and made.reason == b"sol":
            raise self.wrong(f"{printable(label)} has no reason of VIPR 1.0: {printable(made.reason)}")
        if made.reason in (b"lin", b"rnd"):
            self.combination(made)
        elif made.reason == b"uns":
            made.numbers = [self.index("the number of a line") for _ in range(4)]
        self.wanted(b"}")
        hint = self.word("the last number of a derived line")
        if not HINT.fullmatch(hint):
            raise self.wrong(f"{printable(hint)} stands where the last number of a derived line should")
        self.done()
        return made

    def combination(self, made: Derived):
        word = self.word("the length of a list of lines")
        if word in (b"incomplete", b"weak"):
            raise self.wrong(f"{printable(made.label)} is {'an incomplete' if word == b'incomplete' else 'a weak'} derivation: VIPR 1.0 has none,"
                             " and what completes it has to be run first")
        self.at -= 1
        found = self.pairs("line")
        made.numbers, made.factors = list(found), list(found.values())

    def end(self):
        """`Wrong`: there is more behind the last derived line."""
        while self.at == len(self.words):
            line = self.raw()
            if not line:
                return
            self.words, self.at = line.split(), 0
            if self.strict:
                break
        raise self.wrong("there is more behind the last derived line")


def quick_indices(words: list[bytes]) -> Optional[list[int]]:
    """The whole numbers of words; none where one isn't digits alone, or is too long."""
    if words and (not b"".join(words).isdigit() or max(map(len, words)) > 18):
        return None
    return list(map(int, words))


def is_formed(numbers: list[int], values: list[Number], words: list[bytes]) -> bool:
    """Whether a list is in the form of docs/CERTIFICATE.md: numbers rise and have no leading zeros, and no value is 0."""
    return all(a < b for a, b in zip(numbers, numbers[1:])) and 0 not in values and all(map(INDEX.fullmatch, words))


# ---- what stands in front of the derived lines

def read_head(text: Text) -> Head:
    """All up to the number of derived lines."""
    lines = {}
    read_version(text)
    head = read_problem(text, lines)
    head.lines = lines
    read_claim(text, head)
    read_points(text, head)
    section(text, b"DER", lines)
    head.derived = text.index("the number of derived lines")
    text.done()
    return head


def section(text: Text, name: bytes, lines: dict[str, int]):
    """The word of a section."""
    text.begin(name.decode())
    text.wanted(name)
    lines[name.decode()] = text.line


def read_version(text: Text):
    """VER, and comments in front of it."""
    text.load("VER")
    while not text.strict and (not text.words or text.words[0].startswith(b"%")):
        text.load("VER")
    text.wanted(b"VER")
    version = text.word("the version")
    if version != b"1.0":
        raise text.wrong(f"the version is {printable(version)}; only VIPR 1.0 is read")
    text.done()


def read_problem(text: Text, lines: dict[str, int]) -> Head:
    """VAR, INT, OBJ and CON."""
    section(text, b"VAR", lines)
    names = read_names(text, text.index("the number of columns"))
    text.columns = len(names)
    section(text, b"INT", lines)
    integers = read_integers(text, text.index("the number of integer columns"))
    section(text, b"OBJ", lines)
    direction = text.word("min or max")
    if direction not in (b"min", b"max"):
        raise text.wrong(f"{printable(direction)} stands where min or max should")
    text.done()
    text.begin("the objective")
    objective = text.pairs("column", text.columns)
    text.done()
    text.objective = objective
    section(text, b"CON", lines)
    count, bounds = text.index("the number of rows"), text.index("the number of bounds")
    text.done()
    if bounds > count:
        raise text.wrong(f"{bounds} of {count} rows are said to be bounds")
    return Head(names, integers, direction == b"max", objective, [read_row(text) for _ in range(count)], bounds)


def read_names(text: Text, count: int) -> list[str]:
    text.done()
    names, seen = [], set()
    for _ in range(count):
        text.begin("the name of a column")
        name = text.word("the name of a column").decode("utf-8", "surrogateescape")
        text.done()
        if name in seen:
            raise text.wrong(f"the column {printable(name)} stands there twice")
        seen.add(name)
        names.append(name)
    return names


def read_integers(text: Text, count: int) -> list[int]:
    text.done()
    if count:
        text.begin("the integer columns")
    found, seen = [], set()
    for _ in range(count):
        column = text.index("the number of an integer column", text.columns)
        if column in seen:
            raise text.wrong(f"the integer column {column} stands there twice")
        seen.add(column)
        found.append(column)
    text.done()
    return found


def read_row(text: Text) -> Listed:
    text.begin("a row")
    label = text.word("the label of a row").decode("utf-8", "surrogateescape")
    line = text.line
    row = text.row()
    text.done()
    return Listed(label, line, row)


def read_claim(text: Text, head: Head):
    """RTP."""
    section(text, b"RTP", head.lines)
    kind = text.word("infeas or range")
    if kind == b"infeas":
        head.claim = Claim(True)
    elif kind == b"range":
        head.claim = Claim(False, read_end(text, b"-inf"), read_end(text, b"inf"))
    else:
        raise text.wrong(f"{printable(kind)} stands where infeas or range should")
    text.done()


def read_end(text: Text, infinity: bytes) -> Optional[Number]:
    """An end of the claim's range; none where it is the infinity on its side."""
    word = text.word("an end of the range")
    if word == infinity and not text.strict:
        return None
    text.at -= 1
    return text.number("an end of the range")


def read_points(text: Text, head: Head):
    """SOL."""
    section(text, b"SOL", head.lines)
    count = text.index("the number of points")
    text.done()
    head.points = []
    for _ in range(count):
        text.begin("a point")
        label = text.word("the label of a point").decode("utf-8", "surrogateescape")
        line = text.line
        values = text.pairs("column", text.columns)
        text.done()
        head.points.append(Listed(label, line, values=values))


# ---- files

def opened(path: str) -> BinaryIO:
    """The file of a certificate, which can be read more than once: what can't be read again, as a pipe, is copied into a file without a name."""
    file = readable(path)
    try:
        if file.seekable():
            return file
        copy = tempfile.TemporaryFile()
        with file:
            shutil.copyfileobj(file, copy, 1 << 20)
        copy.seek(0)
        return copy
    except OSError as error:
        raise unreadable(path, error) from None


def lines_of(text: Text, head: Head) -> Iterator[Derived]:
    """The derived lines in their order."""
    for _ in range(head.derived):
        yield text.derived()
