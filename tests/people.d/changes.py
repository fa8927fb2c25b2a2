"""Changes one number of a certificate, and says of each changed certificate that is still accepted why it still holds."""
import functools
import io
import itertools
import re
from dataclasses import dataclass
from fractions import Fraction

import people  # where the tools are
import reference
from bnc_tools.certificate import Text, Wrong
from bnc_tools.check import check
from bnc_tools.exact import exact

NUMBER = re.compile(rb"-?[0-9]+(?:/[0-9]+)?")
MOST_POINTS = 20_000


@dataclass(eq=False)
class Problem:
    """A certificate with its model, as the tools and as the second checker read it."""

    text: bytes
    model: object
    other: object

    def check(self, text, strict=False):
        """The claim of a changed text, or none where it is refused."""
        try:
            return check(Text(io.BytesIO(text), "changed", strict), self.model).claim
        except Wrong:
            return None

    def reference(self, text):
        """What the second checker says of it; none where it refuses."""
        try:
            return reference.check(text, self.other)
        except reference.Wrong:
            return None


    @functools.cached_property
    def answer(self):
        """What the second checker says of the certificate as it was."""
        return self.reference(self.text)

    @functools.cached_property
    def values(self):
        """The objective at each feasible point; none where the box has too many points."""
        return objectives(self.model)


@dataclass
class Change:
    """A number that stands as a word of a line, and what stands there instead."""

    text: bytes
    place: str
    old: bytes
    new: bytes


def places(text):
    """The numbers of a certificate: line, word, and what is said there."""
    section, found = "", []
    for at, line in enumerate(text.split(b"\n")):
        words = line.split(b" ")
        if words[0] in (b"VER", b"VAR", b"INT", b"OBJ", b"CON", b"RTP", b"SOL", b"DER"):
            section = words[0].decode()
        if section == "VAR" and len(words) == 1 or words[0] == b"VER":
            continue
        for word, content in enumerate(words):
            if NUMBER.fullmatch(content):
                found.append((at, word, place_of(section, words, word)))
    return found


def place_of(section, words, at):
    """What a number of a line says."""
    if section != "DER" or words[0] == b"DER":
        return f"{section}, " + ("a count" if words[0] == section.encode() and section in ("VAR", "INT", "SOL", "DER") else
                                 ("the count of bounds" if at == 2 else "a count") if words[0] == b"CON" else
                                 "an end of the range" if words[0] == b"RTP" else "a number")
    brace = words.index(b"{")
    if at < brace:
        return "a derived line's " + ("right side" if at == 2 else "length" if at == 3 else "coefficients")
    if at == len(words) - 1:
        return "a derived line's last number"
    kind = words[brace + 1].decode()
    if kind == "uns":
        return "a split's line"
    return f"a {kind} reason's " + ("length" if at == brace + 2 else "line" if (at - brace) % 2 else "multiplier")


def another(draw, word):
    """Another number in the place of one."""
    value = exact(word)
    choices = [value + 1, value - 1, -value, 2 * value, value + draw.randint(-20, 20), Fraction(value) / 2, Fraction(value) + Fraction(1, 3)]
    if value.denominator == 1 and draw.random() < 0.8:
        choices = choices[:5]
    return str(draw.choice([choice for choice in choices if choice != value] or [value + 1])).encode()


def changed(draw, text):
    """The text with one number changed."""
    line, word, place = draw.choice(places(text))
    lines = text.split(b"\n")
    words = lines[line].split(b" ")
    old, words[word] = words[word], another(draw, words[word])
    lines[line] = b" ".join(words)
    return Change(b"\n".join(lines), place, old, words[word])


# ---- the truth of a claim, by all points of the model's box

def objectives(model):
    """The objective at each feasible point; none where the box has too many points."""
    spans = [range(column.low, column.high + 1) for column in model.columns]
    count = 1
    for span in spans:
        count *= len(span)
    if count > MOST_POINTS:
        return None
    found = []
    for point in itertools.product(*spans):
        if all(holds(row, point) for row in model.rows):
            found.append(sum((value * point[column] for column, value in model.objective.items()), 0))
    return found


def holds(row, point):
    total = sum((value * point[column] for column, value in row.terms.items()), 0)
    return total >= row.side if row.sense == "G" else total <= row.side if row.sense == "L" else total == row.side


def is_true(claim, values, maximise):
    """Whether a claim is true of a problem, by the objectives of its feasible points."""
    if claim.infeasible:
        return not values
    if maximise:
        return (claim.high is None or all(value <= claim.high for value in values)) and (claim.low is None or any(value >= claim.low for value in values))
    return (claim.low is None or all(value >= claim.low for value in values)) and (claim.high is None or any(value <= claim.high for value in values))
