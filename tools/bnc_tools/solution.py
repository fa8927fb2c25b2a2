"""The answer of a certificate by names: claim, objective, the value of each column, and with the model the rows' activities and slacks."""
from dataclasses import dataclass
from typing import Optional

from .certificate import Claim, Ends, Head, Listed, Text, lines_of, read_head
from .exact import Number, lowest
from .faults import WRONG, Fault
from .model import Model


@dataclass
class Activity:
    """A row of the model at the point: its activity, the sides between which it has to be (none: no side), and how far it is from the nearer."""

    name: str
    activity: Number
    low: Optional[Number]
    high: Optional[Number]

    def slack(self) -> Number:
        distances = [self.activity - self.low] if self.low is not None else []
        distances += [self.high - self.activity] if self.high is not None else []
        return lowest(min(distances)) if distances else 0


@dataclass
class Answer:
    """What a certificate says."""

    claim: Claim
    maximise: bool
    objective: Optional[Number]  # of the best point, where one is listed
    values: dict[str, Number]  # of each column in the best point; empty where none is listed
    part: Optional[str] = None  # what is missing, where the certificate is a part of one
    rows: Optional[list[Activity]] = None


def read_answer(text: Text) -> Answer:
    """The answer of a certificate; also of one whose derived lines are cut off. `Fault`: it is no certificate, or ends before its points do."""
    head = read_head(text)
    best = best_point(head)
    values = {} if best is None else {name: best.values.get(column, 0) for column, name in enumerate(head.names)}
    objective = None if best is None else lowest(head.value_at(best.values))
    return Answer(head.claim, head.maximise, objective, values, missing(text, head))


def best_point(head: Head) -> Optional[Listed]:
    """The listed point with the best objective."""
    if not head.points:
        return None
    return (max if head.maximise else min)(head.points, key=lambda point: head.value_at(point.values))


def missing(text: Text, head: Head) -> Optional[str]:
    """What the certificate lacks behind its points, if it is a part of one."""
    mark = text.mark()
    if not mark[2] and has_lines(text, head.derived):
        return None
    text.go_to(mark)
    count = 0
    try:
        for _ in lines_of(text, head):
            count += 1
    except Ends:
        return f"a part of a certificate: it ends after {count} of {head.derived} derived lines, so it doesn't show the claim"
    return None


def has_lines(text: Text, count: int) -> bool:
    """Whether so many lines follow, and the last one is a whole derived line. So it is in what bnc writes, and that takes no look at each line."""
    found, last = 0, b""
    for line in iter(text.file.readline, b""):
        found, last = found + 1, line
    return found == count and last.endswith(b"\n") and text.quick(last) is not None


def activities(model: Model, values: dict[str, Number]) -> list[Activity]:
    """The model's rows at a point. The two rows of a range are one."""
    found: list[Activity] = []
    names = model.names()
    for row in model.rows:
        activity = lowest(sum((value * values[names[column]] for column, value in row.terms.items()), 0))
        low, high = row.side if row.sense in "GE" else None, row.side if row.sense in "LE" else None
        if found and found[-1].name == row.name:
            found[-1].high = high
        else:
            found.append(Activity(row.name, activity, low, high))
    return found


def with_rows(answer: Answer, path: str, model: Model) -> Answer:
    """The answer with the model's rows. `Fault`: the certificate's columns aren't the model's."""
    if answer.values:
        if set(answer.values) != set(model.names()):
            raise Fault(WRONG, path, "the columns of the certificate are not the model's")
        answer.values = {name: answer.values[name] for name in model.names()}
        answer.rows = activities(model, answer.values)
    return answer
