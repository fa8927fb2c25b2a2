"""Reads the journal of a search, as docs/JOURNAL.md states it, one record after another."""
import heapq
import os
from dataclasses import dataclass, field
from fractions import Fraction
from typing import BinaryIO, Iterator, Optional, Union

from .exact import Number, lowest
from .faults import JOURNAL, Fault, readable, unreadable
from .model import Model

MARK = b"BNCJRNL1"
MODEL_TAG, CUT, OFFER, SPLIT, CLOSE, GROUP = 1, 2, 3, 4, 5, 6
UPGRADE = bytes([7, 2])
LONGEST_VARINT = 19  # groups of 7 bits for 128 bits


class Damaged(Exception):
    """What stands at a place of a payload can't be read."""


# ---- events

@dataclass(slots=True)
class Cut:
    """A cut was made: the rounded row of these multipliers."""

    factors: dict[int, Number]


@dataclass(slots=True)
class Offer:
    """A better point was found."""

    values: list[int]


@dataclass(slots=True)
class Split:
    """A node was split in a column: `at most bound` left, `at least bound + 1` right. `point` is that of the relaxation, where it was fractional."""

    node: int
    column: int
    bound: int
    reason: str
    point: Optional[list[Number]] = None


@dataclass(slots=True)
class Close:
    """A node was closed."""

    node: int
    proof: str


Event = Union[Cut, Offer, Split, Close]


class Payload:
    """The bytes of a record, read from left to right. In encoding 2 numbers have as few bytes as they need."""

    def __init__(self, content: bytes, encoding: int = 1):
        self.content, self.encoding, self.at = content, encoding, 0

    def take(self, count: int) -> bytes:
        if self.at + count > len(self.content):
            raise Damaged("it is too short")
        self.at += count
        return self.content[self.at - count:self.at]

    def whole(self, count: int, signed: bool = False) -> int:
        return int.from_bytes(self.take(count), "little", signed=signed)

    def varint(self, limit: int) -> int:
        groups = bytearray(self.take(1))
        while groups[-1] & 128 and len(groups) < LONGEST_VARINT:
            groups += self.take(1)
        value = sum((group & 127) << 7 * at for at, group in enumerate(groups))
        if groups[-1] & 128 or len(groups) > 1 and groups[-1] == 0 or value >= limit:
            raise Damaged("a number is no number of its kind")
        return value

    def number(self, size: int, signed: bool = False) -> int:
        """A number whose type has so many bytes."""
        if self.encoding == 1:
            return self.whole(size, signed)
        value = self.varint(1 << 8 * size)
        return value >> 1 ^ -(value & 1) if signed else value

    def fraction(self) -> Number:
        above, below = self.number(16, True), self.number(16, True)
        if below < 1:
            raise Damaged("a denominator is not above 0")
        return lowest(Fraction(above, below))

    def factors(self) -> dict[int, Number]:
        return {self.number(4): self.fraction() for _ in range(self.number(4))}

    def end(self):
        if self.at != len(self.content):
            raise Damaged("it is too long")

    # ---- events

    def event(self) -> Event:
        tag = self.whole(1)
        if tag == CUT:
            return Cut(self.factors())
        if tag == OFFER:
            return Offer([self.number(8, True) for _ in range(self.number(4))])
        if tag == SPLIT:
            return self.split()
        if tag == CLOSE:
            return self.close()
        raise Damaged(f"it has the tag {tag}")

    def split(self) -> Split:
        made = Split(self.number(4), self.number(4), self.number(8, True), "")
        kind = self.whole(1)
        self.number(4)
        if kind == 0:
            made.reason, made.point = "fractional", [self.fraction() for _ in range(self.number(4))]
        elif kind == 1:
            made.reason = "cramped"
            self.number(4)
        elif kind == 2:
            made.reason = "stalled"
        else:
            raise Damaged(f"a reason has the tag {kind}")
        return made

    def close(self) -> Close:
        node, kind = self.number(4), self.whole(1)
        if kind == 0:
            self.factors()
        elif kind == 1:
            self.whole(1)
            self.factors()
        elif kind == 2:
            self.number(4)
        else:
            raise Damaged(f"a proof has the tag {kind}")
        return Close(node, ("refute", "bound", "empty")[kind])

    def events(self) -> list[Event]:
        """The event of a record, or those of a group."""
        if self.content[:1] != bytes([GROUP]):
            made = [self.event()]
        else:
            self.at = 1
            made = [self.event() for _ in range(self.whole(1))]
        self.end()
        return made


class Rewritten(Payload):
    """A record that is read, and each field written as in encoding 1."""

    def __init__(self, content: bytes, encoding: int):
        super().__init__(content, encoding)
        self.written = bytearray()

    def whole(self, count: int, signed: bool = False) -> int:
        value = super().whole(count, signed)
        self.written += value.to_bytes(count, "little", signed=signed)
        return value

    def number(self, size: int, signed: bool = False) -> int:
        value = super().number(size, signed)
        if self.encoding == 2:
            self.written += value.to_bytes(size, "little", signed=signed)
        return value


def single_events(content: bytes, encoding: int = 1) -> list[bytes]:
    """The codes of the events of a record, each as the record of that event alone has it in encoding 1."""
    payload, codes = Rewritten(content, encoding), []
    for _ in range(payload.take(2)[1] if content[:1] == bytes([GROUP]) else 1):
        payload.written = bytearray()
        payload.event()
        codes.append(bytes(payload.written))
    return codes


def encodings(payloads: list[bytes]) -> Iterator[tuple[bytes, int]]:
    """The records behind that of the model, each with its encoding, without that of the upgrade."""
    encoding = 1
    for content in payloads[1:]:
        if encoding == 1 and content == UPGRADE:
            encoding = 2
        else:
            yield content, encoding


# ---- records

def records(file: BinaryIO, path: str) -> Iterator[tuple[int, bytes]]:
    """The payloads of a journal, each with the place of its gate. `Fault`: it is no journal, or damaged."""
    size = os.fstat(file.fileno()).st_size
    head = file.read(len(MARK))
    if size <= len(MARK) + 1:
        return
    if head != MARK:
        raise Fault(JOURNAL, path, "is no journal")
    gate = len(MARK)
    while gate < size - 1 and file.read(1) == b"\x01":
        length = int.from_bytes(file.read(4), "little")
        if gate + 5 + length > size:
            raise Fault(JOURNAL, path, f"damaged at byte {gate}: its record goes past the end of the file")
        yield gate, file.read(length)
        gate += 5 + length


@dataclass
class Record:
    """The record of the model: the number of `--upper`, where there was one, and the text."""

    upper: Optional[int]
    text: bytes


def model_record(content: bytes) -> Record:
    payload = Payload(content)
    if payload.whole(1) != MODEL_TAG or payload.whole(1) != 1:
        raise Damaged("it is no record of a model")
    has_upper, upper = payload.whole(1), payload.whole(8, True)
    return Record(upper if has_upper else None, content[payload.at:])


# ---- the search

@dataclass
class Incumbent:
    """A better point: how many nodes had ended and were there when it was found, its objective, and the node at which it was found."""

    ended: int
    nodes: int
    value: Number
    node: int


class OpenNodes:
    """The least value of a relaxation among the open nodes, or the greatest of a maximised model. A node has the value that its parent's split
    recorded."""

    def __init__(self, maximise: bool):
        self.sign = -1 if maximise else 1
        self.heap: list[tuple[Number, int]] = []
        self.values: dict[int, Number] = {}

    def split(self, node: int, left: int, value: Optional[Number]):
        """A node was split into `left` and the one behind it, with the value of its relaxation where it is known."""
        value = self.values.pop(node, None) if value is None else value
        if value is not None:
            for child in (left, left + 1):
                self.values[child] = value
                heapq.heappush(self.heap, (self.sign * value, child))

    def least(self, is_ended: bytearray) -> Optional[Number]:
        while self.heap and is_ended[self.heap[0][1]]:
            self.values.pop(heapq.heappop(self.heap)[1], None)
        return self.sign * self.heap[0][0] if self.heap else None


@dataclass
class Search:
    """A search as its journal tells it. The objective is the model's."""

    objective: dict[int, Number]
    maximise: bool = False
    upper: Optional[int] = None
    events: int = 0
    cuts: int = 0
    ended: int = 0
    splits: dict[int, tuple[int, int, int]] = field(default_factory=dict)  # node: column, bound, left child
    reasons: dict[str, int] = field(default_factory=dict)
    relaxed: dict[int, tuple[Number, Number]] = field(default_factory=dict)  # node: value of the relaxation, and its number in the column
    incumbents: list[Incumbent] = field(default_factory=list)
    bounds: list[tuple[int, Number]] = field(default_factory=list)  # nodes that had ended, and the best value of an open node's relaxation then
    nodes: int = 1
    is_ended: bytearray = field(default_factory=lambda: bytearray(1))
    open_nodes: Optional[OpenNodes] = None

    def open(self) -> int:
        return self.nodes - self.ended

    def value_at(self, values: list[Number]) -> Number:
        return lowest(sum((number * values[column] for column, number in self.objective.items()), 0))

    def take(self, event: Event):
        """Notes an event. `Damaged`: it can't stand here."""
        self.events += 1
        if isinstance(event, Cut):
            self.cuts += 1
        elif isinstance(event, Offer):
            self.incumbents.append(Incumbent(self.ended, self.nodes, self.value_at(event.values), self.node_of(event.values)))
        else:
            if event.node >= self.nodes or self.is_ended[event.node]:
                raise Damaged(f"node {event.node} is not open")
            self.ended += 1
            self.is_ended[event.node] = 1
            if isinstance(event, Split):
                self.split(event)
            self.note_bound()

    def split(self, event: Split):
        value = None if event.point is None else self.value_at(event.point)
        if value is not None:
            self.relaxed[event.node] = (value, event.point[event.column])
        self.open_nodes = self.open_nodes or OpenNodes(self.maximise)
        self.open_nodes.split(event.node, self.nodes, value)
        self.splits[event.node] = (event.column, event.bound, self.nodes)
        self.nodes += 2
        self.is_ended += b"\0\0"
        self.reasons[event.reason] = self.reasons.get(event.reason, 0) + 1

    def note_bound(self):
        least = self.open_nodes.least(self.is_ended) if self.open_nodes else None
        if least is not None and (not self.bounds or self.bounds[-1][1] != least):
            self.bounds.append((self.ended, least))

    def node_of(self, values: list[int]) -> int:
        """The node without children whose box has a point."""
        node = 0
        while node in self.splits:
            column, bound, left = self.splits[node]
            node = left if values[column] <= bound else left + 1
        return node


def is_in_use(path: str) -> bool:
    """Whether a run holds the lock of a journal, as far as Linux tells it. No lock is taken: that could disturb a run which begins."""
    try:
        status = os.stat(path)
        wanted = f" {os.major(status.st_dev):02x}:{os.minor(status.st_dev):02x}:{status.st_ino} "
        with open("/proc/locks", encoding="ascii") as locks:
            return any(wanted in line and " FLOCK " in line for line in locks)
    except (OSError, UnicodeDecodeError):
        return False


def read_search(path: str, text: bytes, model: Model) -> Search:
    """The search of the journal of a model, which was read from this text. `Fault`: in use, no journal, damaged, or of another model."""
    if is_in_use(path):
        raise Fault(JOURNAL, path, "is in use: a run writes it")
    search = Search(model.objective, model.maximise)
    gate = len(MARK)
    with readable(path) as file:
        try:
            encoding = 1
            for at, (gate, content) in enumerate(records(file, path)):
                if at == 0:
                    search.upper = same_model(path, model_record(content), text)
                    continue
                if encoding == 1 and content == UPGRADE:
                    encoding = 2
                    continue
                for event in Payload(content, encoding).events():
                    if isinstance(event, Offer) and len(event.values) != len(model.columns):
                        raise Damaged("a point has another number of columns")
                    search.take(event)
        except OSError as error:
            raise unreadable(path, error) from None
        except (Damaged, IndexError) as damaged:
            raise Fault(JOURNAL, path, f"damaged at byte {gate}: {damaged}") from None
    return search


def same_model(path: str, record: Record, text: bytes) -> Optional[int]:
    """The upper bound of the record, where its text is this one. `Fault`: it isn't."""
    if record.text != text:
        at = next((at for at, (here, there) in enumerate(zip(record.text, text)) if here != there), min(len(record.text), len(text)))
        raise Fault(JOURNAL, path, f"is of another model: the two texts differ at byte {at}")
    return record.upper
