"""A journal whose tree is a chain: chain.py SPLITS [deepest | first] writes it to standard output.

Each split is made in the right child of the one before, so the last nodes lie at the depth SPLITS. With `deepest` or `first` a point is offered
behind the splits, and all leaves are closed: from the deepest one up, or from the first one down. `docs/JOURNAL.md` has the format; the journal
is in encoding 1, without the record of the upgrade.
"""

import sys

MOST = 1_000_000  # the column's upper bound: SPLITS has to be smaller
MODEL = f"""NAME chain
ROWS
 N cost
 L limit
COLUMNS
 m 'MARKER' 'INTORG'
 x cost 1 limit 1
 m 'MARKER' 'INTEND'
RHS
 rhs limit {MOST}
BOUNDS
 UP bound x {MOST}
ENDATA
"""


def number(value, size):
    return value.to_bytes(size, "little", signed=True)


def frame(payload):
    return b"\1" + number(len(payload), 4) + payload


def split(node, bound):
    """`x <= bound` and `x >= bound + 1`, by the point half-way between them: a fractional point of the relaxation without cuts."""
    reason = b"\0" + number(0, 4) + number(1, 4) + number(2 * bound + 1, 16) + number(2, 16)
    return b"\4" + number(node, 4) + number(0, 4) + number(bound, 8) + reason


def close(node):
    """By the least value of the objective over the node's box, which no multipliers are needed for."""
    return b"\5" + number(node, 4) + b"\1" + b"\0" + number(0, 4)


def leaves(splits):
    """The leaves, the deepest last: the left child of each split, and the right one of the last."""
    return [2 * depth + 1 for depth in range(splits)] + [2 * splits]


splits, order = int(sys.argv[1]), sys.argv[2] if len(sys.argv) > 2 else ""
payloads = [b"\1\1\0" + number(0, 8) + MODEL.encode("ascii")]
payloads += [split(2 * depth, depth) for depth in range(splits)]
if order:
    payloads.append(b"\3" + number(1, 4) + number(0, 8))  # the point 0
    payloads += [close(node) for node in (reversed(leaves(splits)) if order == "deepest" else leaves(splits))]
sys.stdout.buffer.write(b"BNCJRNL1" + b"".join(map(frame, payloads)) + b"\0")
