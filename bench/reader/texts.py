# The texts that bench/reader.sh reads, each of near 32 MiB, the most that is read: python3 texts.py FOLDER
import itertools
import os
import sys

LIMIT = 33_554_432
COLUMNS = ROWS = 8000
VISIBLE = [chr(byte) for byte in range(0x21, 0x7F)]


def names(count, length=1):
    """That many names, the shortest first, none shorter than this length."""
    lengths = itertools.count(length)
    return list(itertools.islice(("".join(name) for n in lengths for name in itertools.product(VISIBLE, repeat=n)), count))


def filled(head, lines, tail):
    """The head, as many of the lines as there is room for, and the tail."""
    left = LIMIT - sum(len(line) + 1 for line in head + tail)
    kept = []
    for line in lines:
        left -= len(line) + 1
        if left < 0:
            break
        kept.append(line)
    return "\n".join(head + kept + tail) + "\n"


def model():
    """8,000 columns and 8,000 rows, names of 9 to 10 characters, two entries a line, values such as -12.25."""
    head = ["NAME model", "ROWS", " N objective"]
    head += [f" {'GL'[i % 2]} row_{i:05}" for i in range(ROWS)]
    head += ["COLUMNS", " marker 'MARKER' 'INTORG'"]
    tail = ["RHS"] + [f" right row_{i:05} {i}.5" for i in range(ROWS)]
    tail += ["BOUNDS"] + [f" UP bound column{j:04} {1 + j % 9}" for j in range(COLUMNS)] + ["ENDATA", ""]
    room = LIMIT - sum(len(line) + 1 for line in head + tail)
    per_column = room // COLUMNS
    columns = []
    for j in range(COLUMNS):
        left, k = per_column, 0
        while True:
            i = (7 * j + 2 * k) % ROWS
            value = (j * 31 + k * 17) % 4000 - 1999
            line = f" column{j:04} row_{i:05} {value / 100 if value else 1.25} row_{(i + 1) % ROWS:05} {value + 4000}.25"
            if len(line) + 1 > left or k == ROWS // 2:
                break
            columns.append(line)
            left -= len(line) + 1
            k += 1
    return "\n".join(head + columns + tail)


def dense(rows, columns, value, ranged=False):
    """Each of the columns in each of the rows, as far as there is room, with names of one or two characters, two entries a line."""
    own = names(rows)
    head = ["ROWS"] + [f" L {row}" for row in own] + [" N objective", "COLUMNS", " m 'MARKER' 'INTORG'"]
    tail = (["RANGES"] + [f" {row} 1" for row in own] if ranged else []) + ["BOUNDS"]
    tail += [f" UP {column} 1" for column in names(columns)] + ["ENDATA"]
    pairs = [f"{row} {value}" for row in own]
    lines = (f" {column} {' '.join(pairs[i:i + 2])}" for column in names(columns) for i in range(0, rows, 2))
    return filled(head, lines, tail)


def small_rows():
    """As many rows of type N as there is room for."""
    return filled(["ROWS"], (f" N {row}" for row in names(4_400_000, 3)), ["COLUMNS", "ENDATA"])


def with_rows(count, length, heads):
    """Rows of type N, and behind them sections that name each of them once, two a line."""
    own = names(count, length)
    lines = ["ROWS"] + [f" N {row}" for row in own]
    for head, start, value in heads:
        lines.append(head)
        lines += [start + " ".join(f"{row} {value}" for row in own[i : i + 2]) for i in range(0, count, 2)]
    return "\n".join(lines + ["ENDATA", ""])


def bounds(line, columns):
    """Lines of BOUNDS that give columns in turn, again and again."""
    own = names(columns)
    head = ["ROWS", " N o", "COLUMNS", " m 'MARKER' 'INTORG'"] + [f" {column} o 1" for column in own] + ["BOUNDS"]
    return filled(head, (line.format(column) for column in itertools.cycle(own)), ["ENDATA"])


def digits():
    """One number of eight million digits."""
    return ("ROWS\n N o\nCOLUMNS\n x o " + "1" * 8_000_000 + "\n" + "\n" * LIMIT)[:LIMIT]


def sections():
    """Texts that are long in one section."""
    entry = [("COLUMNS\n m 'MARKER' 'INTORG'", " x ", "0")]
    yield "names", filled(["ROWS"], (f" N r{i}" for i in range(3_600_000)), [])
    yield "short_names", small_rows()
    yield "columns", filled(["ROWS", " N o", "COLUMNS"], (f" x{i} o 1" for i in range(3_200_000)), [])
    yield "row_named", with_rows(2_120_000, 3, entry)
    yield "row_ones", with_rows(2_120_000, 3, [("COLUMNS\n m 'MARKER' 'INTORG'", " x ", "1")])
    yield "row_sides", with_rows(2_260_000, 3, [("COLUMNS\nRHS", " ", "0")])
    yield "row_both", with_rows(1_560_000, 3, [("COLUMNS\nRHS", " ", "1"), ("RANGES", " ", "1")])
    yield "dense", dense(ROWS, 590, "1")
    yield "dense_few", dense(590, COLUMNS, "1")
    yield "dense_zero", dense(ROWS, 590, "0")
    yield "dense_fine", dense(ROWS, 370, "1e-15")
    yield "dense_wide", dense(ROWS, 150, "12345.678901234567891")
    # each row with a range counts twice
    yield "ranged", dense(ROWS // 2, 1180, "1", True)
    yield "ranged_fine", dense(ROWS // 2, 740, "1e-15", True)
    yield "ranged_wide", dense(ROWS // 2, 300, "12345.678901234567891", True)
    yield "bounds_few", bounds(" UP {} 9", 3)
    yield "bounds_many", bounds(" UP {} 9", COLUMNS)
    yield "bounds_free", bounds(" FR {}", 90)
    yield "bounds_fine", bounds(" UP {} 1e-15", COLUMNS)


def hostile():
    """Texts that are refused, or hold little, and are long in one way each."""
    yield "digits", digits()
    yield "line", "ROWS\n " + "N" * (LIMIT - 7) + "\n"
    yield "fields", "ROWS\n " + "N " * (LIMIT // 2 - 4) + "\n"
    yield "empty", "\n" * LIMIT
    yield "blank", " " * LIMIT
    yield "comments", ("*" * 63 + "\n") * (LIMIT // 64)
    yield "stars", "*\n" * (LIMIT // 2)


folder = sys.argv[1]
for name, text in itertools.chain([("model", model())], sections(), hostile()):
    assert len(text) <= LIMIT, (name, len(text))
    with open(os.path.join(folder, name + ".mps"), "w") as file:
        file.write(text)
