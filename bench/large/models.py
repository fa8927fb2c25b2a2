"""Writes a model of the greatest size that the program takes, in free MPS: models.py KIND [COLUMNS ROWS ENTRIES]. All that is drawn comes from the
kind and the sizes. ENTRIES are those of each row, 25 if none are given; COLUMNS and ROWS are 8000.

  cover     the cheapest sets such that each element lies in one of them: each row has ENTRIES columns of 0 or 1
  packing   the dearest items such that no resource is used up: the same, with weights
  bounded   columns up to 1000 and coefficients of both signs
  decimal   the same with coefficients of two decimals
  refuted   a cover whose last row asks for more than there is: its activity decides it
  knapsack  items with a weight in each of the ROWS, ENTRIES are of no use
"""
import random
import sys


def text(name, costs, uppers, rows):
    """The model of these columns and rows; a row is its sense, its right side, and its coefficients by column."""
    entries = [[] for _ in costs]
    for number, (_, _, terms) in enumerate(rows):
        for column, value in terms.items():
            entries[column].append(f" x{column} r{number} {value}")
    lines = [f"NAME {name}", "ROWS", " N cost"] + [f" {sense} r{number}" for number, (sense, _, _) in enumerate(rows)]
    lines += ["COLUMNS", " m 'MARKER' 'INTORG'"]
    for column, cost in enumerate(costs):
        lines.append(f" x{column} cost {cost}")
        lines += entries[column]
    lines += [" m 'MARKER' 'INTEND'", "RHS"] + [f" side r{number} {side}" for number, (_, side, _) in enumerate(rows)]
    lines += ["BOUNDS"] + [f" UP box x{column} {upper}" for column, upper in enumerate(uppers)]
    return "\n".join(lines + ["ENDATA", ""])


def cover(draw, columns, rows, entries):
    made = [("G", 1, {column: 1 for column in draw.sample(range(columns), entries)}) for _ in range(rows)]
    return [draw.randint(1, 9) for _ in range(columns)], [1] * columns, made


def packing(draw, columns, rows, entries):
    made = []
    for _ in range(rows):
        terms = {column: draw.randint(5, 60) for column in draw.sample(range(columns), entries)}
        made.append(("L", sum(terms.values()) // 3, terms))
    return [-draw.randint(1, 99) for _ in range(columns)], [1] * columns, made


def bounded(draw, columns, rows, entries):
    made = []
    for _ in range(rows):
        terms = {column: draw.choice((-1, 1)) * draw.randint(1, 20) for column in draw.sample(range(columns), entries)}
        most = sum(1000 * value for value in terms.values() if value > 0)
        made.append(("G", most // 10, terms))
    return [draw.randint(1, 99) for _ in range(columns)], [1000] * columns, made


def decimal(draw, columns, rows, entries):
    costs, uppers, made = bounded(draw, columns, rows, entries)
    finer = [(sense, side, {column: f"{value + draw.randint(1, 99) / 100:.2f}" for column, value in terms.items()}) for sense, side, terms in made]
    return costs, uppers, finer


def refuted(draw, columns, rows, entries):
    costs, uppers, made = cover(draw, columns, rows, entries)
    _, _, terms = made[-1]
    return costs, uppers, made[:-1] + [("G", len(terms) + 1, terms)]


def knapsack(draw, columns, rows, entries):
    weights = [[draw.randint(5, 60) for _ in range(columns)] for _ in range(rows)]
    costs = [-(sum(row[j] for row in weights) // rows + draw.randint(1, 20)) for j in range(columns)]
    return costs, [1] * columns, [("L", sum(row) // 3, dict(enumerate(row))) for row in weights]


KINDS = {"cover": cover, "packing": packing, "bounded": bounded, "decimal": decimal, "refuted": refuted, "knapsack": knapsack}


def main():
    kind, *sizes = sys.argv[1:]
    columns, rows, entries = (list(map(int, sizes)) + [8000, 8000, 25][len(sizes):])[:3]
    draw = random.Random(f"{kind} {columns} {rows} {entries}")
    sys.stdout.write(text(kind, *KINDS[kind](draw, columns, rows, entries)))


main()
