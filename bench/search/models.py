"""Writes a model for bench/search.sh in free MPS: models.py knapsack|decimals|cover COLUMNS ROWS SEED. Its columns are 0 or 1. Its numbers are whole,
but those of `decimals`: that is the knapsack of the same seed with each number over 4."""
import random
import sys


def knapsack(columns, rows, numbers):
    """The greatest value with room for a third of each weight."""
    weights = [[numbers.randint(5, 60) for _ in range(columns)] for _ in range(rows)]
    costs = [-(sum(row[j] for row in weights) // rows + numbers.randint(1, 20)) for j in range(columns)]
    return costs, [("L", sum(row) // 3, dict(enumerate(row))) for row in weights]


def decimals(columns, rows, numbers):
    """The same knapsack in quarters."""
    costs, lines = knapsack(columns, rows, numbers)
    return [cost / 4 for cost in costs], [(sense, side / 4, {j: weight / 4 for j, weight in row.items()}) for sense, side, row in lines]


def cover(columns, rows, numbers):
    """The cheapest sets such that each element lies in one of them."""
    sets = [numbers.sample(range(columns), numbers.randint(3, 8)) for _ in range(rows)]
    costs = [numbers.randint(1, 9) for _ in range(columns)]
    return costs, [("G", 1, {j: 1 for j in row}) for row in sets]


def text(costs, rows):
    lines = ["NAME model", "ROWS", " N cost"]
    lines += [f" {sense} r{i}" for i, (sense, _, _) in enumerate(rows)]
    lines += ["COLUMNS", " m 'MARKER' 'INTORG'"]
    for j, cost in enumerate(costs):
        lines.append(f" x{j} cost {cost}")
        lines += [f" x{j} r{i} {row[j]}" for i, (_, _, row) in enumerate(rows) if j in row]
    lines += [" m 'MARKER' 'INTEND'", "RHS"] + [f" rhs r{i} {side}" for i, (_, side, _) in enumerate(rows)]
    lines += ["BOUNDS"] + [f" BV box x{j}" for j in range(len(costs))]
    return "\n".join(lines + ["ENDATA", ""])


def main():
    kind, columns, rows, seed = sys.argv[1:]
    make = {"knapsack": knapsack, "decimals": decimals, "cover": cover}[kind]
    named = "knapsack" if kind == "decimals" else kind
    sys.stdout.write(text(*make(int(columns), int(rows), random.Random(f"{named} {seed}"))))


main()
