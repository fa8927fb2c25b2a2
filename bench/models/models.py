"""Writes a small model of a kind that people solve, in free MPS: models.py KIND SEED SIZE [SIZE]. All that is drawn comes from the seed.

  knapsack ITEMS RESOURCES   which items to take, with room for a third of them in each resource
  assign TASKS MACHINES      each task on one machine, each machine with its capacity
  cover SETS ELEMENTS        the cheapest sets such that each element lies in one of them
  schedule JOBS              an order of jobs on one machine, the least weighted sum of their ends; who is first by big-M rows
  lots PERIODS               what to make in each period of a demand: set-ups, stock, prices with cents
  bins ITEMS BINS            items into the fewest bins
  shifts DAYS                people who work five days in a row, wages with decimals
"""
import random
import sys


class Model:
    """Columns and rows by name, in the order that they were asked for."""

    def __init__(self, name):
        self.name, self.columns, self.rows = name, {}, {}

    def column(self, name, low, high, cost=0):
        self.columns[name] = (low, high, cost)
        return name

    def row(self, name, sense, side, terms):
        self.rows[name] = (sense, side, terms)

    def text(self):
        lines = [f"NAME {self.name}", "ROWS", " N cost"]
        lines += [f" {sense} {name}" for name, (sense, _, _) in self.rows.items()]
        lines += ["COLUMNS", " m 'MARKER' 'INTORG'"]
        for column, (_, _, cost) in self.columns.items():
            lines.append(f" {column} cost {cost}")
            lines += [f" {column} {name} {terms[column]}" for name, (_, _, terms) in self.rows.items() if terms.get(column, 0) != 0]
        lines += [" m 'MARKER' 'INTEND'", "RHS"] + [f" side {name} {side}" for name, (_, side, _) in self.rows.items()]
        lines.append("BOUNDS")
        for column, (low, high, _) in self.columns.items():
            lines += [f" LO box {column} {low}", f" UP box {column} {high}"]
        return "\n".join(lines + ["ENDATA", ""])


def knapsack(draw, items, resources):
    model = Model("knapsack")
    weights = [[draw.randint(5, 60) for _ in range(items)] for _ in range(resources)]
    names = [model.column(f"take{j}", 0, 1, -(sum(row[j] for row in weights) // resources + draw.randint(1, 20))) for j in range(items)]
    for i, row in enumerate(weights):
        model.row(f"room{i}", "L", sum(row) // 3, dict(zip(names, row)))
    return model


def assign(draw, tasks, machines):
    model = Model("assign")
    loads = [[draw.randint(5, 25) for _ in range(machines)] for _ in range(tasks)]
    names = [[model.column(f"t{t}m{m}", 0, 1, draw.randint(10, 50)) for m in range(machines)] for t in range(tasks)]
    for t in range(tasks):
        model.row(f"once{t}", "E", 1, {name: 1 for name in names[t]})
    for m in range(machines):
        terms = {names[t][m]: loads[t][m] for t in range(tasks)}
        model.row(f"capacity{m}", "L", sum(terms.values()) * 8 // (10 * machines), terms)
    return model


def cover(draw, sets, elements):
    model = Model("cover")
    names = [model.column(f"set{j}", 0, 1, draw.randint(1, 9)) for j in range(sets)]
    for i in range(elements):
        model.row(f"element{i}", "G", 1, {name: 1 for name in draw.sample(names, draw.randint(3, 8))})
    return model


def schedule(draw, jobs):
    model = Model("schedule")
    lengths = [draw.randint(2, 12) for _ in range(jobs)]
    total = sum(lengths)
    starts = [model.column(f"start{j}", 0, total - lengths[j], draw.randint(1, 9)) for j in range(jobs)]
    for i in range(jobs):
        for j in range(i + 1, jobs):
            first = model.column(f"first{i}_{j}", 0, 1)
            # j starts when i has ended, or i when j has
            model.row(f"after{i}_{j}", "G", lengths[i] - total, {starts[j]: 1, starts[i]: -1, first: -total})
            model.row(f"after{j}_{i}", "G", lengths[j], {starts[i]: 1, starts[j]: -1, first: total})
    return model


def lots(draw, periods):
    model = Model("lots")
    demand = [draw.randint(0, 40) for _ in range(periods)]
    stock = None
    for t in range(periods):
        made = model.column(f"make{t}", 0, 80, f"{draw.randint(200, 400) / 100:.2f}")
        begun = model.column(f"setup{t}", 0, 1, f"{draw.randint(3000, 9000) / 100:.2f}")
        kept = model.column(f"stock{t}", 0, 60, f"{draw.randint(20, 90) / 100:.2f}")
        terms = {made: 1, kept: -1}
        if stock:
            terms[stock] = 1
        model.row(f"demand{t}", "E", demand[t], terms)
        model.row(f"begun{t}", "L", 0, {made: 1, begun: -80})
        stock = kept
    return model


def bins(draw, items, count):
    model = Model("bins")
    sizes = [draw.randint(15, 60) for _ in range(items)]
    used = [model.column(f"used{b}", 0, 1, 1) for b in range(count)]
    places = [[model.column(f"i{i}b{b}", 0, 1) for b in range(count)] for i in range(items)]
    for i in range(items):
        model.row(f"once{i}", "E", 1, {place: 1 for place in places[i]})
    for b in range(count):
        model.row(f"room{b}", "L", 0, {**{places[i][b]: sizes[i] for i in range(items)}, used[b]: -100})
    return model


def shifts(draw, days):
    model = Model("shifts")
    wages = [draw.randint(8000, 14000) / 100 for _ in range(days)]
    names = []
    for first in range(days):
        cost = sum(wages[(first + step) % days] for step in range(5))
        names.append(model.column(f"from{first}", 0, 9, f"{cost:.2f}"))
    for day in range(days):
        model.row(f"hands{day}", "G", draw.randint(3, 12), {names[(day - step) % days]: 1 for step in range(5)})
    return model


def main():
    kind, seed, *sizes = sys.argv[1:]
    make = {"knapsack": knapsack, "assign": assign, "cover": cover, "schedule": schedule, "lots": lots, "bins": bins, "shifts": shifts}[kind]
    sys.stdout.write(make(random.Random(" ".join([kind, seed, *sizes])), *map(int, sizes)).text())


main()
