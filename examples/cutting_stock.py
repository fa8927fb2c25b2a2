#!/usr/bin/env python3
"""Cuts pieces from bars of 600 cm, so that the fewest bars are used. It needs PuLP, and the solver class of integrations/pulp.

A column is a pattern: how many pieces of each length are cut from one bar. All patterns are listed to which no piece could be added.
"""
import pulp
from bnc_pulp import BNC_CMD

BAR = 600
ORDERS = {95: 17, 140: 12, 175: 14, 230: 7}


def patterns(lengths, room):
    """All ways to cut these lengths from so much, to which no piece could be added."""
    if not lengths:
        return [()] if room < min(ORDERS) else []
    first, *others = lengths
    return [(count, *rest) for count in range(room // first, -1, -1) for rest in patterns(others, room - count * first)]


def model():
    """The model, and its columns by their patterns."""
    problem = pulp.LpProblem("cutting_stock", pulp.LpMinimize)
    bars = {cut: pulp.LpVariable("cut_" + "_".join(map(str, cut)), 0, max(ORDERS.values()), cat="Integer") for cut in patterns(list(ORDERS), BAR)}
    problem += pulp.lpSum(bars.values()), "bars"
    for place, (length, wanted) in enumerate(ORDERS.items()):
        problem += pulp.lpSum(cut[place] * column for cut, column in bars.items()) >= wanted, f"pieces_of_{length}"
    return problem, bars


def main():
    problem, bars = model()
    solver = BNC_CMD(msg=False, model="cutting_stock.mps", journal="cutting_stock.journal", certificate="cutting_stock.cert")
    print(pulp.LpStatus[problem.solve(solver)], solver.answer.reason or f"{solver.answer.objective} bars")
    for cut, column in bars.items():
        if column.varValue:
            print(f"{column.varValue} times", ", ".join(f"{count} of {length} cm" for count, length in zip(cut, ORDERS) if count))


if __name__ == "__main__":
    main()
