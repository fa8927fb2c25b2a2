#!/usr/bin/env python3
"""The rota of rota.lp in Python. It needs PuLP, and the solver class of integrations/pulp."""
import pulp
from bnc_pulp import BNC_CMD

DAYS = ["mon", "tue", "wed", "thu", "fri", "sat", "sun"]
NEEDED = [6, 5, 6, 5, 4, 5, 7]
WAGES = dict(zip(DAYS, [90, 90, 92.5, 92.5, 97.75, 115.625, 138.75]))
HELPER_WAGES = {"fri": 85.5, "sat": 101.25, "sun": 121.35}


def days_from(first, count):
    """So many days in a row, from this one on."""
    return [DAYS[(first + step) % 7] for step in range(count)]


def turns():
    """The columns, each with its days and what they cost."""
    made = {}
    for first, day in enumerate(DAYS):
        days = days_from(first, 5)
        made[pulp.LpVariable(day, 0, 7, cat="Integer")] = (days, sum(WAGES[name] for name in days))
    for day in ("fri", "sat"):
        days = days_from(DAYS.index(day), 2)
        made[pulp.LpVariable(f"helper_{day}", 0, 4, cat="Integer")] = (days, round(sum(HELPER_WAGES[name] for name in days), 2))
    return made


def main():
    rota, columns = pulp.LpProblem("rota", pulp.LpMinimize), turns()
    rota += pulp.lpSum(cost * people for people, (_, cost) in columns.items()), "wages"
    for day, needed in zip(DAYS, NEEDED):
        rota += pulp.lpSum(people for people, (days, _) in columns.items() if day in days) >= needed, day + "_hands"
    helpers = [people for people in columns if people.name.startswith("helper")]
    rota += 3 * pulp.lpSum(helpers) <= pulp.lpSum(people for people, (days, _) in columns.items() if "sat" in days), "third"
    solver = BNC_CMD(msg=False, certificate="rota_python.cert", model="rota_python.mps")
    print(pulp.LpStatus[rota.solve(solver)], solver.answer.reason or solver.answer.objective)
    for people in columns:
        if people.varValue:
            print(people.name, people.varValue)


if __name__ == "__main__":
    main()
