#!/usr/bin/env python3
"""Tries the solver class for PuLP on models of PuLP, with the real program."""
import importlib.util
import os
import random
import subprocess
import sys
import time
from fractions import Fraction

from trial import TOOLS, TOP, Trial, main

sys.path.append(os.path.join(TOP, "integrations", "pulp"))

from bnc_tools.lp_format import read_lp
from bnc_tools.mps_format import read_mps
from convert import parts

HOW = "apt-get install python3-pulp"
OTHERS = ("/usr/bin/python3",)


def go_where_pulp_is() -> None:
    """Goes on in a Python that has PuLP, where this one has none and another one does."""
    if importlib.util.find_spec("pulp") or os.environ.get("BNC_PULP_TRIED"):
        return
    for other in OTHERS:
        if os.path.exists(other) and not subprocess.run([other, "-c", "import pulp"], capture_output=True, check=False).returncode:
            os.environ["BNC_PULP_TRIED"] = "1"
            os.execv(other, [other, *sys.argv])


def solver(trial: Trial, **words):
    """The class with the program under trial."""
    from bnc_pulp import BNC_CMD
    return BNC_CMD(path=trial.program, msg=False, **words)


def knapsack(pulp, sense: int):
    """A knapsack with a worth of decimals and a constant."""
    problem = pulp.LpProblem("knapsack", sense)
    things = pulp.LpVariable.dicts("take", ["green", "grey", "yellow", "blue", "orange"], 0, 1, cat="Integer")
    weights = {"green": 12, "grey": 1, "yellow": 4, "blue": 2, "orange": 1}
    worths = {"green": 4.1, "grey": 2.2, "yellow": 10.3, "blue": 2.4, "orange": 1.5}
    problem += pulp.lpSum(worths[name] * thing for name, thing in things.items()) + 0.1
    problem += pulp.lpSum(weights[name] * thing for name, thing in things.items()) <= 15, "weight"
    return problem, things


def odd_sum(pulp, count: int):
    """Even numbers with an odd sum: no feasible point, and without cuts a tree of many nodes."""
    problem = pulp.LpProblem("odd", pulp.LpMinimize)
    columns = [pulp.LpVariable(f"x{at}", cat="Binary") for at in range(count)]
    numbers = [2 * (37 * at % 101 + 50) for at in range(count)]
    problem += pulp.lpSum(columns)
    problem += pulp.lpDot(numbers, columns) == (sum(numbers) // 2 | 1)
    return problem


def answers(trial: Trial, pulp) -> None:
    """Models with an answer, and one without a feasible point."""
    problem, things = knapsack(pulp, pulp.LpMaximize)
    used = solver(trial)
    trial.equal("knapsack, maximised: the status", problem.solve(used), pulp.LpStatusOptimal)
    taken = sorted(name for name, thing in things.items() if thing.varValue == 1)
    trial.equal("knapsack: the values", taken, ["blue", "grey", "orange", "yellow"])
    trial.equal("knapsack: the exact objective, with its constant", used.answer.objective, Fraction(165, 10))
    trial.need("knapsack: the objective of PuLP", abs(pulp.value(problem.objective) - 16.5) < 1e-9, str(pulp.value(problem.objective)))
    trial.need("knapsack: values are whole numbers of Python", all(type(thing.varValue) is int for thing in things.values()))
    people, tasks = ["ada", "bob", "eve"], [1, 2, 3]
    costs = {"ada": [2, 4, 5], "bob": [2, 3, 3], "eve": [1, 9, 4]}
    problem = pulp.LpProblem("assignment", pulp.LpMinimize)
    does = pulp.LpVariable.dicts("does", (people, tasks), cat="Binary")
    problem += pulp.lpSum(costs[who][task - 1] * does[who][task] for who in people for task in tasks)
    for who in people:
        problem += pulp.lpSum(does[who].values()) == 1
    for task in tasks:
        problem += pulp.lpSum(does[who][task] for who in people) == 1
    problem.solve(solver(trial))
    trial.equal("assignment: status and cost", (problem.status, pulp.value(problem.objective)), (pulp.LpStatusOptimal, 8))
    problem = odd_sum(pulp, 5)
    trial.equal("no feasible point", (problem.solve(solver(trial)), problem.sol_status), (pulp.LpStatusInfeasible, pulp.LpSolutionInfeasible))


def shapes(trial: Trial, pulp) -> None:
    """Ranges of bounds, names that the profile refuses, columns that nothing names, and no objective."""
    problem = pulp.LpProblem("shapes", pulp.LpMinimize)
    low = pulp.LpVariable("grüße " + "x" * 300, -7.5, -2, cat="Integer")
    fixed, idle = pulp.LpVariable("fixed", 3, 3, cat="Integer"), pulp.LpVariable("a,b", 0, 9, cat="Integer")
    problem += low + 2 * fixed, "cost in euros"
    problem += low + fixed >= -3, "ein Rest für später"
    problem.addVariable(idle)
    used = solver(trial)
    trial.equal("names and bounds: the status", problem.solve(used), pulp.LpStatusOptimal)
    trial.equal("names and bounds: the values", (low.varValue, fixed.varValue, idle.varValue), (-6, 3, 0))
    problem = pulp.LpProblem("nothing", pulp.LpMinimize)
    column = pulp.LpVariable("x", 0, 5, cat="Integer")
    problem += 2 * column == 6
    trial.equal("no objective", (problem.solve(solver(trial)), column.varValue), (pulp.LpStatusOptimal, 3))


def no_answers(trial: Trial, pulp) -> None:
    """Refused models, spent budgets, and faults of files: PuLP's status, and the reason."""
    problem = pulp.LpProblem("mixed", pulp.LpMinimize)
    whole, part = pulp.LpVariable("whole", 0, 5, cat="Integer"), pulp.LpVariable("part", 0, 5)
    problem += whole + part
    problem += whole + 2 * part >= 3.5
    used = solver(trial)
    trial.equal("a continuous column: the status", problem.solve(used), pulp.LpStatusUndefined)
    wanted = "refused model 6 Continuous, at the line 'part OBJ 1'"
    trial.need("a continuous column: the line of the refusal", used.answer.reason.startswith(wanted), used.answer.reason)
    trial.need("a continuous column: no values", whole.varValue is None and part.varValue is None)
    problem = pulp.LpProblem("unbounded", pulp.LpMinimize)
    column = pulp.LpVariable("free", cat="Integer")
    problem += column
    problem += column >= -4
    used = solver(trial)
    problem.solve(used)
    trial.need("a column without bounds: refused", "NoBound" in used.answer.reason, used.answer.reason)
    trial.equal("a column without bounds: upper", (problem.solve(solver(trial, upper=100)), column.varValue), (pulp.LpStatusOptimal, -4))
    used = solver(trial, certificate=trial.path("nowhere/x.cert"))
    trial.equal("a certificate that can't be written: the status", odd_sum(pulp, 4).solve(used), pulp.LpStatusUndefined)
    trial.need("a certificate that can't be written: the reason", used.answer.reason.startswith("fault sink: "), used.answer.reason)
    trial.write("no.journal", "this is no journal\n")
    used = solver(trial, journal=trial.path("no.journal"))
    odd_sum(pulp, 4).solve(used)
    trial.equal("no journal: the reason", used.answer.reason, "refused journal NotAJournal: the journal is refused")
    problem, _ = knapsack(pulp, pulp.LpMaximize)
    told = ""
    try:
        problem.solve(solver(trial, certificate="/dev/null"))
    except pulp.PulpSolverError as error:
        told = str(error)
    trial.need("a certificate that is thrown away: an error of PuLP", "can't be read back" in told, told)
    refuses_program(trial, pulp, "another program", "/bin/true", "told no answer of bnc")
    refuses_program(trial, pulp, "no program", trial.path("none"), "cannot execute")


def refuses_program(trial: Trial, pulp, name: str, path: str, words: str) -> None:
    """A program that isn't there, or isn't bnc, is an error of PuLP."""
    from bnc_pulp import BNC_CMD
    told = ""
    try:
        odd_sum(pulp, 4).solve(BNC_CMD(path=path, msg=False))
    except pulp.PulpSolverError as error:
        told = str(error)
    trial.need(f"{name}: an error of PuLP", words in told, told)


def going_on(trial: Trial, pulp) -> None:
    """A spent budget, and the same model once more from its journal; files that are kept."""
    kept = {"model": trial.path("odd.mps"), "journal": trial.path("odd.journal"), "certificate": trial.path("odd.cert")}
    problem = odd_sum(pulp, 6)
    used = solver(trial, nodes=3, cuts=0, **kept)
    trial.equal("a spent budget: the status", (problem.solve(used), problem.sol_status), (pulp.LpStatusNotSolved, pulp.LpSolutionNoSolutionFound))
    trial.equal("a spent budget: the lines", used.answer.lines[0], "spent")
    used = solver(trial, workers=2, cuts=0, **kept)
    trial.equal("going on from the journal", problem.solve(used), pulp.LpStatusInfeasible)
    checked = trial.run(os.path.join(TOOLS, "bnc-check"), kept["model"], kept["certificate"])
    trial.equal("the certificate that is kept is right", checked.out, "infeasible\n")
    used = solver(trial, journal=kept["journal"])
    other = odd_sum(pulp, 7)
    trial.equal("another model with this journal: the status", other.solve(used), pulp.LpStatusUndefined)
    trial.need("another model with this journal: the reason", "OtherModel" in used.answer.reason, used.answer.reason)
    in_use(trial, pulp)
    slow = odd_sum(pulp, 18)
    used = solver(trial, timeLimit=1, cuts=0)
    trial.equal("a limit of time: the status", slow.solve(used), pulp.LpStatusNotSolved)


def in_use(trial: Trial, pulp) -> None:
    """A journal that another run has."""
    kept = {"model": trial.path("used.mps"), "journal": trial.path("used.journal")}
    problem = odd_sum(pulp, 18)
    problem.solve(solver(trial, nodes=3, cuts=0, **kept))
    with trial.start(trial.program, "solve", kept["model"], kept["journal"], "/dev/null", "--cuts", "0") as other:
        size = os.path.getsize(kept["journal"])
        while other.poll() is None and os.path.getsize(kept["journal"]) == size:
            time.sleep(0.02)
        used = solver(trial, cuts=0, **kept)
        trial.equal("a journal in use: the status", problem.solve(used), pulp.LpStatusUndefined)
        trial.need("a journal in use: the reason", "another run has it" in used.answer.reason, used.answer.reason)
        other.terminate()


def random_problem(pulp, draw: random.Random):
    """A small problem with bounds, kinds of columns and rows of all sorts."""
    problem = pulp.LpProblem("random", draw.choice([pulp.LpMinimize, pulp.LpMaximize]))
    columns = []
    for at in range(draw.randint(1, 6)):
        low, high = draw.choice([None, draw.randint(-9, 0), 0]), draw.choice([None, draw.randint(1, 9), 1])
        columns.append(pulp.LpVariable(f"x{at}", low, high, cat=draw.choice(["Integer", "Continuous", "Binary"])))

    def total():
        return pulp.lpSum(draw.choice([1, -1, 0.25, -3, 2.75, 1e-3, 12345.678]) * column for column in columns)

    problem += total(), "obj"
    for at in range(draw.randint(1, 5)):
        side, kind = draw.choice([0, 3, -2.5, 7]), draw.choice(["<=", ">=", "=="])
        problem += (total() <= side if kind == "<=" else total() >= side if kind == ">=" else total() == side), f"r{at}"
    return problem


def exports(trial: Trial, pulp) -> None:
    """What PuLP writes is read as the class takes the problem itself."""
    from bnc_pulp import linear_model
    draw, wrong, tried = random.Random(38), "", 40
    for _ in range(tried):
        problem = random_problem(pulp, draw)
        problem.writeLP(trial.path("random.lp"))
        problem.writeMPS(trial.path("random.mps"))
        model = linear_model(problem)
        for reader, name in ((read_lp, "random.lp"), (read_mps, "random.mps")):
            with open(trial.path(name), encoding="utf-8") as text:
                written = text.read()
            found = reader(written)
            if (parts(found), found.is_maximised) != (parts(model), model.is_maximised):
                wrong = written
    trial.need(f"{tried} problems: as PuLP writes them in LP and MPS", not wrong, wrong)


def with_pulp(trial: Trial) -> None:
    try:
        import pulp
    except ImportError:
        trial.skip("the models of PuLP", HOW)
        return
    from bnc_pulp import BNC_CMD, register
    answers(trial, pulp)
    shapes(trial, pulp)
    no_answers(trial, pulp)
    going_on(trial, pulp)
    exports(trial, pulp)
    register()
    trial.need("pulp.getSolver knows it", type(pulp.getSolver("BNC_CMD", path=trial.program)) is BNC_CMD)
    again = pulp.getSolverFromDict(solver(trial, nodes=5, journal="j").toDict())
    trial.equal("a solver from its dictionary has the same words", (again.limits["nodes"], again.files["journal"], again.msg), (5, "j", False))
    copied = solver(trial, nodes=5, journal="j").copy()
    trial.equal("a copy has the same words", (copied.limits["nodes"], copied.files["journal"], copied.path), (5, "j", trial.program))


if __name__ == "__main__":
    go_where_pulp_is()
    main(with_pulp)
