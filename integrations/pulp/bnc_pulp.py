"""A solver of PuLP that calls `bnc`: exact answers to models of whole columns, each with a certificate.

    import pulp
    from bnc_pulp import BNC_CMD

    problem.solve(BNC_CMD(journal="rota.journal", certificate="rota.cert"))

The model is written in the profile of free MPS that `bnc` reads (docs/MODEL_FORMAT.md). Names that the profile refuses are replaced, and
mapped back.

It needs PuLP 2.6 or later (Debian: python3-pulp), and the folder of `bnc_tools`, which is found beside this file or in the repository.
"""
from __future__ import annotations

import math
import numbers
import os
import re
import shutil
import subprocess
import sys
import tempfile
import time
from dataclasses import dataclass
from decimal import Decimal
from fractions import Fraction

import pulp
from pulp import constants
from pulp.apis.core import LpSolver_CMD, PulpSolverError

HERE = os.path.dirname(os.path.realpath(__file__))
if not os.path.isdir(os.path.join(HERE, "bnc_tools")):
    sys.path.append(os.path.join(HERE, "..", "..", "tools"))

from bnc_tools.certificate import Text, opened, read_head  # noqa: E402
from bnc_tools.faults import Fault  # noqa: E402
from bnc_tools.linear_model import Column, LinearModel, ModelError, Row  # noqa: E402
from bnc_tools.profile import ProfileText, profile_text  # noqa: E402

SPENT = 8
STATUS_WORDS = {
    4: "the journal is refused",
    5: "the model's file can't be read",
    6: "the journal can't be read or written, or another run has it",
    7: "the certificate or the answer can't be written",
    9: "memory ran out: the journal has the steps so far",
}


@dataclass
class Answer:
    """What a run came to: PuLP's two statuses, the program's lines, the reason where there is no answer, and the values by PuLP's names."""

    status: int
    solution: int
    lines: list[str]
    reason: str = ""
    objective: Fraction | None = None
    values: dict[str, int] | None = None


def exact(value) -> Fraction:
    """The exact number that is meant. A float stands for the shortest decimal that reads as it, so 0.1 is one tenth. `ModelError`: no number."""
    if isinstance(value, (int, Fraction, Decimal)):
        return Fraction(value)
    if isinstance(value, numbers.Integral):
        return Fraction(int(value))
    if math.isfinite(float(value)):
        return Fraction(repr(float(value)))
    raise ModelError(f"{value} is no number of a model")


def bound(value) -> Fraction | None:
    """A bound; none where it is an infinity or isn't there."""
    return None if value is None or math.isinf(float(value)) else exact(value)


def linear_model(problem: pulp.LpProblem) -> LinearModel:
    """The model of a problem of PuLP. `ModelError`: it has SOS sets, two columns of one name, or a number that is none."""
    if problem.sos1 or problem.sos2:
        raise ModelError("the model has SOS sets")
    model = LinearModel(title=problem.name or "", is_maximised=problem.sense == constants.LpMaximize)
    for place, variable in enumerate(problem.variables()):
        if variable.name in model.places:
            raise ModelError(f"two columns are called {variable.name}")
        whole = variable.cat in (constants.LpInteger, constants.LpBinary)
        model.columns.append(Column(variable.name, bound(variable.lowBound), bound(variable.upBound), whole))
        model.places[variable.name] = place
    places = {variable: place for place, variable in enumerate(problem.variables())}
    if problem.objective is not None:
        model.objective_name = problem.objective.name or "OBJ"
        model.objective = terms(problem.objective, places)
        model.constant = exact(problem.objective.constant)
    for name, constraint in problem.constraints.items():
        model.rows.append(row(name, constraint, places))
    return model


def terms(expression, places: dict) -> dict[int, Fraction]:
    """The terms of an expression, by the places of its columns. Those of 0 are left out."""
    pairs = ((places[variable], exact(value)) for variable, value in expression.items())
    return {place: value for place, value in pairs if value}


def row(name: str, constraint, places: dict) -> Row:
    """A constraint as a row."""
    side = -exact(constraint.constant)
    low = None if constraint.sense == constants.LpConstraintLE else side
    high = None if constraint.sense == constants.LpConstraintGE else side
    return Row(name, low, high, terms(constraint, places))


def point_of(certificate: str) -> dict[str, int]:
    """The values of the point that a certificate lists, by the names of its columns; a column that isn't listed is 0."""
    with opened(certificate) as file:
        head = read_head(Text(file, certificate))
    values = head.points[0].values
    return {name: values.get(place, 0) for place, name in enumerate(head.names)}


class BNC_CMD(LpSolver_CMD):
    """The solver `bnc`, called as a program.

    After a solve `answer` has what the run came to: its lines, the reason where there is no answer, and the exact objective.
    """

    name = "BNC_CMD"

    def __init__(
        self,
        path=None,
        keepFiles=False,
        mip=True,
        msg=True,
        options=None,
        timeLimit=None,
        nodes=None,
        cuts=None,
        workers=None,
        upper=None,
        model=None,
        journal=None,
        certificate=None,
    ):
        """
        :param str path: the program; without it `bnc` on the PATH
        :param bool keepFiles: whether the files that have no name of their own stay in the current folder, named after the problem
        :param bool mip: has to be True: the relaxation isn't solved
        :param bool msg: whether the program's lines are printed
        :param list options: further words for the program
        :param float timeLimit: after so many seconds the run is stopped; its journal has the steps so far
        :param int nodes, cuts, workers, upper: the options of `bnc solve`
        :param str model: where the model's text is kept
        :param str journal: where the journal is kept: the same model goes on from it
        :param str certificate: where the certificate is kept
        """
        self.limits = {"nodes": nodes, "cuts": cuts, "workers": workers, "upper": upper}
        self.files = {"mps": model, "journal": journal, "cert": certificate}
        # PuLP keeps further words in a dictionary, from which it makes a solver again.
        named = {"model": model, "journal": journal, "certificate": certificate}
        words = {"keepFiles": keepFiles, "mip": mip, "msg": msg, "options": options, "timeLimit": timeLimit}
        LpSolver_CMD.__init__(self, path=path, **words, **self.limits, **named)
        self.answer: Answer | None = None

    def defaultPath(self):
        return "bnc"

    def available(self):
        """The program's path, or False."""
        return shutil.which(self.path) or False

    def copy(self):
        """A solver with the same words."""
        words = {"path": self.path, "keepFiles": self.keepFiles, "mip": self.mip, "msg": self.msg}
        named = {"model": self.files["mps"], "journal": self.files["journal"], "certificate": self.files["cert"]}
        return BNC_CMD(options=list(self.options), timeLimit=self.timeLimit, **words, **self.limits, **named)

    def actualSolve(self, lp):
        """Solves a problem. `PulpSolverError`: the program isn't there, or the relaxation is asked for."""
        if not self.available():
            raise PulpSolverError(f"PuLP: cannot execute {self.path}: install bnc, or give its path")
        if not self.mip:
            raise PulpSolverError("PuLP: bnc solves models of whole columns; it has no relaxation to give")
        with tempfile.TemporaryDirectory(prefix="bnc-pulp-") as folder:
            self.answer = self.solve_in(lp, folder)
        for variable in lp.variables():
            variable.varValue = (self.answer.values or {}).get(variable.name)
        lp.assignStatus(self.answer.status, self.answer.solution)
        if self.msg and self.answer.reason:
            print(f"bnc: {self.answer.reason}")
        return self.answer.status

    def solve_in(self, lp, folder: str) -> Answer:
        """Writes the model, calls the program, and reads its answer. Files without a name of their own lie in the folder."""
        try:
            model = linear_model(lp)
            made = profile_text(model)
        except ModelError as error:
            return Answer(constants.LpStatusUndefined, constants.LpSolutionNoSolutionFound, [], f"the model can't be written: {error.reason}")
        paths = {end: path or self.unnamed(lp, folder, end) for end, path in self.files.items()}
        try:
            with open(paths["mps"], "w", encoding="ascii") as out:
                out.write(made.text)
        except OSError as error:
            return Answer(constants.LpStatusUndefined, constants.LpSolutionNoSolutionFound, [], f"{paths['mps']}: {error.strerror}")
        return self.run(model, made, paths)

    def unnamed(self, lp, folder: str, end: str) -> str:
        """The path of a file that the user gave none."""
        return f"{re.sub('[^A-Za-z0-9_.-]', '_', lp.name)}.{end}" if self.keepFiles else os.path.join(folder, f"model.{end}")

    def words(self, paths: dict[str, str]) -> list[str]:
        """The words of the call."""
        words = [self.available(), "solve"]
        for option, value in self.limits.items():
            if value is not None:
                words += [f"--{option}", str(value)]
        return [*words, *map(str, self.options), "--", paths["mps"], paths["journal"], paths["cert"]]

    def run(self, model: LinearModel, made: ProfileText, paths: dict[str, str]) -> Answer:
        """Calls the program, and reads its answer."""
        began = time.time()
        try:
            ran = subprocess.run(
                self.words(paths), stdin=subprocess.DEVNULL, stdout=subprocess.PIPE, text=True, timeout=self.timeLimit, check=False
            )
            status, lines = ran.returncode, ran.stdout.splitlines()
        except subprocess.TimeoutExpired:
            status, lines = SPENT, [f"stopped after {self.timeLimit} seconds"]
        self.solution_time = time.time() - began
        if self.msg and lines:
            print("\n".join(lines))
        if status == 0:
            return finished(model, made, lines, paths["cert"])
        return unfinished(status, lines, model, made)


def finished(model: LinearModel, made: ProfileText, lines: list[str], certificate: str) -> Answer:
    """The answer of a finished search. `PulpSolverError`: the program isn't `bnc`, or the certificate is gone."""
    first = lines[0] if lines else ""
    if first == "infeasible":
        return Answer(constants.LpStatusInfeasible, constants.LpSolutionInfeasible, lines)
    if not re.fullmatch(r"optimal -?[0-9]+(/[0-9]+)?", first):
        raise PulpSolverError("PuLP: the program told no answer of bnc")
    objective = Fraction(first.split(" ")[1]) + model.constant
    try:
        point = point_of(certificate)
    except Fault as fault:
        raise PulpSolverError(f"PuLP: the certificate can't be read back: {fault}") from None
    values = {column.name: point[name] for column, name in zip(model.columns, made.column_names)}
    return Answer(constants.LpStatusOptimal, constants.LpSolutionOptimal, lines, "", objective, values)


def unfinished(status: int, lines: list[str], model: LinearModel, made: ProfileText) -> Answer:
    """The answer of a run without one: spent, refused, or ended by a fault."""
    told = lines[0] if lines else f"ended with status {status}"
    if status == SPENT:
        reason = f"{told}: no answer yet; the journal has the steps so far, where it is kept"
        return Answer(constants.LpStatusNotSolved, constants.LpSolutionNoSolutionFound, lines, reason)
    reason = refused_model(told, model, made) if told.startswith("refused model ") else f"{told}: {STATUS_WORDS.get(status, 'no answer')}"
    return Answer(constants.LpStatusUndefined, constants.LpSolutionNoSolutionFound, lines, reason)


def refused_model(told: str, model: LinearModel, made: ProfileText) -> str:
    """A refusal of the model, with its line of the text, and the names that PuLP has there."""
    line = int(told.split(" ")[2])
    text = made.text.split("\n")[line - 1].strip() if line else ""
    renamed = {new: column.name for column, new in zip(model.columns, made.column_names) if column.name != new}
    renamed.update({new: of.name for of, new in zip(model.rows, made.row_names) if of.name != new})
    names = [f"{word} is {renamed[word]!r}" for word in text.split() if word in renamed]
    return f"{told}, at the line {text!r}" + (f" ({', '.join(names)})" if names else "")


def register() -> None:
    """Has `pulp.getSolver("BNC_CMD")` and `pulp.listSolvers()` know this solver."""
    if BNC_CMD not in pulp.apis._all_solvers:
        pulp.apis._all_solvers.append(BNC_CMD)
