#!/usr/bin/env python3
"""Tests bnc-solution: the answer by names in each form, parts of certificates, and bad input. The one word is the path of the program bnc.

  tests/people.d/solution.py PROGRAM
"""
import csv
import io
import json
import os
import subprocess

import written
from people import TOOLS, example, inside, main, need

ONE = (b"VER 1.0\nVAR 1\nx\nINT 1\n0\nOBJ min\n1 0 3\nCON 3 2\nR0 G 1 1 0 1\nL0 G 2 1 0 1\nU0 L 2 1 0 1\nRTP range 6 6\nSOL 1\nS0 1 0 2\n"
       b"DER 1\nN0 G 6 1 0 3 { lin 1 1 3 } -1\n")
BLEND = """claim optimal 219/10
objective 219/10 (21.9)
oats 6
soy 1

protein 51/5 (10.2) >= 10 <= 25/2 slack 1/5 (0.2)
"""


def solved(tests, name):
    """The paths of an example's model and certificate."""
    model, _, certificate, _ = tests.solve(name, example(name))
    return model, certificate


def plain(tests):
    """claim, objective and the columns that aren't 0; with the model its rows"""
    model, certificate = solved(tests, "blend")
    done = inside("bnc-solution", certificate, "--model", model)
    need((done.status, done.out, done.error) == (0, BLEND, ""), f"{done.status} {done.out}{done.error}")
    done = inside("bnc-solution", certificate)
    need(done.out == BLEND.split("\n\n")[0] + "\n", done.out)
    model, certificate = solved(tests, "knapsack")
    lines = inside("bnc-solution", certificate, "--all").out.split("\n")
    need(lines[:3] == ["claim optimal -15", "objective -15", "green 0"] and len(lines) == 8, f"{lines}")
    need("green" not in inside("bnc-solution", certificate).out, "a column that is 0 is shown")
    _, certificate = solved(tests, "coins")
    need(inside("bnc-solution", certificate).out == "claim infeasible\n", "an infeasible one")


def as_json(tests):
    """JSON has exact numbers, and every row's activity and slack"""
    model, certificate = solved(tests, "blend")
    made = json.loads(inside("bnc-solution", certificate, "--json", "--model", model, "--all").out)
    need(made == {"claim": "optimal", "sense": "min", "complete": True, "low": "219/10", "high": "219/10", "objective": "219/10", "objective_decimal": 21.9,
                  "columns": {"oats": 6, "soy": 1},
                  "rows": [{"name": "protein", "activity": "51/5", "low": 10, "high": "25/2", "slack": "1/5"}]}, f"{made}")
    _, certificate = solved(tests, "coins")
    made = json.loads(inside("bnc-solution", certificate, "--json").out)
    need(made == {"claim": "infeasible", "sense": "min", "complete": True, "columns": {}}, f"{made}")


def as_csv(tests):
    """CSV has a line for the claim, the objective, each column and each row"""
    model, certificate = solved(tests, "blend")
    rows = list(csv.reader(io.StringIO(inside("bnc-solution", certificate, "--csv", "--model", model).out)))
    need(rows == [["kind", "name", "value", "low", "high", "slack"], ["claim", "optimal", "21.9", "", "", ""], ["objective", "min", "21.9", "", "", ""],
                  ["column", "oats", "6", "", "", ""], ["column", "soy", "1", "", "", ""], ["row", "protein", "10.2", "10", "12.5", "0.2"]], f"{rows}")


def other_certificates(tests):
    """a maximised certificate, one with a range, and one whose columns stand in another order"""
    certificate = tests.path("m.cert", written.MAX_CUT)
    need(inside("bnc-solution", certificate).out == "claim optimal 2\nobjective 2, maximised\nx 2\n", inside("bnc-solution", certificate).out)
    taken = {title: (model, text) for title, model, text, _ in written.TAKEN}
    model, text = taken["columns in another order"]
    out = inside("bnc-solution", tests.path("o.cert", text.replace("S0 2 0 1 1 1", "S0 2 0 2 1 1")), "--model", tests.path("o.mps", model)).out
    need(out.startswith("claim optimal 2\nobjective 3\nx 1\ny 2\n"), out)
    model, text = taken["several points, the best not first"]
    need("objective 2\nx 1\ny 1\n" in inside("bnc-solution", tests.path("s.cert", text)).out, "the best point isn't the one that is shown")
    model, text = taken["a range without ends"]
    need(inside("bnc-solution", tests.path("r.cert", text)).out.startswith("claim range -inf inf\nobjective 2\n"), "a range")


def parts(tests):
    """a certificate that is cut anywhere: what is there is printed, a line says that it is a part, and the status is 1"""
    model, certificate = solved(tests, "knapsack")
    with open(certificate, "rb") as file:
        whole = file.read()
    behind = whole.index(b"DER ")
    shown = 0
    for length in [*range(60), *range(60, len(whole) - 60, 5), *range(len(whole) - 60, len(whole) - 1)]:
        done = inside("bnc-solution", tests.path("cut", whole[:length]), "--model", model)
        need(done.status == 1 and done.error.count("\n") == 1 and "cut" in done.error, f"at byte {length}: {done.status} {done.error}")
        need(length > behind or done.out == "", f"at byte {length} it prints {done.out}")
        if done.out:
            shown += 1
            need(done.out.startswith("claim optimal -15\nobjective -15\n"), done.out)
            need("a part of a certificate" in done.error, done.error)
    need(inside("bnc-solution", tests.path("cut", whole[:-1])).status == 0, "without its last line feed it is refused")
    made = json.loads(inside("bnc-solution", tests.path("cut", whole[:-20]), "--json").out)
    need(made["complete"] is False, "JSON says that a part is complete")
    for length in range(len(ONE)):
        done = inside("bnc-solution", tests.path("cut", ONE[:length]))
        need(done.status == (0 if length == len(ONE) - 1 else 1), f"at byte {length} of the least certificate: {done.status} {done.error}")
    return f"{shown} cuts behind the points"


def bad_input(tests):
    """a file that isn't there, a folder, another model's certificate, bytes of any kind, wrong words"""
    model, certificate = solved(tests, "knapsack")
    inside("bnc-solution", tests.path("none")).need_refused(5, "none: can't be read: no such file")
    inside("bnc-solution", tests.folder.name).need_refused(5, "can't be read: is a directory")
    inside("bnc-solution", certificate, "--model", tests.path("none")).need_refused(5, "none: can't be read")
    inside("bnc-solution", certificate, "--model", tests.path("o.mps", example("coins"))).need_refused(1, "the columns of the certificate are not the model's")
    inside("bnc-solution", certificate, "--model", certificate).need_refused(3, "the model is refused: BadSection")
    inside("bnc-solution", model).need_refused(1, "stands where VER should")
    inside("bnc-solution", tests.path("bytes", bytes(range(256)) * 9)).need_refused(1, "bytes:")
    for words in ([], [certificate, "--json", "--csv"], [certificate, "more"], [certificate, "--al"]):
        inside("bnc-solution", *words).need_refused(2, "bnc-solution --help")
    done = subprocess.run(["sh", "-c", '"$0" "$1" --all | true', os.path.join(TOOLS, "bnc-solution"), certificate], capture_output=True, timeout=300)
    need(done.stderr == b"", f"a reader that goes away: {done.stderr}")


CASES = [plain, as_json, as_csv, other_certificates, parts, bad_input]

if __name__ == "__main__":
    main(CASES)
