"""The command `bnc-solution`."""
import csv
import json
import sys
from typing import Optional

from . import faults
from .certificate import Text, opened
from .exact import Number, decimal, spelt, told
from .faults import WRONG
from .model import read_model
from .solution import Activity, Answer, read_answer, with_rows
from .words import Parser

ABOUT = "Prints the answer of a certificate by the names of the columns. It doesn't check the certificate: bnc-check does."
MORE = """\
Plain output has the lines `claim ..`, `objective ..`, and one line `NAME VALUE` for each column that isn't 0. With --model follow a blank line,
and for each row its name, its activity, its sides, and the slack: how far it is from the nearer side. Numbers are exact; a fraction has its
decimals behind it. Where the certificate is a part of one, a line on standard error says so, and the status is 1."""


def parser() -> Parser:
    made = Parser("bnc-solution", ABOUT, MORE)
    made.add_argument("certificate", metavar="CERT", help="the certificate")
    form = made.add_mutually_exclusive_group()
    form.add_argument("--json", action="store_true", help="print an object of JSON; fractions are texts such as \"7/2\"")
    form.add_argument("--csv", action="store_true", help="print CSV: kind, name, value, and for rows low, high and slack")
    made.add_argument("--all", action="store_true", help="print the columns that are 0, too")
    made.add_argument("--model", metavar="MODEL", help="the model, for the activities and slacks of its rows")
    return made


def claim_word(answer: Answer) -> str:
    return answer.claim.told().split(" ")[0]


def shown(answer: Answer, every: bool) -> dict[str, Number]:
    return {name: value for name, value in answer.values.items() if every or value != 0}


# ---- plain

def print_plain(answer: Answer, every: bool):
    print(f"claim {answer.claim.told()}")
    if answer.objective is not None:
        print(f"objective {told(answer.objective)}{', maximised' if answer.maximise else ''}")
    for name, value in shown(answer, every).items():
        print(f"{name} {spelt(value)}")
    if answer.rows is not None:
        print()
        for row in answer.rows:
            print(f"{row.name} {told(row.activity)}{sides(row)} slack {told(row.slack())}")


def sides(row: Activity) -> str:
    """The sides of a row, as a reader writes them behind its activity."""
    if row.low is not None and row.low == row.high:
        return f" = {spelt(row.low)}"
    low = "" if row.low is None else f" >= {spelt(row.low)}"
    return low + ("" if row.high is None else f" <= {spelt(row.high)}")


# ---- JSON

def exact(value):
    """A number for JSON: whole ones as they are, a fraction as a text."""
    return value if value is None or isinstance(value, int) else spelt(value)


def floating(value: Number) -> Optional[float]:
    """The closest floating-point number; none where it is too large for one."""
    try:
        return float(value)
    except OverflowError:
        return None


def print_json(answer: Answer, every: bool):
    made = {"claim": claim_word(answer), "sense": "max" if answer.maximise else "min", "complete": answer.part is None}
    if not answer.claim.infeasible:
        made["low"], made["high"] = exact(answer.claim.low), exact(answer.claim.high)
    if answer.objective is not None:
        made["objective"], made["objective_decimal"] = exact(answer.objective), floating(answer.objective)
    made["columns"] = {name: exact(value) for name, value in shown(answer, every).items()}
    if answer.rows is not None:
        made["rows"] = [{"name": row.name, "activity": exact(row.activity), "low": exact(row.low), "high": exact(row.high),
                         "slack": exact(row.slack())} for row in answer.rows]
    json.dump(made, sys.stdout, indent=1)
    print()


# ---- CSV

def field(value) -> str:
    """A number for CSV: in decimals, where that is exact."""
    if value is None:
        return ""
    text = decimal(value)
    return spelt(value) if text.startswith("about") else text


def print_csv(answer: Answer, every: bool):
    out = csv.writer(sys.stdout, lineterminator="\n")
    out.writerow(["kind", "name", "value", "low", "high", "slack"])
    out.writerow(["claim", claim_word(answer), "" if answer.claim.infeasible else field(answer.claim.high), "", "", ""])
    if answer.objective is not None:
        out.writerow(["objective", "max" if answer.maximise else "min", field(answer.objective), "", "", ""])
    for name, value in shown(answer, every).items():
        out.writerow(["column", name, field(value), "", "", ""])
    for row in answer.rows or []:
        out.writerow(["row", row.name, field(row.activity), field(row.low), field(row.high), field(row.slack())])


# ---- the call

def action(words: list[str]) -> int:
    asked = parser().parse_args(words)
    model = read_model(asked.model, 0) if asked.model else None  # bounds play no part here
    with opened(asked.certificate) as file:
        answer = read_answer(Text(file, asked.certificate))
    if model is not None:
        answer = with_rows(answer, asked.certificate, model)
    (print_json if asked.json else print_csv if asked.csv else print_plain)(answer, asked.all)
    if answer.part is not None:
        sys.stdout.flush()
        return faults.told("bnc-solution", f"{asked.certificate}: {answer.part}", WRONG)
    return 0


def main(words=None) -> int:
    return faults.run("bnc-solution", action, sys.argv[1:] if words is None else words)
