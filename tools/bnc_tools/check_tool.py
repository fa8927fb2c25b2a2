"""The command `bnc-check`."""
import sys

from . import faults
from .certificate import Text, opened
from .check import check
from .model import read_model
from .progress import Progress
from .words import Parser, add_upper

ABOUT = "Checks a certificate in the format VIPR 1.0 against its model, line by line, in exact arithmetic. It shares nothing with bnc."
MORE = """\
It prints the claim, `infeasible`, `optimal Z` or `range LB UB`, where every line holds. Else one line on standard error says where the first
thing is that is wrong, and what. docs/TOOLS.md says which certificates it takes."""


def parser() -> Parser:
    made = Parser("bnc-check", ABOUT, MORE)
    made.add_argument("model", metavar="MODEL", help="the model, in free MPS")
    made.add_argument("certificate", metavar="CERT", help="its certificate")
    add_upper(made)
    made.add_argument("--strict", action="store_true", help="take only what bnc itself may write: the form and the rules of docs/CERTIFICATE.md")
    return made


def action(words: list[str]) -> int:
    asked = parser().parse_args(words)
    model = read_model(asked.model, asked.upper)
    progress = Progress("bnc-check")
    with opened(asked.certificate) as file:
        try:
            head = check(Text(file, asked.certificate, asked.strict), model, progress)
        finally:
            progress.end()
    print(head.claim.told())
    return 0


def main(words=None) -> int:
    return faults.run("bnc-check", action, sys.argv[1:] if words is None else words)
