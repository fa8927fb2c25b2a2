"""The command `bnc-convert`."""
from __future__ import annotations

import os
import sys

from .faults import MODEL, UNREAD, UNWRITTEN, USAGE, Fault, place, printable, run, whole
from .linear_model import LinearModel, ModelError
from .lp_format import read_lp
from .mps_format import read_mps
from .opb_format import read_opb
from .profile import MOST_BYTES, bound_by, profile_fault, profile_text
from .words import Parser, upper_bound

ABOUT = "Writes a model of another format in the profile of free MPS that bnc reads. Numbers are taken over exactly."
MORE = """\
FILE is in MPS (fixed columns or free), in the CPLEX LP format, or in OPB. A maximised objective is written with OBJSENSE MAX. Where
bnc can't have the model, one line says where it is at fault, and why."""
READERS = {"lp": read_lp, "mps": read_mps, "opb": read_opb}
SUFFIXES = {".lp": "lp", ".mps": "mps", ".opb": "opb"}


def parser() -> Parser:
    made = Parser("bnc-convert", ABOUT, MORE)
    made.add_argument("file", metavar="FILE", help="the model; - is standard input")
    made.add_argument("--format", choices=sorted(READERS), help="its format; without it the end of the file's name decides")
    made.add_argument("--upper", metavar="U", type=upper_bound, help="the bounds -U and U for columns that lack one")
    made.add_argument("--output", metavar="OUT", help="the file to write; without it standard output")
    return made


def text_of(path: str) -> str:
    """The file's text. `Fault`: it can't be read, or is no text in UTF-8."""
    data = sys.stdin.buffer.read() if path == "-" else whole(path)
    try:
        return data.decode("utf-8")
    except UnicodeDecodeError as error:
        line = data[: error.start].count(b"\n") + 1
        raise Fault(UNREAD, place(path, line), "the text is not in UTF-8") from None


def format_of(path: str, told: str) -> str:
    """The format of a file. `Fault`: neither the words nor the name tell it."""
    found = told or SUFFIXES.get(os.path.splitext(path)[1].lower())
    if not found:
        raise Fault(USAGE, path, "its name doesn't end in .mps, .lp or .opb: tell its format by --format")
    return found


def converted(text: str, reader, upper: int | None, name: str) -> str:
    """The text in the profile of a model that has this name. `ModelError`: there is none."""
    model: LinearModel = reader(text)
    model.title = model.title or os.path.splitext(name)[0]
    if upper is not None:
        bound_by(model, upper)
    fault = profile_fault(model)
    if fault:
        raise ModelError(fault)
    made = profile_text(model, f"{printable(name)}, by bnc-convert")
    if len(made.text) > MOST_BYTES:
        raise ModelError(f"the text would have {len(made.text)} bytes: bnc takes at most {MOST_BYTES}")
    tell_renamed("column", [column.name for column in model.columns], made.column_names)
    tell_renamed("row", [row.name for row in model.rows], made.row_names)
    return made.text


def tell_renamed(what: str, old: list, new: list) -> None:
    """Tells which names were replaced."""
    for before, after in zip(old, new):
        if before != after:
            print(f"bnc-convert: {what} {before!r} is called {after}", file=sys.stderr)


def write(text: str, path: str) -> None:
    """Writes the text. `Fault`: it can't be written."""
    if not path:
        sys.stdout.write(text)
        return
    try:
        with open(path, "w", encoding="ascii") as out:
            out.write(text)
    except OSError as error:
        raise Fault(UNWRITTEN, path, f"can't be written: {error.strerror}") from None


def action(words: list[str]) -> int:
    call = parser().parse_args(words)
    reader = READERS[format_of(call.file, call.format)]
    text = text_of(call.file)
    name = "standard input" if call.file == "-" else os.path.basename(call.file)
    try:
        made = converted(text, reader, call.upper, name)
    except ModelError as error:
        where = place(call.file, error.line) if error.line else call.file
        raise Fault(MODEL, where, error.reason) from None
    write(made, call.output)
    return 0


def main(words: list[str] | None = None) -> int:
    return run("bnc-convert", action, sys.argv[1:] if words is None else words)
