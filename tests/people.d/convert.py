#!/usr/bin/env python3
"""Tries bnc-convert: its formats, what it refuses, and whether its models have the answers that other programs find."""
import os
import random
import shutil
import sys
from fractions import Fraction

from trial import TOOLS, TOP, Trial, main

from bnc_tools.linear_model import ModelError
from bnc_tools.lp_format import read_lp
from bnc_tools.mps_format import read_mps
from bnc_tools.opb_format import read_opb
from bnc_tools.profile import profile_fault, profile_text

CONVERT = os.path.join(TOOLS, "bnc-convert")

ROTA = """\\* what two crews earn *\\
Maximize
 earn: 3 early + 2.5 late - spare + 4
Subject To
 hands: early + late + spare <= 10
 pair: -2 <= early - late <= 8
 least: 2 early + 3 late >= 4
 early + spare >= 1
 even: spare - late = 0
Bounds
 early <= 4
 -3 <= late <= 5
 spare <= 7
Generals
 early late spare
End
"""

ROTA_PROFILE = """* rota.lp, by bnc-convert
* The constant 4 of the objective is left out: add it to the value.
NAME rota
OBJSENSE MAX
ROWS
 N earn
 L hands
 G pair
 G least
 G R4
 E even
COLUMNS
 m1 'MARKER' 'INTORG'
 early earn 3
 early hands 1
 early pair 1
 early least 2
 early R4 1
 late earn 2.5
 late hands 1
 late pair -1
 late least 3
 late even -1
 spare earn -1
 spare hands 1
 spare R4 1
 spare even 1
 m2 'MARKER' 'INTEND'
RHS
 rhs hands 10
 rhs pair -2
 rhs least 4
 rhs R4 1
RANGES
 rng pair 10
BOUNDS
 UP bnd early 4
 LO bnd late -3
 UP bnd late 5
 UP bnd spare 7
ENDATA
"""

OPB = """* #variable= 3 #constraint= 2
min: +1 x1 -2 x2 +3 ~x3;
+1 x1 +4 x2 >= 3;
+1 x1 +1 ~x2 <= 1;
"""

def fixed_line(kind: str, *fields: str) -> str:
    """A line in the columns of fixed MPS."""
    return " {:<2} {:<8}  {:<8}  {:>12}   {:<8}  {:>12}".format(kind, *fields, *[""] * (5 - len(fields))).rstrip()


FIXED = "\n".join([
    "NAME          TWO CREWS", "ROWS", fixed_line("N", "PAY"), fixed_line("G", "HANDS"), fixed_line("L", "ROOM FOR"),
    "COLUMNS", fixed_line("", "MARKER", "'MARKER'", "", "'INTORG'"),
    fixed_line("", "DAY CREW", "PAY", "3.5", "HANDS", "1"), fixed_line("", "DAY CREW", "ROOM FOR", "2"), fixed_line("", "NIGHT", "PAY", "5", "HANDS", "1"),
    fixed_line("", "MARKER", "'MARKER'", "", "'INTEND'"),
    "RHS", fixed_line("", "RHS", "HANDS", "4", "ROOM FOR", "5"), "RANGES", fixed_line("", "RNG", "HANDS", "2"),
    "BOUNDS", fixed_line("UP", "BND", "DAY CREW", "4"), fixed_line("UP", "BND", "NIGHT", "4"), "ENDATA", ""])

FREE_MAXIMISED = """NAME m
OBJSENSE
    MAX
ROWS
 N worth
 L room
COLUMNS
 m1 'MARKER' 'INTORG'
 a worth 3 room 2
 b worth 2 room 1
 m2 'MARKER' 'INTEND'
RHS
 rhs room 5 worth -7
BOUNDS
 UP bnd a 2
 UP bnd b 3
ENDATA
"""

REFUSED = [
    ("a continuous column", "a.lp", "Minimize\n x + y\nSubject To\n x + y >= 1.5\nBounds\n x <= 4\n y <= 4\nGenerals\n x\nEnd\n", "column y is continuous"),
    ("a column without an upper bound", "a.lp", "Minimize\n x\nSubject To\n x >= 1\nGenerals\n x\nEnd\n", "column x has no upper bound"),
    ("a free column", "a.lp", "Minimize\n x\nSubject To\n x >= 1\nBounds\n x free\nGenerals\n x\nEnd\n", "column x has no lower bound"),
    ("an upper bound below 0 and no lower one", "a.lp", "Minimize\n x\nBounds\n -inf <= x <= -3\nGenerals\n x\nEnd\n", "column x has no lower bound"),
    ("a quadratic objective", "a.lp", "Minimize\n x + [ x ^2 ] / 2\nSubject To\n x >= 1\nEnd\n", "a.lp:2: the model is quadratic"),
    ("semi-continuous columns", "a.lp", "Minimize\n x\nSubject To\n x >= 1\nSemi-Continuous\n x\nEnd\n", "a.lp:5: the model has semi-continuous columns"),
    ("SOS sets", "a.lp", "Minimize\n x\nSubject To\n x >= 1\nSOS\n s: S1:: x:1\nEnd\n", "a.lp:5: the model has SOS sets"),
    ("no End", "a.lp", "Minimize\n x\nSubject To\n x >= 1\n", "ends without End"),
    ("two directions", "a.lp", "Minimize\n x\nMaximize\n x\nEnd\n", "at once"),
    ("the LP format of another program", "a.lp", "max: 3x+2y;\nc1: x+y<=4;\n", "a.lp:1: the text doesn't begin with Minimize or Maximize"),
    ("a number that is too fine", "a.lp", "Minimize\n 0.1234567890123456 x\nSubject To\n x >= 1\nBounds\n x <= 1\nGenerals\n x\nEnd\n", "the number 0.1234567890123456 of the objective has more than 15"),
    ("a number that is too large", "a.lp", "Minimize\n x\nSubject To\n r: 2e9 x >= 1\nBounds\n x <= 1\nGenerals\n x\nEnd\n", "of row r is above 1000000000"),
    ("a number of many digits", "a.lp", "Minimize\n x\nSubject To\n r: 1e350 x >= 1\nBounds\n x <= 1\nGenerals\n x\nEnd\n", "of more than 300 digits of row r"),
    ("a number of too many digits", "a.lp", f"Minimize\n x\nSubject To\n r: {'1' * 5000} x >= 1\nEnd\n", "a.lp:4: 1111111111111111111111111111111111111111 is no number"),
    ("such a number in OPB", "a.opb", f"min: {'1' * 5000} x1;\n", "a.opb:1: 1111111111111111111111111111111111111111 is no number"),
    ("an upper bound below 0", "a.lp", "Minimize\n x\nSubject To\n x >= -9\nBounds\n x <= -1\nGenerals\n x\nEnd\n", "say which is meant"),
    ("a comparison too many", "a.lp", "Minimize\n x\nSubject To\n r: 1 <= x <= 2 <= 3\nEnd\n", "a.lp:4: row r has 3 comparisons"),
    ("a product in OPB", "a.opb", "min: 1 x1;\n1 x1 x2 >= 1;\n", "a.opb:2: a product of columns"),
    ("a soft row in OPB", "a.opb", "soft: 3 ;\n[2] 1 x1 >= 1;\n", "a.opb:1: soft rows"),
    ("a row of OPB that is cut", "a.opb", "min: 1 x1;\n1 x1", "a.opb:2: the text ends within a statement"),
    ("a quadratic section", "a.mps", "NAME q\nROWS\n N c\nCOLUMNS\n x c 1\nRHS\nBOUNDS\nQUADOBJ\n x x 1\nENDATA\n", "a.mps:8: the model is quadratic"),
    ("a semi-continuous bound", "a.mps", "ROWS\n N c\nCOLUMNS\n x c 1\nBOUNDS\n SC bnd x 4\nENDATA\n", "a.mps:6: the model has semi-continuous columns"),
    ("no ENDATA", "a.mps", "ROWS\n N c\nCOLUMNS\n x c 1\n", "a.mps:5: the text ends without ENDATA"),
    ("a right side twice", "a.mps", "ROWS\n N c\n G r\nCOLUMNS\n x c 1 r 1\nRHS\n s r 1\n s r 2\nENDATA\n", "a.mps:8: row r stands twice in RHS"),
    ("an unknown row", "a.mps", "ROWS\n N c\nCOLUMNS\n x d 1\nENDATA\n", "a.mps:4: no row of ROWS is called d"),
]


def solved(trial: Trial, model: str, *words: str) -> str:
    """The first line of the program's answer to a model's text."""
    path = trial.write("solved.mps", model)
    for name in ("solved.journal", "solved.cert"):
        if os.path.exists(trial.path(name)):
            os.remove(trial.path(name))
    return trial.run(trial.program, "solve", path, "solved.journal", "solved.cert", *words).out.split("\n")[0]


def converted(trial: Trial, name: str, text: str, *words: str):
    """What bnc-convert makes of a text."""
    trial.write(name, text)
    return trial.run(CONVERT, name, *words)


def formats(trial: Trial) -> None:
    """Each format, by the text that is made or by the answer."""
    made = converted(trial, "rota.lp", ROTA)
    trial.equal("CPLEX LP: the text in the profile", made.out, ROTA_PROFILE)
    trial.equal("CPLEX LP: the answer of a maximised model", solved(trial, made.out), "optimal 33/2")
    trial.equal("OPB: the answer, without the constant 3", solved(trial, converted(trial, "a.opb", OPB).out), "optimal -5")
    fixed = converted(trial, "two.mps", FIXED)
    trial.equal("fixed MPS with blanks in names: the answer", solved(trial, fixed.out), "optimal 17")
    trial.need("fixed MPS: a name that is replaced is told", "column 'DAY CREW' is called column_1" in fixed.err, fixed.err)
    free = converted(trial, "max.mps", FREE_MAXIMISED)
    trial.equal("free MPS, maximised: the answer", solved(trial, free.out), "optimal 9")
    trial.need("free MPS: the right side of the objective is told", "The constant 7 of the objective" in free.out, free.out)
    empty = converted(trial, "empty.lp", "Minimize\nSubject To\nEnd\n")
    trial.equal("a model of nothing", solved(trial, empty.out), "optimal 0")
    unbounded = converted(trial, "a.lp", "Minimize\n x - y\nSubject To\n y <= 4\nBounds\n x free\nGenerals\n x y\nEnd\n", "--upper", "9")
    trial.equal("--upper: columns without bounds", solved(trial, unbounded.out), "optimal -13")


def examples(trial: Trial) -> None:
    """The models that are in the profile already stay what they are."""
    for name in sorted(os.listdir(os.path.join(TOP, "examples"))):
        if name.endswith(".mps"):
            path = os.path.join(TOP, "examples", name)
            with open(path, encoding="ascii") as text:
                wanted = solved(trial, text.read())
            trial.equal(f"{name}: the same answer", solved(trial, trial.run(CONVERT, path).out), wanted)


def refusals(trial: Trial) -> None:
    """Models that can't be had, and files that can't be read."""
    for name, file, text, line in REFUSED:
        trial.write(file, text)
        trial.refuses(f"refused: {name}", 3, line, CONVERT, file)
    trial.refuses("no such file", 5, "none.lp: can't be read", CONVERT, "none.lp")
    os.mkdir(trial.path("folder.lp"))
    trial.refuses("a folder", 5, "folder.lp: can't be read", CONVERT, "folder.lp")
    trial.write("latin.lp", b"Minimize\n x\nSubject To\n \xfcber: x >= 1\nEnd\n")
    trial.refuses("not UTF-8", 5, "latin.lp:4: the text is not in UTF-8", CONVERT, "latin.lp")
    trial.write("model.txt", ROTA)
    trial.refuses("a name without a format", 2, "tell its format by --format", CONVERT, "model.txt")
    trial.refuses("an output that can't be written", 7, "can't be written", CONVERT, "rota.lp", "--output", "none/model.mps")


def broken(trial: Trial) -> None:
    """Texts that are cut, or have other bytes: each is taken or refused, and nothing else comes of it."""
    draw, tried = random.Random(38), 0
    for name, reader, text in (("CPLEX LP", read_lp, ROTA), ("OPB", read_opb, OPB), ("MPS", read_mps, FIXED), ("free MPS", read_mps, FREE_MAXIMISED)):
        texts = [text[:at] for at in range(len(text))]
        for _ in range(500):
            at = draw.randrange(len(text))
            texts.append(text[:at] + draw.choice("0 9.-+<=>:;~x[\n\t^eE'") + text[at + draw.randrange(2):])
        wrong = ""
        for one in texts:
            try:
                model = reader(one)
                if not profile_fault(model):
                    profile_text(model)
            except ModelError:
                pass
            except Exception as error:
                wrong = f"{error!r} at {one!r}"
        tried += len(texts)
        trial.need(f"{name}: {len(texts)} texts that are cut or changed", not wrong, wrong)


def random_lp(draw: random.Random) -> str:
    """A small model in the CPLEX LP format with decimals and both directions. It has no ranges, which glpsol doesn't read in this format."""
    names = [f"x{at}" for at in range(draw.randint(2, 5))]

    def total() -> str:
        return " + ".join(f"{draw.randint(-40, 40) / 10} {name}" for name in names).replace("+ -", "- ")

    rows = [f" r{at}: {total()} {draw.choice(['<=', '>='])} {draw.randint(-10, 20)}" for at in range(draw.randint(1, 4))]
    bounds = [f" {draw.randint(-5, 0)} <= {name} <= {draw.randint(0, 6)}" for name in names]
    head = draw.choice(["Minimize", "Maximize"])
    return "\n".join([head, f" o: {total()}", "Subject To", *rows, "Bounds", *bounds, "Generals", " " + " ".join(names), "End", ""])


def glpsol_answer(trial: Trial, *words: str):
    """The optimum that glpsol tells, or none where it finds no point."""
    trial.run("glpsol", *words, "-w", "glpsol.out")
    with open(trial.path("glpsol.out"), encoding="ascii") as lines:
        last = next(line for line in lines if line.startswith("s mip "))
    words = last.split()
    return float(words[5]) if words[4] == "o" else None


def parts(model):
    """What a model says, but for its direction, by names."""
    names = [column.name for column in model.columns]

    def by_names(terms):
        return {names[place]: value for place, value in terms.items()}

    rows = {row.name: (row.low, row.high, by_names(row.terms)) for row in model.rows}
    return by_names(model.objective), rows, {column.name: column for column in model.columns}


def against_glpsol(trial: Trial) -> None:
    """Random models: bnc on the converted text, and glpsol on the text itself."""
    if not shutil.which("glpsol"):
        trial.skip("random models against glpsol", "apt-get install glpk-utils")
        return
    draw, wrong, other, tried = random.Random(2026), "", "", 30
    for _ in range(tried):
        text = random_lp(draw)
        trial.write("random.lp", text)
        told = solved(trial, profile_text(read_lp(text)).text)
        wanted = glpsol_answer(trial, "--lp", "random.lp")
        found = None if told == "infeasible" else float(Fraction(told.split(" ")[1])) if told.startswith("optimal") else told
        if (found is None) != (wanted is None) or found is not None and abs(found - wanted) > 1e-6:
            wrong = f"{told} and glpsol {wanted} of {text}"
        for option in ("--wmps", "--wfreemps"):
            trial.run("glpsol", "--lp", "random.lp", "--check", option, "random.mps")
            with open(trial.path("random.mps"), encoding="ascii") as written:
                if parts(read_mps(written.read())) != parts(read_lp(text)):
                    other = f"{option} of {text}"
    trial.need(f"{tried} random models: as glpsol writes them in MPS, fixed and free", not other, other)
    trial.need(f"{tried} random models: the answers of glpsol", not wrong, wrong)


def cases(trial: Trial) -> None:
    formats(trial)
    examples(trial)
    refusals(trial)
    broken(trial)
    against_glpsol(trial)


if __name__ == "__main__":
    main(cases)
