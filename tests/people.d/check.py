#!/usr/bin/env python3
"""Tests bnc-check: that it takes what is right and refuses what is wrong, with the place and the reason. The one word is the path of the program bnc.

  tests/people.d/check.py PROGRAM
"""
import io
import os
import pty
import random
import resource
import select
import subprocess
import time

import cases
import changes
import models
import reference
import written
from people import EXAMPLES, TOOLS, Broken, example, inside, main, need, outside
from bnc_tools.certificate import Text, Wrong
from bnc_tools.check import check
from bnc_tools.model import Refusal, model_of

CHANGES = 1000
LONGEST = 20_000  # bytes of a certificate that is changed
LIMITS = ("TooMany",)  # what the program refuses and its checker doesn't


def model_refusals(tests):
    """the reader of models refuses what the program refuses, by line and kind"""
    count = 0
    for case in cases.all_cases():
        if case.status == 2 or case.lines[:1] and case.lines[0].endswith(LIMITS):
            continue
        try:
            model_of(case.model, case.upper())
            found = None
        except Refusal as refusal:
            found = f"refused model {refusal.line} {refusal.kind}"
        need(found == (case.lines[0] if case.status == 3 else None), f"{case.title}: {found}, and the program says {case.lines}")
        count += 1
    return f"{count} cases"


def certified(tests):
    """Every model with its certificate: those that the cases spell, and what the program makes of the other cases, the examples and the drills."""
    known = cases.all_cases()
    found = [(case.model, case.upper(), case.certificate, case.lines[0]) for case in known if case.certificate]
    more = [(case.model, case.upper(), case.words[4:]) for case in known if is_plain(case)][::step(tests)]
    more += [(example(name[:-4]), None, []) for name in sorted(os.listdir(EXAMPLES)) if name.endswith(".mps")]
    more += [(models.drill(seed).encode(), None, ["--cuts", "20"]) for seed in (1, 2, 3)]
    for model, upper, words in more:
        *_, path, lines = tests.solve("made", model, *words)
        with open(path, "rb") as file:
            found.append((model, upper, file.read(), lines[0]))
    return found


def step(tests):
    """Every how manieth of the other cases is solved: each one, but of a program that was built with checks only some, since it is slow."""
    start = time.monotonic()
    tests.solve("made", example("one"))
    return 1 if time.monotonic() - start < 0.15 else 7


def is_plain(case):
    """Whether a case is solved, has no certificate, and has its options behind the paths."""
    return case.status == 0 and not case.certificate and case.words[0] == "solve" and not any(word.startswith("-") for word in case.words[1:4])


def agreement(tests):
    """it agrees with the second checker on certificates of cases, examples and drills, with --strict and without"""
    known = certified(tests)
    for text, upper, certificate, line in known:
        model, claim = model_of(text, upper), reference.check(certificate, reference.read_model(text, upper))
        for strict in (False, True):
            found = check(Text(io.BytesIO(certificate), "certificate", strict), model).claim.told()
            need(found == claim == line, f"it says {found}, the second checker {claim}, the program {line}")
    problems = [changes.Problem(certificate, model_of(text, upper), reference.read_model(text, upper)) for text, upper, certificate, _ in known]
    tests.problems = [problem for problem in problems if len(problem.text) < LONGEST]
    return f"{len(known)} certificates"


# ---- changed certificates

def reason_why(problem, change, claim, answer):
    """Why a changed certificate still holds; the second checker, or the points of the box, have to say so too."""
    low, high = (None, None) if answer == "infeasible" else (changes.Fraction(answer.split(" ")[1]),) * 2
    if claim.infeasible:
        need(answer == "infeasible", f"it claims infeasibility, and the answer is {answer}")
    else:
        need((claim.low is None or claim.low <= low) and (claim.high is None or claim.high >= high), f"it claims {claim.told()}, and the answer is {answer}")
    values = problem.values
    need(values is None or changes.is_true(claim, values, problem.model.maximise), f"it claims {claim.told()}, which isn't so")
    if change.place == "a derived line's last number":
        return "the last number of a line is no part of validity"
    if change.place == "CON, the count of bounds":
        return "how many rows are bounds is no part of validity"
    if change.place == "RTP, an end of the range":
        return "the range got wider: less is claimed, which is true by all points"
    by_other = problem.reference(change.text) is not None
    if by_other and "right side" in change.place:
        return "a line claims less than it could, and it is enough (so says the second checker)"
    if by_other:
        return "a sum still dominates its line (so says the second checker)"
    need(values is not None and "right side" in change.place, f"{change.place}: {change.old} became {change.new}, and the second checker refuses it")
    return "a line asks nothing of any point, and it is enough (by all points)"


def changed_numbers(tests):
    """1,000 certificates with one changed number each are refused, but those that still hold"""
    draw, counts, refused = random.Random(38), {}, 0
    for _ in range(CHANGES):
        problem = draw.choice(tests.problems)
        change = changes.changed(draw, problem.text)
        claim = problem.check(change.text)
        if claim is None:
            refused += 1
            need(problem.check(change.text, strict=True) is None, f"only --strict accepts: {change.place}, {change.old} became {change.new}")
            continue
        reason = reason_why(problem, change, claim, problem.answer)
        counts[reason] = counts.get(reason, 0) + 1
    for reason, count in sorted(counts.items(), key=lambda item: -item[1]):
        print(f"    {count} hold: {reason}")
    return f"{refused} refused, {CHANGES - refused} hold"


# ---- other writers

def other_writers(tests):
    """certificates of other writers are taken as VIPR 1.0 allows, and --strict refuses what bnc doesn't write"""
    for title, model, certificate, claim in written.TAKEN:
        paths = tests.path("w.mps", model), tests.path("w.cert", certificate)
        done = inside("bnc-check", *paths)
        need((done.status, done.out) == (0, claim + "\n"), f"{title}: {done.status} {done.out}{done.error}")
        done = inside("bnc-check", *paths, "--strict")
        need((done.status == 1) == (title in written.LOOSE), f"{title} with --strict: {done.status} {done.out}{done.error}")
    return f"{len(written.TAKEN)} certificates"


def other_faults(tests):
    """what VIPR 1.0 doesn't allow is refused with its place and reason"""
    for title, model, certificate, word in written.REFUSED:
        done = inside("bnc-check", tests.path("w.mps", model), tests.path("w.cert", certificate))
        try:
            done.need_refused(1, "w.cert", word)
        except Broken as broken:
            raise Broken(f"{title}: {broken}") from None
        need(inside("bnc-check", tests.path("w.mps"), tests.path("w.cert"), "--strict").status == 1, f"{title}: --strict takes it")
    return f"{len(written.REFUSED)} certificates"


# ---- bad input

def files(tests):
    """a file that isn't there, a folder, a file of another kind, wrong words"""
    model, certificate = tests.path("k.mps", example("one")), tests.path("k.cert", cases_one())
    inside("bnc-check", tests.path("none"), certificate).need_refused(5, "none: can't be read: no such file")
    inside("bnc-check", model, tests.path("none")).need_refused(5, "none: can't be read: no such file")
    inside("bnc-check", model, tests.folder.name).need_refused(5, "can't be read: is a directory")
    inside("bnc-check", tests.folder.name, certificate).need_refused(5, "can't be read: is a directory")
    inside("bnc-check", model, model).need_refused(1, "k.mps:1: ", "stands where VER should")
    inside("bnc-check", certificate, certificate).need_refused(3, "k.cert:1: the model is refused: BadSection (VER)")
    inside("bnc-check", model, tests.path("bytes", bytes(range(256)) * 8)).need_refused(1, "bytes:")
    inside("bnc-check", tests.path("bytes"), certificate).need_refused(3, "the model is refused")
    inside("bnc-check", model, tests.path("nothing", b"")).need_refused(1, "a part of a certificate: it ends where VER should stand")
    inside("bnc-check", model, tests.path("utf", "VER 1.0\nVAR 1\n\xe9\xff\nINT".encode("latin-1"))).need_refused(1, "utf:4")
    for words in ([], [model], [model, certificate, "x"], [model, certificate, "--upper", "-1"], [model, certificate, "--what"]):
        inside("bnc-check", *words).need_refused(2, "bnc-check --help")
    need("exit status" in inside("bnc-check", "--help").out, "--help says nothing of the exit status")


def cases_one():
    """The certificate of examples/one.mps."""
    return (b"VER 1.0\nVAR 1\nx\nINT 1\n0\nOBJ min\n1 0 3\nCON 3 2\nR0 G 1 1 0 1\nL0 G 2 1 0 1\nU0 L 2 1 0 1\nRTP range 6 6\nSOL 1\nS0 1 0 2\n"
            b"DER 1\nN0 G 6 1 0 3 { lin 1 1 3 } -1\n")


def cut_anywhere(tests):
    """a certificate that is cut at each byte is a part of one, or is refused; with --strict always"""
    whole, parts = cases_one(), 0
    model = tests.path("k.mps", example("one"))
    for length in range(len(whole)):
        done = inside("bnc-check", model, tests.path("cut", whole[:length]))
        if length == len(whole) - 1:
            need(done.status == 0, "without its last line feed it is refused")
        else:
            done.need_refused(1, "cut:")
            parts += "a part of a certificate" in done.error
        inside("bnc-check", model, tests.path("cut"), "--strict").need_refused(1, "cut:")
    need(inside("bnc-check", model, tests.path("cut", whole), "--strict").out == "optimal 6\n", "whole it is refused")
    return f"{len(whole)} cuts, {parts} are told to be parts"


def random_bytes(tests):
    """changed bytes, lost bytes and doubled bytes never end in a trace of Python"""
    draw, ends = random.Random(5), {}
    for _ in range(1500):
        problem = draw.choice(tests.problems[:150])
        text = bytearray(problem.text)
        for _ in range(draw.randint(1, 3)):
            at = draw.randrange(len(text))
            text[at:at + draw.randint(0, 2)] = bytes(draw.choice(b"0123456789 \n-/{}%GLE\xff\x00") for _ in range(draw.randint(0, 2)))
        try:
            check(Text(io.BytesIO(bytes(text)), "changed", draw.random() < 0.3), problem.model)
            end = "accepted"
        except Wrong:
            end = "refused"
        ends[end] = ends.get(end, 0) + 1
    return ", ".join(f"{count} {end}" for end, count in sorted(ends.items()))


def another_model(tests):
    """another model's certificate is refused by its first difference"""
    model, certificate = tests.path("k.mps", example("knapsack")), tests.path("k.cert", cases_one())
    inside("bnc-check", model, certificate).need_refused(1, "k.cert:2: the certificate has 1 column, and the model 5")
    other = example("one").replace(b" x obj 3 r 1", b" x obj 4 r 1")
    inside("bnc-check", tests.path("o.mps", other), certificate).need_refused(1, "k.cert:6: the objective")
    other = example("one").replace(b"FX b x 2", b"UP b x 2")
    inside("bnc-check", tests.path("o.mps", other), certificate).need_refused(1, "L0 is no row and no bound of the model")
    open_model = tests.path("u.mps", example("one").replace(b" FX b x 2\n", b""))
    inside("bnc-check", open_model, certificate).need_refused(3, "NoBound (x): give --upper")
    inside("bnc-check", open_model, certificate, "--upper", "7").need_refused(1, "L0 is no row and no bound of the model")


# ---- many lines

def many_lines(tests):
    """a certificate of many lines takes little memory, from a file and from a pipe, and tells how far it is on a terminal"""
    text = models.equation_certificate(13, 11)
    model, certificate = tests.path("e.mps", models.equation(13, 11)), tests.path("e.cert", text)
    before = resource.getrusage(resource.RUSAGE_CHILDREN).ru_maxrss
    done = outside("bnc-check", model, certificate)
    need((done.status, done.out) == (0, "infeasible\n"), f"{done.status} {done.out} {done.error}")
    peak = resource.getrusage(resource.RUSAGE_CHILDREN).ru_maxrss
    need(peak == before or peak < 100_000, f"its peak memory is {peak} kB")
    with open(certificate, "rb") as file:
        piped = subprocess.run(["sh", "-c", 'cat | "$0" "$1" /dev/stdin', os.path.join(TOOLS, "bnc-check"), model], stdin=file, capture_output=True, timeout=300)
    need((piped.returncode, piped.stdout) == (0, b"infeasible\n"), f"from a pipe: {piped.returncode} {piped.stderr}")
    shown = on_terminal([os.path.join(TOOLS, "bnc-check"), model, certificate])
    need(b"bnc-check: " in shown and b"lines" in shown, f"a terminal shows {shown[:80]}")
    need("\r" not in done.error, "it tells how far it is where there is no terminal")
    return f"{text.count(chr(10)):,} lines"


def on_terminal(words):
    """What a program writes to standard error where that is a terminal."""
    ours, theirs = pty.openpty()
    process = subprocess.Popen(words, stdin=subprocess.DEVNULL, stdout=subprocess.DEVNULL, stderr=theirs)
    os.close(theirs)
    shown = b""
    while True:
        if select.select([ours], [], [], 0.1)[0]:
            try:
                piece = os.read(ours, 4096)
            except OSError:
                break
            shown += piece
            if not piece:
                break
    process.wait()
    os.close(ours)
    return shown


def closed_output(tests):
    """a reader that goes away ends it quietly; a full disk is told"""
    model, certificate = tests.path("k.mps", example("one")), tests.path("k.cert", cases_one())
    done = subprocess.run(["sh", "-c", '"$0" "$1" "$2" | true', os.path.join(TOOLS, "bnc-check"), model, certificate], capture_output=True, timeout=300)
    need(done.stderr == b"", f"it writes {done.stderr}")
    if os.path.exists("/dev/full"):
        with open("/dev/full", "w") as full:
            done = subprocess.run([os.path.join(TOOLS, "bnc-check"), model, certificate], stdout=full, stderr=subprocess.PIPE, text=True, timeout=300)
        need(done.returncode == 7 and done.stderr.count("\n") == 1, f"on a full disk: {done.returncode} {done.stderr}")


CASES = [model_refusals, agreement, changed_numbers, other_writers, other_faults, files, cut_anywhere, random_bytes, another_model, many_lines,
         closed_output]

if __name__ == "__main__":
    main(CASES)
