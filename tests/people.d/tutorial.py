#!/usr/bin/env python3
"""Goes through docs/TUTORIAL.md as its text says, and compares what is printed; and solves the examples that examples/README.md lists."""
import importlib.util
import os
import re
import shutil
import subprocess
import sys
from dataclasses import dataclass

from trial import TOP, Trial, main

TUTORIAL = os.path.join(TOP, "docs", "TUTORIAL.md")
EXAMPLES = os.path.join(TOP, "examples")
PREFIX = "/usr/local"


@dataclass
class Step:
    """A command of the page, and what it has to print."""

    command: str
    printed: str


def read(path: str) -> str:
    with open(path, encoding="utf-8") as text:
        return text.read()


def steps_of(text: str) -> list[Step]:
    """The commands of the page's blocks, in their order."""
    made = []
    for block in re.findall(r"^```console\n(.*?)^```", text, re.S | re.M):
        for line in block.split("\n")[:-1]:
            if line.startswith("$ "):
                made.append(Step(line[2:], ""))
            else:
                made[-1].printed += line + "\n"
    return made


def settled(text: str) -> str:
    """What is printed, without the numbers that depend on the way of a search."""
    lines = re.sub(r"^(events|nodes|cuts|open|best) \S+$", r"\1 ..", text, flags=re.M)
    return re.sub(r"(OtherModel|cert:)[ ]?[0-9]+", r"\1 ..", lines)


def without_comments(text: str) -> str:
    return "".join(line + "\n" for line in text.rstrip("\n").split("\n") if not line.startswith("\\"))


def has_pulp(python: str) -> bool:
    return os.path.exists(python) and not subprocess.run([python, "-c", "import pulp"], capture_output=True, check=False).returncode


def python_with_pulp() -> str:
    """A Python that has PuLP; an empty text where there is none."""
    if importlib.util.find_spec("pulp"):
        return sys.executable
    return "/usr/bin/python3" if has_pulp("/usr/bin/python3") else ""


def tutorial(trial: Trial, root: str) -> None:
    """Each command of the page, in one folder, with what make install puts below the root."""
    text = read(TUTORIAL)
    model = re.search(r"^```lp\n(.*?)^```", text, re.S | re.M)[1]
    trial.equal("the model of the page is that of the examples", model, without_comments(read(os.path.join(EXAMPLES, "rota.lp"))))
    trial.write("rota.lp", model)
    shutil.copy(os.path.join(EXAMPLES, "rota.py"), trial.folder)
    python = python_with_pulp()
    for step in steps_of(text):
        if not python and "python" in step.command:
            trial.skip(f"$ {step.command}", "apt-get install python3-pulp")
            continue
        command = step.command.replace(PREFIX, root).replace("/usr/bin/python3", python)
        ran = trial.run("bash", "-c", command + " 2>&1" if ">" not in command else command)
        trial.equal(f"$ {step.command}", settled(ran.out + ran.err), settled(step.printed))
    trial.need("the report is a page", "</html>" in read(trial.path("rota.html")))


def pictures(trial: Trial) -> None:
    """Each picture that the page shows is there, and small."""
    for name in re.findall(r"\]\((images/[^)]*)\)", read(TUTORIAL)):
        path = os.path.join(TOP, "docs", name)
        there = os.path.exists(path)
        trial.need(f"{name} is there, and has less than 200 KB", there and os.path.getsize(path) < 200_000, "" if there else "it isn't there")


def examples(trial: Trial) -> None:
    """The answers of the table of examples/README.md."""
    for name, answer in re.findall(r"^\| `([^`]+)` \|.*\| `([^`]+)` \|$", read(os.path.join(EXAMPLES, "README.md")), re.M):
        if name.endswith(".py"):
            python_example(trial, name, answer)
            continue
        path, model = os.path.join(EXAMPLES, name), trial.path(f"{name}.mps")
        made = trial.run("bnc-convert", path, "--output", model) if not name.endswith(".mps") else None
        shutil.copy(path, model) if made is None else trial.need(f"{name} is converted", made.status == 0, made.err)
        found = trial.run("bnc", "solve", model, f"{name}.journal", f"{name}.cert").out.split("\n")[0]
        trial.equal(f"{name}: its answer", found, answer)
        trial.equal(f"{name}: its certificate", trial.run("bnc-check", model, f"{name}.cert").out, answer + "\n")


def python_example(trial: Trial, name: str, answer: str) -> None:
    """An example in Python, which has to tell its answer on the first line."""
    python = python_with_pulp()
    if not python:
        trial.skip(f"{name}", "apt-get install python3-pulp")
        return
    ran = trial.run(python, os.path.join(EXAMPLES, name))
    told = answer.replace("optimal ", "Optimal ")
    trial.need(f"{name}: its answer", ran.out.split("\n")[0].startswith(told), ran.out + ran.err)


def cases(trial: Trial) -> None:
    root = trial.path("root")
    words = ["make", "--no-print-directory", "-s", "-C", TOP, "install-files", f"built={trial.program}", "proved=no", f"PREFIX={root}"]
    ran = trial.run(*words)
    trial.need("make install", ran.status == 0, ran.err)
    trial.environment = {"PATH": f"{root}/bin:{os.environ['PATH']}", "PYTHONPATH": f"{root}/share/bnc"}
    tutorial(trial, root)
    pictures(trial)
    examples(trial)


if __name__ == "__main__":
    main(cases)
