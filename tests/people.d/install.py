#!/usr/bin/env python3
"""Tries what make install does with the program under trial, in a folder of its own, and the tools as they are installed."""
import glob
import os
import re
import shutil
import sys

from trial import TOP, Trial, main

TOOLS = sorted(os.path.basename(path) for path in glob.glob(os.path.join(TOP, "tools", "bnc-*")))


def make(trial: Trial, *words: str):
    return trial.run("make", "--no-print-directory", "-s", "-C", TOP, *words)


def install(trial: Trial, proved: str) -> str:
    """Installs the program and the tools, and gives the root of what was installed."""
    root = trial.path(f"root-{proved}")
    ran = make(trial, "install-files", f"built={trial.program}", f"proved={proved}", f"DESTDIR={root}", "PREFIX=/usr")
    trial.need(f"make install, proved {proved}", ran.status == 0, ran.err)
    return os.path.join(root, "usr")


def files_below(root: str) -> list[str]:
    return [os.path.join(folder, name) for folder, _, names in os.walk(root) for name in names]


def is_there(trial: Trial, root: str) -> None:
    """Each tool, its manual page and its completion are installed, and each installed file is one that others may read."""
    for tool in ["bnc", *TOOLS]:
        wanted = [f"bin/{tool}", f"share/man/man1/{tool}.1", f"share/bash-completion/completions/{tool}"]
        missing = [name for name in wanted if not os.path.isfile(os.path.join(root, name))]
        trial.need(f"{tool}: program, page and completion", not missing, f"missing: {missing}")
    modes = {oct(os.stat(path).st_mode & 0o777) for path in files_below(root)}
    trial.need("modes of the files", modes <= {"0o755", "0o644"}, str(modes))


def marks(trial: Trial, proved: str, unproved: str) -> None:
    """What says whether the program is proved."""
    for root, word, marked in ((proved, "proved yes", False), (unproved, "proved no", True)):
        with open(os.path.join(root, "share/bnc/bnc-version"), encoding="ascii") as text:
            trial.need(f"bnc-version: {word}", word in text.read().split("\n"))
        with open(os.path.join(root, "share/man/man1/bnc.1"), encoding="ascii") as text:
            trial.equal(f"the manual page, {word}", "built without its proof" in text.read(), marked)


def tools_run(trial: Trial, root: str) -> None:
    """The installed tools work apart from the repository, and leave nothing beside themselves."""
    before = sorted(files_below(root))
    trial.environment = {"PATH": f"{root}/bin:{os.environ['PATH']}"}
    trial.write("m.lp", "Minimize\n 3 x + 2 y\nSubject To\n 2 x + y >= 3\nBounds\n x <= 4\n y <= 4\nGenerals\n x y\nEnd\n")
    with open(trial.path("m.mps"), "w", encoding="ascii") as out:
        out.write(trial.run("bnc-convert", "m.lp").out)
    trial.equal("bnc-convert and bnc", trial.run("bnc", "solve", "m.mps", "m.journal", "m.cert").out.split("\n")[0], "optimal 5")
    trial.equal("bnc-check", trial.run("bnc-check", "m.mps", "m.cert").out, "optimal 5\n")
    trial.need("bnc-watch", "finished: optimal 5" in trial.run("bnc-watch", "m.journal").out)
    trial.need("bnc-solution", "x 1\n" in trial.run("bnc-solution", "m.cert").out)
    if "bnc-report" in TOOLS:
        trial.need("bnc-report", "</html>" in trial.run("bnc-report", "m.mps", "m.cert").out)
    trial.environment["PYTHONPATH"] = f"{root}/share/bnc"
    found = trial.run(sys.executable, "-B", "-c", "import bnc_tools.profile; print(bnc_tools.profile.__file__)")
    trial.need("the package of the tools", found.out.startswith(root), found.out + found.err)
    trial.environment = {}
    trial.equal("nothing is written beside the tools", sorted(files_below(root)), before)


def removed(trial: Trial, root: str) -> None:
    ran = make(trial, "uninstall", f"DESTDIR={os.path.dirname(root)}", "PREFIX=/usr")
    trial.need("make uninstall leaves no file", ran.status == 0 and not files_below(root), f"{ran.err} {files_below(root)}")


def without_kit(trial: Trial) -> None:
    """On a machine without the kit, each of the two says what is missing."""
    programs = trial.path("programs")
    os.mkdir(programs)
    for name in ("make", "sh", "git", "echo", "mkdir", "mktemp", "cat", "rm"):
        os.symlink(shutil.which(name), os.path.join(programs, name))
    trial.environment = {"PATH": programs}
    for target in ("install", "install-unproved"):
        ran = make(trial, target, f"DESTDIR={trial.path('none')}")
        good = ran.status != 0 and "bnc is proved by the Rattle kit" in ran.err and not os.path.exists(trial.path("none"))
        trial.need(f"make {target} without the kit says so", good, ran.err)
    with_kit_alone(trial, programs)
    build = os.path.join(TOP, "tools", "build_unproved")
    os.remove(os.path.join(programs, "rt"))
    trial.refuses("build_unproved without the kit", 1, "rt is not on the PATH", sys.executable, build, trial.path("out"))
    trial.environment = {}
    trial.refuses("build_unproved without a path", 1, "usage: tools/build_unproved OUT", build)


def with_kit_alone(trial: Trial, programs: str) -> None:
    """With a kit, here one that proves nothing, and no proved program: how long the proof takes, and what else there is."""
    path = os.path.join(programs, "rt")
    with open(path, "w", encoding="ascii") as kit:
        kit.write("#!/bin/sh\necho not proved\nexit 1\n")
    os.chmod(path, 0o755)
    ran = make(trial, "install", "program=none", f"DESTDIR={trial.path('none')}")
    good = ran.status != 0 and "seconds of one processor" in ran.out and "make install-unproved" in ran.out and not os.path.exists(trial.path("none"))
    trial.need("make install without a proved program says how long the proof takes, and offers the other", good, ran.out + ran.err)


def options(text: str) -> set[str]:
    return set(re.findall(r"--[a-z]+", text))


def pages(trial: Trial) -> None:
    """Each page of a tool has the options of its help, and no fault of form."""
    for tool in TOOLS:
        path = os.path.join(TOP, "docs", f"{tool}.1")
        if not os.path.exists(path):
            trial.need(f"{tool}.1", False, "there is no such page")
            continue
        with open(path, encoding="ascii") as text:
            told = set("--" + name for name in re.findall(r"Fl -([a-z]+)", text.read()))
        help_text = trial.run(os.path.join(TOP, "tools", tool), "--help").out.split("exit status")[0]
        trial.equal(f"{tool}.1: the options of --help", sorted(told), sorted(options(help_text)))
    if not shutil.which("man"):
        trial.skip("the form of the pages", "apt-get install man-db")
        return
    for name in ["bnc", *TOOLS]:
        ran = trial.run("man", "--warnings", "-l", os.path.join(TOP, "docs", f"{name}.1"))
        trial.need(f"{name}.1: its form", ran.status == 0 and not ran.err, ran.err)


def cases(trial: Trial) -> None:
    proved, unproved = install(trial, "yes"), install(trial, "no")
    is_there(trial, proved)
    marks(trial, proved, unproved)
    tools_run(trial, proved)
    removed(trial, proved)
    removed(trial, unproved)
    without_kit(trial)
    pages(trial)


if __name__ == "__main__":
    main(cases)
