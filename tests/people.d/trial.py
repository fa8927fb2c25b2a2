"""What the parts of tests/people share: cases that tell in a line whether they passed, in a folder of their own."""
from __future__ import annotations

import os
import subprocess
import sys
import tempfile
from dataclasses import dataclass, field

from people import TOOLS, TOP

__all__ = ["TOOLS", "TOP", "Ran", "Trial", "main"]


@dataclass
class Ran:
    """What a command came to."""

    status: int
    out: str
    err: str


@dataclass
class Trial:
    """Cases, and how many of them failed."""

    program: str
    folder: str
    failed: int = 0
    environment: dict[str, str] = field(default_factory=dict)

    def need(self, name: str, holds: bool, why: str = "") -> None:
        """Tells whether a case passed."""
        if holds:
            print(f"ok: {name}", flush=True)
        else:
            self.failed += 1
            print(f"FAILED: {name}: {why}".replace("\n", " | "), flush=True)

    def equal(self, name: str, found, wanted) -> None:
        self.need(name, found == wanted, f"{found!r} and not {wanted!r}")

    def skip(self, name: str, how: str) -> None:
        print(f"skipped: {name}: {how}", flush=True)

    def path(self, name: str) -> str:
        return os.path.join(self.folder, name)

    def write(self, name: str, text: str | bytes) -> str:
        """Writes a file into the folder of the cases, and gives its path."""
        path = self.path(name)
        with open(path, "wb") as out:
            out.write(text.encode() if isinstance(text, str) else text)
        return path

    def run(self, *words: str, **how) -> Ran:
        """Runs a command in the folder of the cases. One that takes more than four minutes has the status 124."""
        how = {"cwd": self.folder, "stdin": subprocess.DEVNULL, "env": {**os.environ, **self.environment}, **how}
        try:
            ran = subprocess.run(words, capture_output=True, timeout=240, check=False, **how)
        except subprocess.TimeoutExpired:
            return Ran(124, "", "it takes more than four minutes")
        return Ran(ran.returncode, ran.stdout.decode(errors="replace"), ran.stderr.decode(errors="replace"))

    def start(self, *words: str) -> subprocess.Popen:
        """Starts a command that is ended by `terminate`, or by itself after four minutes, also where these cases are ended before."""
        return subprocess.Popen(["timeout", "240", *words], cwd=self.folder, stdin=subprocess.DEVNULL, stdout=subprocess.DEVNULL)

    def refuses(self, name: str, status: int, line: str, *words: str) -> None:
        """A command that has to end with this status and one line on standard error with these words in it, and no trace of Python."""
        ran = self.run(*words)
        good = ran.status == status and ran.err.count("\n") == 1 and line in ran.err and "Traceback" not in ran.err
        self.need(name, good, f"status {ran.status}, {ran.err!r}")


def main(cases) -> None:
    """Calls the cases with the program that the words name, in a folder that is removed."""
    if len(sys.argv) != 2:
        sys.exit(f"usage: {os.path.basename(sys.argv[0])} PROGRAM")
    with tempfile.TemporaryDirectory(prefix="bnc-people-") as folder:
        trial = Trial(os.path.realpath(sys.argv[1]), folder)
        cases(trial)
    sys.exit(1 if trial.failed else 0)
