"""What the tests of the tools share: calls of a tool, inside this program and outside of it, and a tally of cases."""
import contextlib
import io
import os
import subprocess
import sys
import tempfile
import time

TOP = os.path.dirname(os.path.dirname(os.path.dirname(os.path.abspath(__file__))))
TOOLS = os.path.join(TOP, "tools")
EXAMPLES = os.path.join(TOP, "examples")
sys.dont_write_bytecode = True
sys.path.append(TOOLS)

from bnc_tools import check_tool, report_tool, solution_tool

MAINS = {"bnc-check": check_tool.main, "bnc-solution": solution_tool.main, "bnc-report": report_tool.main}


class Broken(Exception):
    """What a case found wrong."""


def need(holds, what):
    if not holds:
        raise Broken(what)


class Skipped(Exception):
    """Why a case is left out."""


class Done:
    """What a call of a tool gave: its exit status, its output, and its lines on standard error."""

    def __init__(self, status, out, error):
        self.status, self.out, self.error = status, out, error

    def need_refused(self, status, *words):
        """A refusal: this status, no output, and one line on standard error with these words."""
        need(self.status == status, f"the status is {self.status}, not {status}: {self.error.strip()}")
        need(self.out == "", f"there is output: {self.out[:80]}")
        need(self.error.endswith("\n") and self.error.count("\n") == 1 and "Traceback" not in self.error, f"not one line: {self.error!r}")
        for word in words:
            need(word in self.error, f"{word!r} is missing in {self.error!r}")


def inside(tool, *words):
    """Calls a tool in this program."""
    out, error = io.TextIOWrapper(io.BytesIO(), encoding="utf-8"), io.StringIO()
    kept = sys.stdout, sys.stderr
    sys.stdout, sys.stderr = out, error
    try:
        status = MAINS[tool](list(words))
    except SystemExit as end:
        status = end.code
    finally:
        sys.stdout, sys.stderr = kept
    out.flush()
    return Done(status, out.buffer.getvalue().decode("utf-8"), error.getvalue())


def outside(tool, *words, **how):
    """Calls a tool as a program of its own."""
    done = subprocess.run([os.path.join(TOOLS, tool), *words], stdin=subprocess.DEVNULL, capture_output=True, text=True, timeout=300, **how)
    return Done(done.returncode, done.stdout, done.stderr)


class Tests:
    """Cases, each a function of this object. They are run in order, and print a line each."""

    def __init__(self, program):
        self.program = os.path.abspath(program)
        self.folder = tempfile.TemporaryDirectory(prefix="bnc-people-")
        self.failed = 0
        self.held = contextlib.ExitStack()  # what ends with the tests

    def path(self, name, content=None):
        """The path of a file of this run; with its content, where that is given."""
        path = os.path.join(self.folder.name, name)
        if content is not None:
            with open(path, "wb") as file:
                file.write(content if isinstance(content, bytes) else content.encode("latin-1"))
        return path

    def solve(self, name, model, *options):
        """Solves a model, a text, by the program. The paths of model, journal and certificate, and the lines of the answer."""
        paths = [self.path(name + end) for end in (".mps", ".journal", ".cert")]
        self.path(name + ".mps", model)
        for path in paths[1:]:
            if os.path.exists(path):
                os.remove(path)
        done = subprocess.run([self.program, "solve", *paths, *options], stdin=subprocess.DEVNULL, capture_output=True, text=True, timeout=300)
        need(done.returncode == 0, f"bnc ends with {done.returncode}: {done.stdout}")
        return (*paths, done.stdout.split("\n")[:-1])

    def run(self, cases):
        """Runs cases. The exit status: 1 where any failed."""
        for case in cases:
            start = time.monotonic()
            try:
                told = case(self)
                word = "ok"
            except Skipped as skipped:
                told, word = str(skipped), "skipped"
            except Exception as error:  # the other cases go on
                told, word = str(error) if isinstance(error, Broken) else repr(error), "FAILED"
                self.failed += 1
            print(f"{word}: {case.__doc__.strip()}{': ' + told if told else ''} ({time.monotonic() - start:.1f} s)", flush=True)
        self.held.close()
        self.folder.cleanup()
        return 1 if self.failed else 0


def example(name):
    """The text of a model of examples/."""
    with open(os.path.join(EXAMPLES, name + ".mps"), "rb") as file:
        return file.read()


def main(cases):
    """The whole program: the path of `bnc` is its one word."""
    if len(sys.argv) != 2 or not os.access(sys.argv[1], os.X_OK):
        sys.exit(f"usage: {os.path.basename(sys.argv[0])} PROGRAM, where PROGRAM is the built bnc")
    sys.exit(Tests(sys.argv[1]).run(cases))
