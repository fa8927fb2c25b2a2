"""Reads the cases of `crates/model_cases`: whole runs of the program with their answers. How they are written stands at the head of
`sections.cases`."""
import glob
import os
import re
from dataclasses import dataclass, field
from typing import Optional

TOP = os.path.dirname(os.path.dirname(os.path.dirname(os.path.abspath(__file__))))
DATA = os.path.join(TOP, "crates", "model_cases", "data")
USUAL = "solve model journal certificate"
ESCAPE = re.compile(r"\\(?:x([0-9a-f]{2})|([0-9]+)\{([^}]*)\}|([trn\\])|\n)")
LETTERS = {"t": "\t", "r": "\r", "n": "\n", "\\": "\\"}


@dataclass
class Case:
    """A run: its title, its words, its model, and what it has to answer."""

    title: str
    words: list[str] = field(default_factory=lambda: USUAL.split(" "))
    model: Optional[bytes] = None
    changes: list[tuple[str, int, bytes]] = field(default_factory=list)
    status: int = 0
    lines: list[str] = field(default_factory=list)
    certificate: Optional[bytes] = None

    def upper(self) -> Optional[int]:
        """The number of `--upper`, where the words have it."""
        for at, word in enumerate(self.words):
            if word == "--upper" and at + 1 < len(self.words):
                return int(self.words[at + 1])
            if word.startswith("--upper="):
                return int(word[8:])
        return None


def copies(text: str, count: int) -> str:
    return "".join(text.replace("#", str(number)) for number in range(count))


def one_escape(found) -> str:
    if found[1]:
        return chr(int(found[1], 16))
    if found[2]:
        return copies(found[3], int(found[2]))
    return LETTERS[found[4]] if found[4] else ""


def lines_of(form: str, body: str) -> bytes:
    """The bytes of a block in a form."""
    text = body + "\n" if body or form else ""
    if form == "escaped":
        text = ESCAPE.sub(one_escape, text)
    elif form.startswith("repeated "):
        text = copies(text, int(form.split(" ")[1]))
    return text.encode("latin-1")


def take(case: Case, head: str, body: str):
    """One block of a case."""
    word, _, rest = head.partition(" ")
    if word == "words":
        case.words = ["" if part == '""' else part for part in rest.split(" ")] if rest else []
    elif word == "model":
        case.model = lines_of(rest, body)
    elif word == "file":
        with open(os.path.join(DATA, rest), "rb") as file:
            case.model = file.read()
    elif word in ("line", "after"):
        number, _, form = rest.partition(" ")
        case.changes.append((word, int(number), lines_of(form, body)))
    elif word == "status":
        case.status, case.lines = int(rest), body.split("\n") if body else []
    elif word == "certificate":
        case.certificate = lines_of("", body)


def changed(base: str, changes) -> bytes:
    """The base text with its changes."""
    at = {}
    for word, number, text in changes:
        at[word, number] = at.get((word, number), b"") + text
    made = [at.get(("after", 0), b"")]
    for number, line in enumerate(base.split("\n"), start=1):
        made.append(at.get(("line", number), (line + "\n").encode("latin-1")))
        made.append(at.get(("after", number), b""))
    return b"".join(made)


def file_cases(path: str) -> list[Case]:
    """The cases of a file."""
    with open(path, encoding="latin-1") as file:
        head, *texts = file.read().split("\n=== ")
    base = head.partition("\n--- base\n")[2].rstrip("\n")
    cases = []
    for text in texts:
        title, *blocks = text.split("\n--- ")
        case = Case(title.strip())
        for block in blocks:
            first, _, body = block.partition("\n")
            take(case, first, body.rstrip("\n"))
        if case.model is None:
            case.model = changed(base, case.changes)
        cases.append(case)
    return cases


def all_cases() -> list[Case]:
    return [case for path in sorted(glob.glob(os.path.join(DATA, "*.cases"))) for case in file_cases(path)]
