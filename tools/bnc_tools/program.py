"""Finds the program `bnc`."""
from __future__ import annotations

import os
import shutil
import sys

from .faults import Fault

NO_PROGRAM = 127


def find_program(told: str | None = None) -> str:
    """The path of the program: the one that is told, else the one beside the tool, else the one on the PATH. `Fault`: there is none."""
    if told:
        found = shutil.which(told)
        if not found:
            raise Fault(NO_PROGRAM, told, "is no program that can be called")
        return found
    beside = os.path.join(os.path.dirname(os.path.realpath(sys.argv[0])), "bnc")
    found = shutil.which(beside) or shutil.which("bnc")
    if not found:
        raise Fault(NO_PROGRAM, "", "bnc is not on the PATH: install it, or tell its path by --bnc")
    return found
