"""The words of a tool's call."""
import argparse

from .faults import JOURNAL, USAGE, Fault, statuses


class Parser(argparse.ArgumentParser):
    """A parser that tells what is wrong with the words in one line."""

    def __init__(self, tool: str, about: str, more: str, reads_journal: bool = False):
        ends = statuses() if reads_journal else statuses(JOURNAL)
        super().__init__(tool, description=about, epilog=f"{more}\n\n{ends}", formatter_class=argparse.RawDescriptionHelpFormatter,
                         allow_abbrev=False)

    def error(self, message: str):
        raise Fault(USAGE, "", f"{message} (see {self.prog} --help)")


def upper_bound(word: str) -> int:
    """The number of `--upper`: the bound of columns that lack one."""
    if not word.isascii() or not word.isdigit() or len(word) > 10 or int(word) > 10 ** 9:
        raise argparse.ArgumentTypeError("a whole number from 0 to 1000000000 is wanted")
    return int(word)


def add_upper(parser: argparse.ArgumentParser):
    parser.add_argument("--upper", metavar="U", type=upper_bound, help="the number of the option --upper with which the model was solved")
