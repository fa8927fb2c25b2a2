"""Faults that end a tool: one line on standard error, and an exit status. No tool shows a trace of Python."""
import os
import signal
import sys

WRONG = 1  # the certificate doesn't hold, or is a part of one
USAGE = 2  # the words are no call of the tool
MODEL = 3  # the model is refused
JOURNAL = 4  # the journal is refused
UNREAD = 5  # a file can't be read
UNWRITTEN = 7  # standard output can't be written
NO_MEMORY = 9  # memory ran out
INTERRUPTED = 130  # ended by Ctrl-C

MEANINGS = {
    0: "done",
    WRONG: "the certificate doesn't hold, or is a part of one",
    USAGE: "the words are no call of this tool",
    MODEL: "the model is refused",
    JOURNAL: "the journal is refused",
    UNREAD: "a file can't be read",
    UNWRITTEN: "standard output can't be written",
    NO_MEMORY: "memory ran out",
}


def statuses(*left_out: int) -> str:
    """What a tool's exit status means, for its summary."""
    return "exit status:\n" + "\n".join(f"  {status}  {meaning}" for status, meaning in MEANINGS.items() if status not in left_out)


class Fault(Exception):
    """What ends a tool: the exit status, the place, and what is wrong there. A place is a path, a line of a file, or nothing."""

    def __init__(self, status: int, place: str, what: str):
        super().__init__(f"{place}: {what}" if place else what)
        self.status, self.place, self.what = status, place, what


def readable(path: str):
    """The file at a path, opened for reading bytes. `Fault`: it can't be opened."""
    try:
        file = open(path, "rb")
        if os.path.isdir(path):
            file.close()
            raise IsADirectoryError(21, "is a directory")
        return file
    except (OSError, ValueError) as error:
        raise unreadable(path, error) from None


def unreadable(path: str, error: Exception) -> Fault:
    """The fault of a file that the system doesn't let us read."""
    reason = getattr(error, "strerror", None) or str(error)
    return Fault(UNREAD, path, f"can't be read: {reason[:1].lower()}{reason[1:]}")


def whole(path: str) -> bytes:
    """The bytes of the file at a path. `Fault`: it can't be read."""
    with readable(path) as file:
        try:
            return file.read()
        except OSError as error:
            raise unreadable(path, error) from None


def place(path: str, line: int) -> str:
    """The place of a line in a file. Lines are counted from 1."""
    return f"{path}:{line}"


def counted(number: int, word: str) -> str:
    """A number of things, in words."""
    return f"{number:,} {word}{'' if number == 1 else 's'}"


def printable(word, most: int = 60) -> str:
    """A word of a file as a message shows it: visible ASCII, and not too long."""
    content = word if isinstance(word, bytes) else word.encode("utf-8", "surrogateescape")
    text = "".join(chr(byte) if 32 <= byte < 127 else f"\\x{byte:02x}" for byte in content[:most + 1])
    return text if len(text) <= most else text[:most] + ".."


def run(tool: str, action, words) -> int:
    """Calls a tool's action with its words, and gives its exit status. A fault is told in one line on standard error."""
    if hasattr(signal, "SIGPIPE"):
        signal.signal(signal.SIGPIPE, signal.SIG_DFL)  # a reader that went away ends the tool quietly, as it does any other
    if sys.stdout is None:
        return told(tool, "standard output is closed", UNWRITTEN)
    if hasattr(sys.stdout, "reconfigure"):
        sys.stdout.reconfigure(errors="backslashreplace")  # a name may have bytes that no text has
    try:
        status = action(words)
        sys.stdout.flush()
        return status or 0
    except Fault as fault:
        return told(tool, str(fault), fault.status)
    except MemoryError:
        return told(tool, "no memory", NO_MEMORY)
    except KeyboardInterrupt:
        return told(tool, "interrupted", INTERRUPTED)
    except OSError as error:
        return told(tool, f"standard output can't be written: {error.strerror}", UNWRITTEN)
    finally:
        signal.signal(signal.SIGINT, signal.SIG_IGN)  # all is said: Ctrl-C must not meet the interpreter on its way out


def told(tool: str, what: str, status: int) -> int:
    """Tells a fault in one line, and gives the exit status."""
    try:
        sys.stderr.write(f"{tool}: {what}".replace("\n", "\\n") + "\n")
    except (OSError, ValueError, AttributeError):
        pass
    if sys.stdout is not None:
        silence()
    return status


def silence():
    """Keeps Python from telling of what it can't flush at its end."""
    try:
        sys.stdout.flush()
    except (OSError, ValueError):
        os.dup2(os.open(os.devnull, os.O_WRONLY), sys.stdout.fileno())
