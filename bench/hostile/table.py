"""What bench/hostile.sh prints: the cost of the dearest texts of a model, section by section, beside that of a plain text.

  table.py FOLDER PROGRAM RUNS

`colliding` in FOLDER is the program of colliding.rs.
"""
import functools
import itertools
import os
import random
import shutil
import subprocess
import sys
import time

FOLDER, PROGRAM, RUNS = sys.argv[1], sys.argv[2], int(sys.argv[3])
LIMIT = 33_554_432  # the bytes that a model may have
COLUMNS = ROWS = 8000  # as many as a model may have
SHORTEST = 15  # the bytes of the shortest line of an entry of the plain text
FIELD = 255  # the bytes that a field may have
COLLIDING = 100_000  # names that collide
BITS = 14  # the last bits of the hash that they share: a table of so many names has 2^14 groups, and the last bits choose the first one

# The texts of names that are chosen to collide, and of others.
OTHERS, COLLIDE = f"ROWS: {COLLIDING} random names", f"ROWS: {COLLIDING} names that collide"

# The number of most digits.
LONGEST = "999999999.9999999".rjust(FIELD, "0")


def plain(rows, entries):
    """All columns fixed at 3; each row's coefficients are above 0, so that its sum is at least its right side, 1."""
    lines = ["NAME plain", "ROWS", " N cost"] + [f" G row{i}" for i in range(rows)]
    lines += ["COLUMNS", " mark 'MARKER' 'INTORG'"]
    for j in range(COLUMNS):
        lines.append(f" column{j} cost {j - COLUMNS // 2}")
        lines += [f" column{j} row{(7 * j + k) % rows} {1 + (j + k) % 9}" for k in range(entries)]
    lines += [" mark 'MARKER' 'INTEND'", "RHS"] + [f" rhs row{i} 1" for i in range(rows)]
    lines += ["BOUNDS"] + [f" FX box column{j} 3" for j in range(COLUMNS)] + ["ENDATA", ""]
    return "\n".join(lines)


def largest():
    """The plain text of this form with most entries that is within the limit."""
    fits, beyond = 1, min(ROWS, LIMIT // (SHORTEST * COLUMNS)) + 1
    while beyond - fits > 1:
        middle = (fits + beyond) // 2
        fits, beyond = (middle, beyond) if len(plain(ROWS, middle)) <= LIMIT else (fits, middle)
    return plain(ROWS, fits)


def around(name="", rows="", columns="", sides="", ranges="", bounds="", end="ENDATA\n"):
    """A small model with more lines in its sections: x is 3, and its row asks for 1."""
    return (f"NAME {name}\nROWS\n N cost\n G row\n{rows}COLUMNS\n m 'MARKER' 'INTORG'\n x cost 1 row 1\n{columns} m 'MARKER' 'INTEND'\n"
            f"RHS\n rhs row 1\n{sides}RANGES\n rng row 9\n{ranges}BOUNDS\n FX box x 3\n{bounds}{end}")


ROOM = LIMIT - len(around())


def filled(lines):
    """As many of the lines as there is room for."""
    sizes = itertools.accumulate(len(line) for line in lines[:ROOM])
    return "".join(line for line, size in zip(lines, sizes) if size <= ROOM)


def repeated(line, room=ROOM):
    return line * (room // len(line))


def numbered(form, count=4_800_000):
    return [form % number for number in range(count)]


def pairs(first, second, section):
    """Further N rows, each with one line in a section."""
    count = ROOM // len(first % 0 + second % 0)
    return around(rows="".join(numbered(first, count)), **{section: "".join(numbered(second, count))})


def longest_numbers():
    """16 columns with an entry of the longest number in each of 7,200 rows."""
    rows = "".join(f" G r{row}\n" for row in range(7200))
    columns = filled([f" c{column} r{row} {LONGEST}\n" for column in range(16) for row in range(7200)])
    return cut(around(rows=rows, columns=columns, bounds="".join(f" FX box c{column} 3\n" for column in range(16))))


def longest_columns():
    """7,200 columns whose names have 255 bytes, with entries in some rows."""
    names = [str(column).rjust(FIELD, "c") for column in range(7200)]
    rows = "".join(f" G r{row}\n" for row in range(14))
    columns = "".join(f" {name} r{row} 1\n" for name in names for row in range(14))
    return cut(around(rows=rows, columns=columns, bounds="".join(f" FX box {name} 3\n" for name in names)))


def cut(text):
    """The text, which has to be within the limit."""
    if len(text) > LIMIT:
        sys.exit(f"a text of {len(text)} bytes")
    return text


@functools.cache
def colliding():
    """Names whose hashes with the fixed key share their last bits."""
    words = [os.path.join(FOLDER, "colliding"), str(COLLIDING), str(BITS)]
    return subprocess.run(words, stdout=subprocess.PIPE, check=True, text=True).stdout.split()


def others():
    """As many random names of the same length."""
    draw = random.Random(1)
    return [f"{number:010x}" for number in draw.sample(range(1 << 40), COLLIDING)]


def further(names):
    """A small model with these names of further N rows, which no limit on rows counts."""
    return around(rows="".join(f" N {name}\n" for name in names))


def texts():
    """The name of each text, and the text."""
    yield "plain", largest()
    yield "NAME: a long title", around(name="t" * ROOM)
    yield "a long comment", around(rows="*" + "c" * (ROOM - 2) + "\n")
    yield "short comments", around(rows=repeated("*\n"))
    yield "empty lines", around(rows=repeated("\n"))
    yield "empty lines with CR", around(rows=repeated("\r\n"))
    yield "blanks", around(rows=" " * (ROOM - 1) + "\n")
    yield "ROWS: further N rows", around(rows=filled(numbered(" N %x\n")))
    yield "ROWS: names of 255 bytes", around(rows=filled([f" N {name}\n" for name in (str(n).rjust(FIELD, "n") for n in range(160_000))]))
    yield OTHERS, further(others())
    yield COLLIDE, further(colliding())
    yield "COLUMNS: entries of further N rows", pairs(" N %06x\n", " x %06x 1\n", "columns")
    yield "COLUMNS: the longest numbers", longest_numbers()
    yield "COLUMNS: names of 255 bytes", longest_columns()
    yield "COLUMNS: markers", around(columns=repeated(" m 'MARKER' 'INTEND'\n m 'MARKER' 'INTORG'\n"))
    yield "RHS: sides of further N rows", pairs(" N %06x\n", " rhs %06x 1\n", "sides")
    yield "RANGES: ranges of further N rows", pairs(" N %06x\n", " rng %06x 1\n", "ranges")
    yield "BOUNDS: one bound again and again", around(bounds=repeated(" LO x 3\n"))
    yield "BOUNDS: the longest numbers", around(bounds=repeated(f" LO x {'3'.rjust(FIELD, '0')}\n"))
    yield "BOUNDS: a set's name of 255 bytes", around(bounds=repeated(f" LO {'s' * FIELD} x 3\n", ROOM - FIELD)).replace(" box ", f" {'s' * FIELD} ")
    yield "no ENDATA", around(rows=filled(numbered(" N %x\n")), end="")


def words_for(path):
    """A run over a model, with its journal from the beginning."""
    journal, certificate = (os.path.join(FOLDER, name) for name in ("journal", "certificate"))
    for old in (journal, certificate):
        if os.path.exists(old):
            os.remove(old)
    return [PROGRAM, "solve", path, journal, certificate, "--nodes", "1"]


def measured(path):
    """How a run ends, its seconds and its KiB. GNU time is told to start it, since what Python starts inherits Python's peak of memory."""
    memory = os.path.join(FOLDER, "memory")
    words = ["/usr/bin/time", "-q", "-f", "%M", "-o", memory] + words_for(path)
    begin = time.perf_counter()
    done = subprocess.run(words, stdout=subprocess.PIPE, stderr=subprocess.DEVNULL, text=True)
    seconds = time.perf_counter() - begin
    with open(memory) as file:
        return done.stdout.split("\n")[0], seconds, int(file.read().split()[-1])


def of_processor(path, ahead):
    """The seconds of the processor that a run takes."""
    process = subprocess.Popen([*ahead, *words_for(path)], stdout=subprocess.DEVNULL)
    _, _, usage = os.wait4(process.pid, 0)
    return usage.ru_utime + usage.ru_stime


def tell_names(path, how, runs, ahead=()):
    """The least seconds of the processor with names that collide and with others, by turns."""
    times = [[], []]
    for _ in range(runs):
        for names, of_text in zip((colliding(), others()), times):
            write(path, further(names))
            of_text.append(of_processor(path, ahead))
    collide, other = map(min, times)
    print(f"{COLLIDING} names that collide beside as many random ones, {how}: {1000 * collide:.1f} ms of the processor and {1000 * other:.1f} ms, "
          f"{collide / other:.2f}", flush=True)


def write(path, text):
    with open(path, "w", newline="") as file:
        file.write(text)


def main():
    path, first = os.path.join(FOLDER, "model"), None
    for title, text in texts():
        write(path, text)
        runs = [measured(path) for _ in range(RUNS)]
        told, seconds, memory = runs[0][0], min(run[1] for run in runs), max(run[2] for run in runs)
        first = first or (seconds, memory)
        print(f"{title}: {len(text)} bytes, {told!r}, {1000 * seconds:.1f} ms, {memory / 1024:.1f} MiB; "
              f"{seconds / first[0]:.2f} of the time, {memory / first[1]:.2f} of the memory", flush=True)
    tell_names(path, "with the program's key", 5 * RUNS)
    if shutil.which("strace"):
        # The system gives the program no random bytes, so it takes the fixed key. This shows that the names do collide under it.
        tell_names(path, "with the fixed key, under strace", 1, ["strace", "-f", "-o", os.devnull, "-e", "trace=getrandom", "-e", "inject=getrandom:error=ENOSYS"])


main()
