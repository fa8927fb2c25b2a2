"""What a certificate of a long search costs: bench/certificate/table.py PROGRAM PLAIN FOLDER

The program searches an equation of 20 columns without a solution for a point, without cuts: 587,859 nodes or so. The same search with a budget that
is one split short of that writes no certificate: what the whole one has in memory beyond it is the certificate's part. Then two commands go on from the
journal: one that shows it, and one that writes the certificate, whose seconds beyond the first are the certificate's. A plain program that has the
numbers of the lines in memory writes the same bytes through a buffer. It makes no multipliers, which the certificate's seconds hold as well.
"""
import os
import subprocess
import sys

COLUMNS, RHS = 20, 17  # twice the sum of the columns is odd nowhere
ROUNDS = 5


def model():
    yield "NAME equation\nROWS\n N cost\n E odd\nCOLUMNS\n"
    yield " m 'MARKER' 'INTORG'\n"
    for column in range(COLUMNS):
        yield f" x{column} odd 2\n"
    yield " m 'MARKER' 'INTEND'\n"
    yield f"RHS\n rhs odd {RHS}\nBOUNDS\n"
    for column in range(COLUMNS):
        yield f" BV b x{column}\n"
    yield "ENDATA\n"


DONE, SPENT = 0, 8


def run(*words, status=DONE):
    """The lines that a program prints, its processor seconds, and its peak of memory in bytes."""
    process = subprocess.Popen(words, stdout=subprocess.PIPE, text=True)
    told = process.stdout.read().split("\n")
    _, ended, usage = os.wait4(process.pid, 0)
    process.stdout.close()
    if os.waitstatus_to_exitcode(ended) != status:
        sys.exit(f"{' '.join(words)}: status {os.waitstatus_to_exitcode(ended)}: {told[0]}")
    return told, usage.ru_utime + usage.ru_stime, usage.ru_maxrss * 1024


def least(runs):
    """Of several runs the least seconds, and the least peak."""
    return min(run[1] for run in runs), min(run[2] for run in runs)


def main():
    program, plain, work = sys.argv[1:]
    mps, journal, certificate, copy = (os.path.join(work, name) for name in ("model.mps", "journal", "certificate", "copy"))
    with open(mps, "w", encoding="ascii") as file:
        file.writelines(model())
    search = [program, "solve", mps, journal, certificate, "--cuts", "0", "--nodes"]
    told, seconds, peak = run(*search, "100000000")
    if told[0] != "infeasible":
        sys.exit(told[0])
    length = os.path.getsize(certificate)
    with open(certificate, encoding="ascii") as file:
        lines = next(int(line.split()[1]) for line in file if line.startswith("DER "))
    print(f"equation of {COLUMNS} columns: {told[1]}, {lines:,} derived lines, {length / 1e6:.1f} MB of text; solved in {seconds:.2f} s of the processor, peak {peak / 1e6:.0f} MB")
    os.remove(journal)
    budget = int(told[1].split()[1]) - 2
    alone = run(*search, str(budget), status=SPENT)[2]
    os.remove(journal)
    run(*search, "100000000")
    shown = least([run(program, "show", journal) for _ in range(ROUNDS)])
    written = least([run(program, "resume", journal, certificate) for _ in range(ROUNDS)])
    compared = [float(run(plain, certificate, copy)[0][0]) for _ in range(ROUNDS)]
    with open(certificate, "rb") as one, open(copy, "rb") as other:
        if one.read() != other.read():
            sys.exit("the plain program wrote other bytes")
    own = written[0] - shown[0]
    print(f"the journal read alone: {shown[0]:.2f} s, peak {shown[1] / 1e6:.0f} MB; and the certificate written: {written[0]:.2f} s, peak {written[1] / 1e6:.0f} MB")
    print(f"the certificate's part: {own:.2f} s, {(peak - alone) / 1e6:.0f} MB; the plain writer {min(compared):.2f} s; ratio {own / min(compared):.2f}")


main()
