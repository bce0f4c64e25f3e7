#!/usr/bin/env python3
"""Each allocation, open, read and write of the built program fails in turn, by `refuse.c`, which is loaded before it.

    faults.py PROGRAM [NAME ..]     all rows of ROWS, or those named

Where memory is refused, once or from then on, an order says `out of memory` with status 5, or what it says without; where a
file can't be opened or read, `read fault` with status 3; where nothing can be written, status 4 and a front of its text.
Where a call is interrupted, or moves a single byte, the order does all that it does. Nothing else ever comes. `make faults`
runs it; a C compiler is wanted, `cc`.
"""
import os
import subprocess
import sys
import tempfile
import time

from worked import COUNTING, COUNTING_REPORT, FRAME, ORDERS, RECURSION, RECURSION_LIST, RECURSION_REPORT

COUNTED = "affine-run 1\nsteps 7\nstop break 0x10084\nend\n"

# A name, the order's words, FILE, REPORT, and the whole text with status 0: each order over one file, and two rows more.
ROWS = [(order, words, FRAME, report or "", text) for order, (words, report, text) in ORDERS.items()] + [
    ("recursion", f"analyse FILE --track {RECURSION_LIST}", RECURSION, "", RECURSION_REPORT),
    ("counting", "run FILE REPORT --steps 100 --regs a1=24", COUNTING, COUNTING_REPORT, COUNTED),
]

HERE = os.path.dirname(os.path.abspath(__file__))


def memory_told(status, text, whole):
    return (status, text) in [(5, "out of memory\n"), (0, whole)]


def read_told(status, text, whole):
    return (status, text) == (3, "read fault\n")


def write_told(status, text, whole):
    return status == 4 and text != whole and whole.startswith(text)


def unchanged(status, text, whole):
    return (status, text) == (0, whole)


# The kinds of calls that `refuse.c` knows, and what may come where one is refused.
KINDS = {
    "memory": memory_told,
    "drought": memory_told,
    "open": read_told,
    "read": read_told,
    "write": write_told,
    "interrupt": unchanged,
    "short": unchanged,
}


def built(folder):
    """The library that refuses calls."""
    library = os.path.join(folder, "refuse.so")
    try:
        subprocess.run(["cc", "-shared", "-fPIC", "-O1", "-o", library, os.path.join(HERE, "refuse.c"), "-ldl"], check=True)
    except (OSError, subprocess.CalledProcessError):
        sys.exit("faults: wants a C compiler as cc: apt install gcc")
    return library


def ended(program, words, folder, library, kind, at):
    """Status and text where the call of this kind and number is refused."""
    environment = {"LD_PRELOAD": library, "REFUSE": kind, "REFUSE_AT": str(at), "REFUSE_COUNT": os.path.join(folder, "count")}
    call = subprocess.run([program] + words, cwd=folder, env=environment, stdout=subprocess.PIPE, timeout=120, check=False)
    return call.returncode, call.stdout.decode()


def counted(folder):
    with open(os.path.join(folder, "count"), encoding="ascii") as count:
        return int(count.read())


def ran(program, folder, library, row):
    """How many calls of each kind were refused, and what is wrong with any answer, that without a fault among them."""
    _, words, file, report, whole = row
    words = [{"FILE": "file.elf", "REPORT": "file.report"}.get(word, word) for word in words.split(" ")]
    for name, contents in [("file.elf", file), ("file.report", report.encode())]:
        with open(os.path.join(folder, name), "wb") as out:
            out.write(contents)
    refused, faults = {}, []
    for kind, told in KINDS.items():
        sound = ended(program, words, folder, library, kind, 0)
        if sound != (0, whole):
            faults.append(f"without a fault: {sound!r}")
            refused[kind] = 0
            continue
        refused[kind] = counted(folder)
        statuses = set()
        for at in range(1, refused[kind] + 1):
            status, text = ended(program, words, folder, library, kind, at)
            statuses.add(status)
            if not told(status, text, whole):
                faults.append(f"{kind} {at}: {status}, {text[:60]!r}")
        if told is memory_told and sound == (0, whole) and 5 not in statuses:
            faults.append(f"{kind}: no call that was refused was told")
    return refused, faults


def main():
    if len(sys.argv) < 2:
        sys.exit(__doc__)
    program = os.path.abspath(sys.argv[1])
    rows = [row for row in ROWS if len(sys.argv) == 2 or row[0] in sys.argv[2:]]
    passed = failed = total = 0
    with tempfile.TemporaryDirectory() as folder:
        library = built(folder)
        for row in rows:
            since = time.monotonic()
            refused, faults = ran(program, folder, library, row)
            total += sum(refused.values()) + len(KINDS)
            told = ", ".join(f"{kind} {n}" for kind, n in refused.items())
            print(f"{'FAILED' if faults else 'passed'}  {row[0]}  {told}, {time.monotonic() - since:.1f} s", flush=True)
            for fault in faults[:5]:
                print("        " + fault)
            failed += len(faults)
    passed = total - failed
    print(f"{passed} passed, {failed} failed")
    sys.exit(1 if failed else 0)


if __name__ == "__main__":
    main()
