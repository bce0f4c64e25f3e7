#!/usr/bin/env python3
"""Files of growing size, and what abi_check takes for each: procedures, words, seconds, peak memory.

    saved.py PROGRAM [NAME ..]     all rows of TABLE, or those named

PROGRAM is the optimised program abi_check, which `make build` makes. Each file is made here from its number. Seconds, megabytes
and ratios are as in bench.py.
"""
import os
import subprocess
import sys
import tempfile

sys.path.insert(0, os.path.join(os.path.dirname(os.path.abspath(__file__)), "..", "tests"))

from made_code import EBREAK, RA, RETURN, SP, ZERO, add, addi, beq, elf, jal, ld, sd  # noqa: E402

S0, S1, S2, A0 = 8, 9, 18, 10
FRAME = 64  # words of a procedure that calls


def filling(n):
    """n words that compute, with a branch at every eighth."""
    return [beq(A0, S0, 8) if i % 8 == 0 else add(A0, A0, S1) for i in range(n)]


def calling(at, callees):
    """A procedure with a frame and two saved registers, which calls these, `at` being its first word's number."""
    words = [addi(SP, SP, -32), sd(RA, 24, SP), sd(S0, 16, SP), sd(S1, 8, SP), addi(S0, A0, 0), addi(S1, A0, 1)]
    for callee in callees:
        words.append(jal(RA, 4 * (callee - at - len(words))))
    words += filling(FRAME - len(words) - 5)
    return words + [ld(RA, 24, SP), ld(S0, 16, SP), ld(S1, 8, SP), addi(SP, SP, 32), RETURN]


def program(n, leaf):
    """Start code that calls the first procedure, n procedures, each of which calls the next two, and a leaf behind them."""
    first = 3
    words = [addi(SP, ZERO, 2032), jal(RA, 4 * (first - 1)), EBREAK]
    for i in range(n):
        places = [first + FRAME * min(i + step, n) for step in (1, 2)]
        words += calling(first + FRAME * i, places)
    return words + leaf


def kept(n):
    """Each procedure keeps all."""
    return program(n, [addi(A0, A0, 1), RETURN])


def unknown(n):
    """The leaf writes over s2 on one path, so that s2 is unknown in each procedure above."""
    return program(n, [beq(A0, ZERO, 8), addi(S2, ZERO, 7), RETURN])


def clobbered(n):
    """Each procedure writes over s2 on one path."""
    words = program(n, [RETURN])
    for i in range(n):
        words[3 + FRAME * i + FRAME - 7] = beq(A0, ZERO, 8)
        words[3 + FRAME * i + FRAME - 6] = addi(S2, ZERO, 7)
    return words


TABLE = {
    "kept": (kept, [119, 238, 475, 950, 1900], "each procedure keeps all"),
    "unknown": (unknown, [119, 238, 475, 950, 1900], "s2 is unknown in each, by a leaf"),
    "clobbered": (clobbered, [119, 238, 475, 950, 1900], "s2 is clobbered in each, on one path"),
}


def measured(program, file, options):
    """Seconds of the processor, peak memory in megabytes, the status."""
    child = subprocess.Popen([program, file, *options], stdout=subprocess.DEVNULL)
    _, status, usage = os.wait4(child.pid, 0)
    child.returncode = os.waitstatus_to_exitcode(status)
    return usage.ru_utime + usage.ru_stime, usage.ru_maxrss / 1024, child.returncode


def main():
    if len(sys.argv) < 2:
        sys.exit(__doc__)
    program = os.path.abspath(sys.argv[1])
    with tempfile.TemporaryDirectory() as folder:
        file = os.path.join(folder, "file.elf")
        for name in sys.argv[2:] or list(TABLE):
            make, sizes, stresses = TABLE[name]
            print(f"\n{name}: {stresses}")
            print(f"{'size':>8} {'words':>8} {'status':>6} {'seconds':>9} {'ratio':>6} {'megabytes':>10} {'ratio':>6}")
            before = None
            for size in sizes:
                words = make(size)
                with open(file, "wb") as out:
                    out.write(elf(words))
                seconds, memory, status = measured(program, file, [])
                grown = (f"{seconds / before[0]:6.1f}", f"{memory / before[1]:6.1f}") if before else ("", "")
                print(f"{size:>8} {len(words):>8} {status:>6} {seconds:>9.3f} {grown[0]:>6} {memory:>10.1f} {grown[1]:>6}")
                before = (seconds, memory)


if __name__ == "__main__":
    main()
