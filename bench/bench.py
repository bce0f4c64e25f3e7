#!/usr/bin/env python3
"""Files of growing size, and what the analyser takes for each: points, names, seconds, peak memory.

    bench.py PROGRAM [NAME ..]     all rows of TABLE, or those named

PROGRAM is the optimised program, which `make build` makes. Each file is made here from its number. What is measured is the
processor's time for the whole order `analyse`, reading and writing included, and the process's peak memory; below about 20
megabytes that is the memory of this script, which starts it. Beside each number stands its ratio to the one before, so
that the growth is seen: 2 is linear in the size, 4 quadratic.
"""
import os
import subprocess
import sys
import tempfile

sys.path.insert(0, os.path.join(os.path.dirname(os.path.abspath(__file__)), "..", "tests"))

from made_code import ENTRY, EBREAK, GP, RA, RETURN, SP, ZERO, add, addi, beq, elf, jal, ld, sd  # noqa: E402

TEMPORARIES = [5, 6, 7, 28, 29, 30, 31]
ARGUMENTS = list(range(10, 18))
NAMES = {1: "ra", 2: "sp", 3: "gp", 5: "t0", 6: "t1", 7: "t2", 28: "t3", 29: "t4", 30: "t5", 31: "t6"}
NAMES |= {r: f"a{r - 10}" for r in ARGUMENTS}
EIGHT = ARGUMENTS
SIXTEEN = ARGUMENTS + TEMPORARIES + [GP]


def tracked(registers):
    return ",".join(NAMES[r] for r in registers)


def mixed(registers):
    """A loop in which each register may get the next one added: it mixes all of them."""
    words = []
    for i, r in enumerate(registers):
        words += [beq(10, ZERO, 8), add(r, r, registers[(i + 1) % len(registers)])]
    return words + [beq(10, ZERO, -4 * len(words))]


# Each of these makes, from a number, the words of a file and the list of names.


def backwards(n):
    """Eight registers mixed in a loop, and then n jumps, each to the word before. Each jump is a head."""
    return mixed(EIGHT) + [jal(ZERO, 4 * (n + 1)), EBREAK] + [jal(ZERO, -4)] * n, tracked(EIGHT)


def plain(n):
    """Sixteen registers mixed in a loop, and then n points that assign nothing that is tracked: states alone go on."""
    return mixed(SIXTEEN) + [addi(ZERO, ZERO, 0)] * n + [EBREAK], tracked(SIXTEEN)


def returning(n):
    """The same in a procedure that returns, so that maps are solved for it and not states alone."""
    return [jal(RA, 8), EBREAK] + mixed(SIXTEEN) + [addi(ZERO, ZERO, 0)] * n + [RETURN], tracked(SIXTEEN)


def crossing(n):
    """Eight registers mixed by n branches, one after the other, in a procedure that returns: maps of 65 rows at each."""
    words = [jal(RA, 8), EBREAK] + mixed(EIGHT)
    for i in range(n):
        words += [beq(10, ZERO, 8), add(EIGHT[i % 8], EIGHT[i % 8], EIGHT[(i + 3) % 8])]
    return words + [RETURN], tracked(EIGHT)


def counted(n):
    """Eight registers, and n times one of them gets 1 more: straight code, whose relations are solved at each point."""
    return [addi(EIGHT[i % 8], EIGHT[i % 8], 1) for i in range(n)] + [EBREAK], tracked(EIGHT)


def nested(n):
    """n procedures, each of which calls the next one twice: the ways through them double with each."""
    words = [addi(SP, ZERO, 2047), jal(RA, 8), EBREAK]
    for i in range(n):
        slot = [addi(SP, SP, -16), sd(RA, 8, SP)]
        calls = [addi(10, 10, 1), jal(RA, 0), add(11, 11, 10), jal(RA, 0)]
        rest = [ld(RA, 8, SP), addi(SP, SP, 16), RETURN]
        if i + 1 < n:
            calls[1], calls[3] = jal(RA, 4 * 6), jal(RA, 4 * 4)
        else:
            calls[1] = calls[3] = add(11, 11, 11)
        words += slot + calls + rest
    return words, tracked([SP, RA, 10, 11])


def cycle(n):
    """n procedures that may each call the next, and the last one the first: recursion through all of them."""
    words = [jal(RA, 8), EBREAK]
    for i in range(n):
        call = len(words) + 3
        callee = 2 + 7 * ((i + 1) % n)
        words += [addi(SP, SP, -16), beq(12, ZERO, 12), addi(10, 10, 1), jal(RA, 4 * (callee - call))]
        words += [add(11, 11, 10), addi(SP, SP, 16), RETURN]
    return words, tracked([SP, RA, 10, 11])


def branches(n):
    """n branches one after the other, each over one sum: paths part and meet again n times."""
    words = []
    for i in range(n):
        words += [beq(10, ZERO, 8), add(EIGHT[i % 8], EIGHT[i % 8], EIGHT[(i + 3) % 8])]
    return words + [EBREAK], tracked(EIGHT)


def loops(n):
    """n loops, each in the next one, with a sum in each: a row may go round n ways."""
    words = [addi(EIGHT[i % 8], EIGHT[i % 8], i % 5) for i in range(n)]
    for i in range(n):
        words += [add(EIGHT[i % 8], EIGHT[i % 8], EIGHT[(i + 1) % 8])]
        words += [beq(10, ZERO, -4 * (2 * i + 2))]
    return words + [EBREAK], tracked(EIGHT)


def frames(n):
    """n loads and stores on sixteen slots of one frame, between two registers that aren't tracked by name."""
    words = [addi(SP, SP, -128)]
    for i in range(n // 2):
        words += [ld(10, 8 * (i % 16), SP), sd(10, 8 * (5 * i % 16), SP)]
    return words + [EBREAK], ",".join(f"{ENTRY:#x}:-{8 * (k + 1)}" for k in range(16))


def calling(n):
    """n procedures in a ring: each mixes sixteen registers in a loop, in which it may call the next one."""
    words = [jal(RA, 8), EBREAK]
    for i in range(n):
        loop = mixed(SIXTEEN)[:-1]
        length = len(loop) + 4
        call = len(words) + len(loop) + 1
        callee = 2 + length * ((i + 1) % n)
        loop += [beq(10, ZERO, 8), jal(RA, 4 * (callee - call))]
        words += loop + [beq(10, ZERO, -4 * len(loop)), RETURN]
    return words, tracked(SIXTEEN)


def diamonds(n):
    """Sixteen registers mixed by n diamonds, one after the other, in a procedure that returns: each has two sums, one a side."""
    words = [jal(RA, 8), EBREAK] + mixed(SIXTEEN)
    for i in range(n):
        x, y, z = SIXTEEN[i % 16], SIXTEEN[(i + 3) % 16], SIXTEEN[(i + 7) % 16]
        words += [beq(10, ZERO, 12), add(x, x, y), jal(ZERO, 8), add(x, x, z)]
    return words + [RETURN], tracked(SIXTEEN)


def limits(n):
    """n points that change sixteen registers in turn, and no loop: straight code, up to as many points and names as are taken."""
    return [addi(SIXTEEN[i % 16], SIXTEEN[i % 16], 1) for i in range(n - 1)] + [EBREAK], tracked(SIXTEEN)


# What it is, its sizes, and what it stresses.
TABLE = {
    "backwards": (backwards, [240, 480, 960, 1920, 3900], "a head for each point"),
    "plain": (plain, [1000, 2000, 4000, 8000, 16000], "straight code that assigns no name, behind a loop"),
    "returning": (returning, [1000, 2000, 4000, 8000, 16000], "the same in a procedure that returns: 257 rows of maps in the loop"),
    "crossing": (crossing, [120, 240, 480, 960, 1920], "a procedure of n branches: 65 rows of maps at each"),
    "counted": (counted, [1000, 2000, 4000, 8000, 16000], "straight code whose relations change at each point"),
    "nested": (nested, [25, 50, 100, 200, 400], "calls nested n deep, each procedure calling the next one twice"),
    "cycle": (cycle, [25, 50, 100, 200, 400], "n procedures in one cycle of calls"),
    "branches": (branches, [120, 240, 480, 960, 1920], "n branches one after the other"),
    "loops": (loops, [30, 60, 120, 240, 480], "a nest of n loops"),
    "frames": (frames, [125, 250, 500, 1000, 2000], "n loads and stores on sixteen slots"),
    "calling": (calling, [1, 2, 4, 8, 16], "n loops that mix sixteen names and call each other in a ring"),
    "diamonds": (diamonds, [15, 30, 60, 120, 240], "a procedure of n diamonds of joins: 257 rows of maps at each"),
    "limits": (limits, [1024, 2048, 4096, 8192, 16384], "straight code that changes sixteen names, up to the limits"),
}


def measured(program, file, names):
    """Seconds of the processor, peak memory in megabytes, the status, and the lines."""
    with tempfile.TemporaryFile() as out:
        child = subprocess.Popen([program, "analyse", file, "--track", names], stdout=out)
        _, status, usage = os.wait4(child.pid, 0)
        seconds = usage.ru_utime + usage.ru_stime
        child.returncode = os.waitstatus_to_exitcode(status)
        out.seek(0)
        lines = out.read().decode().splitlines()
    return seconds, usage.ru_maxrss / 1024, child.returncode, lines


def main():
    if len(sys.argv) < 2:
        sys.exit(__doc__)
    program = os.path.abspath(sys.argv[1])
    wanted = sys.argv[2:] or list(TABLE)
    with tempfile.TemporaryDirectory() as folder:
        file = os.path.join(folder, "file.elf")
        for name in wanted:
            make, sizes, stresses = TABLE[name]
            print(f"\n{name}: {stresses}")
            print(f"{'size':>8} {'points':>8} {'names':>6} {'seconds':>9} {'ratio':>6} {'megabytes':>10} {'ratio':>6}")
            before = None
            for size in sizes:
                words, names = make(size)
                with open(file, "wb") as out:
                    out.write(elf(words))
                seconds, memory, status, lines = measured(program, file, names)
                if status != 0:
                    print(f"{size:>8} {lines[0] if lines else ''} (status {status})")
                    continue
                points = sum(line.startswith("at ") for line in lines)
                grown = (f"{seconds / before[0]:6.1f}", f"{memory / before[1]:6.1f}") if before else ("", "")
                print(f"{size:>8} {points:>8} {names.count(',') + 1:>6} {seconds:>9.3f} {grown[0]:>6} {memory:>10.1f} {grown[1]:>6}")
                before = (seconds, memory)


if __name__ == "__main__":
    main()
