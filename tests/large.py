#!/usr/bin/env python3
"""Large inputs, by the built program: what it prints and its status are compared whole.

    large.py PROGRAM [NAME ..]     all tests, or those named

A clause of the program's says which answer comes, and leaves one thing open: want of memory may come anywhere. So a body
that gives up above some size would be proved. Each test here has an input near a limit and asks for its whole answer, with
memory at hand. The inputs are made here; what is expected is written out here, or computed by the few lines beside it, and
never taken from the program. `make large` runs all of them.
"""
import os
import subprocess
import sys
import tempfile
import time

from made_code import ENTRY, EBREAK, GP, RA, RETURN, SP, ZERO, add, addi, beq, bne, elf, jal, ld, sd

A0, A1 = 10, 11
ARGUMENTS = {f"a{i}": 10 + i for i in range(8)}
SIXTEEN = ARGUMENTS | {"t0": 5, "t1": 6, "t2": 7, "t3": 28, "t4": 29, "t5": 30, "t6": 31, "gp": GP}


def text(lines):
    return "".join(line + "\n" for line in lines)


def report(version, names, points, certs=(), state="none"):
    """A report of the one procedure at the entry, with the same state at each of its points, which are in a row."""
    told = [f"affine-report {version}", "track " + ",".join(names), f"proc {ENTRY:#x}"] + list(certs)
    for i in range(points):
        told += [f"at {ENTRY + 4 * i:#x}", state]
    return text(told + ["end"])


def ring(registers):
    """A loop in which each register may get the next one added, the last the first: nothing is known of any of them."""
    words = []
    for i, r in enumerate(registers):
        words += [beq(A0, ZERO, 8), add(r, r, registers[(i + 1) % len(registers)])]
    return words + [beq(A0, ZERO, -4 * len(words))]


# Each test gives the order's words, the files by their names, the status, and the whole text.


def jumps_backwards():
    """A report of 3,919 points: eight registers mixed in a loop, and then jumps, each to the word before."""
    names = list(ARGUMENTS)
    words = ring([ARGUMENTS[name] for name in names]) + [jal(ZERO, 15604), EBREAK] + [jal(ZERO, -4)] * 3900
    return ["analyse", "file.elf", "--track", ",".join(names)], {"file.elf": elf(words)}, 0, report(2, names, 3919)


def sixteen_registers():
    """A report of 16,034 points: sixteen registers mixed in a loop, and 16,000 words that do nothing behind it."""
    names = list(SIXTEEN)
    words = ring([SIXTEEN[name] for name in names]) + [addi(ZERO, ZERO, 0)] * 16000 + [EBREAK]
    return ["analyse", "file.elf", "--track", ",".join(names)], {"file.elf": elf(words)}, 0, report(2, names, 16034)


def made_words(n):
    """The words of the made file with n procedures."""
    words = [addi(A0, ZERO, 0), jal(RA, 8), EBREAK]
    for i in range(1, n + 1):
        call = jal(RA, 16 if i < n else -(32 * n - 16))
        words += [addi(SP, SP, -16), sd(RA, 8, SP), addi(A0, A0, i), beq(A0, ZERO, 8), call, ld(RA, 8, SP), addi(SP, SP, 16), RETURN]
    return words


def twos(x):
    """How often 2 divides x, at most 64 times."""
    return 64 if x % 2**64 == 0 else (x & -x).bit_length() - 1


def joined(a, b):
    """Sets of words (c, t) stand for all words c + 2^t * x, or None for no word: the smallest that has both."""
    if a is None or b is None:
        return a or b
    t = min(a[1], b[1], twos(a[0] - b[0]))
    return a[0] % 2**t, t


def summed(a, b):
    if a is None or b is None:
        return None
    t = min(a[1], b[1])
    return (a[0] + b[0]) % 2**t, t


def made_rows(n):
    """The rows for a0 of the made file, slowly: what a procedure adds to a0 until none of it grows, and then what a0 is at each
    point. One row is told where not every word can be in a0."""
    added, before = [None] * (n + 1), None
    while added != before:
        before = list(added)
        for i in range(1, n + 1):
            called = added[i % n + 1]
            added[i] = joined((i, 64), summed((i, 64), called))
    entered, before = [None] * (n + 1), None
    entered[1] = (0, 64)
    while entered != before:
        before = list(entered)
        for i in range(1, n + 1):
            callee = i % n + 1
            entered[callee] = joined(entered[callee], summed(entered[i], (i, 64)))
    points = [(0, 0), (0, 64), summed((0, 64), added[1])]
    for i in range(1, n + 1):
        counted = summed(entered[i], (i, 64))
        returned = summed(counted, added[i % n + 1])
        points += [entered[i]] * 3 + [counted] * 2 + [joined(counted, returned)] * 3
    return sum(point is not None and point[1] > 0 for point in points), sum(point is None for point in points)


def made(n):
    words = made_words(n)
    rows, unreached = made_rows(n)
    told = ["affine-gen 1", f"n {n}", f"bytes {120 + 4 * len(words)}", f"points {len(words)}", f"procs {n + 1}", f"rows {rows}"]
    return ["gen", str(n), "--track", "a0"], {}, 0, text(told + [f"unreached {unreached}", "end"])


def made_40():
    """The made file with 40 procedures, whose numbers are known: 1412, 323, 41, 201, 0."""
    words, files, status, told = made(40)
    assert told == "affine-gen 1\nn 40\nbytes 1412\npoints 323\nprocs 41\nrows 201\nunreached 0\nend\n", told
    return words, files, status, told


def made_100():
    """The largest made file: 3332 bytes, 803 points, 101 procedures."""
    words, files, status, told = made(100)
    assert told.startswith("affine-gen 1\nn 100\nbytes 3332\npoints 803\nprocs 101\n"), told
    return words, files, status, told


def most_bytes():
    """A file of 2^24 bytes."""
    file = elf([EBREAK], 2**24 - 124)
    assert len(file) == 2**24
    return ["analyse", "file.elf", "--track", "a0"], {"file.elf": file}, 0, report(2, ["a0"], 1)


def too_many_bytes():
    """A file of one byte more."""
    return ["analyse", "file.elf", "--track", "a0"], {"file.elf": elf([EBREAK], 2**24 - 123)}, 1, "refused TooLong 16777216\n"


def most_points():
    """A file of 16,384 points, listed."""
    words = [addi(A0, A0, 0)] * 16383 + [EBREAK]
    told = [f"{ENTRY + 4 * i:#x} 00050513 addi a0,a0,0" for i in range(16383)] + [f"{ENTRY + 4 * 16383:#x} 00100073 ebreak"]
    return ["list", "file.elf"], {"file.elf": elf(words)}, 0, text(["affine-list 1", f"proc {ENTRY:#x}"] + told + ["end"])


def upgraded():
    """An upgrade of a report of 16,384 points: nothing returns, so each register that is to be kept never is."""
    names = ["sp", "a0", "ra"]
    files = {"file.elf": elf([addi(A0, A0, 0)] * 16383 + [EBREAK]), "file.report": report(1, names, 16384).encode()}
    return ["upgrade", "file.elf", "file.report"], files, 0, report(2, names, 16384, ["cert sp never", "cert ra never"])


def lines_read():
    """A report of 2^20 lines, of which the last is wrong."""
    told = report(1, ["a0"], 2**19 - 2)
    assert told.count("\n") == 2**20 and told.endswith("none\nend\n")
    files = {"file.elf": elf([EBREAK]), "file.report": (told[:-4] + "and\n").encode()}
    return ["run", "file.elf", "file.report", "--steps", "1"], files, 6, "refused report Syntax 1048576\n"


def lines_taken():
    """The same report whole: all its lines are read, and then its second point is none of the file."""
    files = {"file.elf": elf([EBREAK]), "file.report": report(1, ["a0"], 2**19 - 2).encode()}
    return ["run", "file.elf", "file.report", "--steps", "1"], files, 6, f"refused report NotAPoint {ENTRY + 4:#x}\n"


def steps_made():
    """A run of 10^7 steps: a0 counts up to a1 in two steps, 5,000,000 times, and then comes the end."""
    words = [addi(A0, A0, 1), bne(A0, A1, -4), EBREAK]
    told = text(["affine-run 1", "steps 10000000", f"stop break {ENTRY + 8:#x}", "end"])
    files = {"file.elf": elf(words), "file.report": report(1, ["a0"], 3).encode()}
    return ["run", "file.elf", "file.report", "--steps", "20000000", "--regs", "a1=5000000"], files, 0, told


def steps_counted():
    """The same run where no more than 10^7 - 1 steps are allowed, with a report that calls its last point unreached."""
    words = [addi(A0, A0, 1), bne(A0, A1, -4), EBREAK]
    wrong = report(1, ["a0"], 3)[: -len("none\nend\n")] + "unreached\nend\n"
    told = text(["affine-run 1", "steps 9999999", "stop budget", "end"])
    files = {"file.elf": elf(words), "file.report": wrong.encode()}
    return ["run", "file.elf", "file.report", "--steps", "9999999", "--regs", "a1=5000000"], files, 0, told


def last_step_found():
    """And where they are: the finding of the last record, behind 10^7 steps."""
    words, files, _, _ = steps_counted()
    told = ["affine-run 1", "steps 10000000", f"stop break {ENTRY + 8:#x}", f"found 1 step 10000000 at {ENTRY + 8:#x} detail 0x0", "end"]
    return words[:4] + ["20000000"] + words[5:], files, 7, text(told)


TESTS = [
    jumps_backwards, sixteen_registers, made_40, made_100, most_bytes, too_many_bytes, most_points, upgraded, lines_read,
    lines_taken, steps_made, steps_counted, last_step_found,
]


def difference(wanted, got):
    """The first line that differs."""
    wanted, got = wanted.split("\n"), got.split("\n")
    for i, (w, g) in enumerate(zip(wanted, got)):
        if w != g:
            return f"line {i + 1} is {g!r}, not {w!r}"
    return f"{len(got)} lines, not {len(wanted)}"


def ran(program, test):
    words, files, status, wanted = test()
    with tempfile.TemporaryDirectory() as folder:
        for name, contents in files.items():
            with open(os.path.join(folder, name), "wb") as out:
                out.write(contents)
        since = time.monotonic()
        run = subprocess.run([program] + words, cwd=folder, stdout=subprocess.PIPE, check=False)
        seconds = time.monotonic() - since
    got = run.stdout.decode()
    fault = difference(wanted, got) if got != wanted else f"status {run.returncode}, not {status}" if run.returncode != status else ""
    print(f"{'FAILED' if fault else 'passed'}  {test.__name__}  {len(got)} bytes, {seconds:.1f} s{'  ' + fault if fault else ''}", flush=True)
    return not fault


def main():
    if len(sys.argv) < 2:
        sys.exit(__doc__)
    program = os.path.abspath(sys.argv[1])
    tests = {test.__name__: test for test in TESTS}
    passed = [ran(program, tests[name]) for name in sys.argv[2:] or tests]
    print(f"{sum(passed)} passed, {len(passed) - sum(passed)} failed")
    sys.exit(0 if all(passed) else 1)


if __name__ == "__main__":
    main()
