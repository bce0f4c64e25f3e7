#!/usr/bin/env python3
"""Damage, and what users meet: what the built program prints and its status, compared whole.

    hostile.py PROGRAM [NAME ..]     all tests, or those named

Each test asks each order that it concerns (`worked.ORDERS`): files that are cut at each byte, headers that are damaged one
field at a time, reports that are cut at each byte or written elsewhere, and FILE, REPORT and standard output as the system
may give them: a folder, a pipe, a device, no leave to read, a file that grows or shrinks while it is read, a full disk, a
closed output, a reader that goes away, a signal. What is expected is written here, beside its input. `make hostile` runs it.
"""
import os
import resource
import shutil
import signal
import subprocess
import sys
import tempfile
import threading
import time

from made_code import EBREAK, ENTRY, ZERO, elf, jal
from worked import (
    COUNTING, COUNTING_REPORT, FIVE, FIVE_REPORT, FRAME, FRAME_OLD, ORDERS, QUARTER, RECURSION, RECURSION_LIST,
    RECURSION_REPORT, USAGE, number, reads_file, reads_report, with_header, without_certificates, words,
)

OVER_FILES = [order for order in ORDERS if reads_file(order)]
OVER_REPORTS = [order for order in ORDERS if reads_report(order)]
READ_FAULT = (3, "read fault\n")
TOO_LONG = (1, "refused TooLong 16777216\n")
LONGEST_REPORT = 2**28


class Place:
    """A folder with the files of FRAME and the program in it, and calls of the program there."""

    def __init__(self, program, folder):
        self.program = os.path.join(folder, "program")
        self.folder = folder
        self.faults = []
        self.calls = 0
        shutil.copy(program, self.program)
        self.put("file.elf", FRAME)

    def path(self, name):
        return os.path.join(self.folder, name)

    def put(self, name, contents):
        with open(self.path(name), "wb") as out:
            out.write(contents.encode() if isinstance(contents, str) else contents)

    def put_report(self, order):
        if reads_report(order):
            self.put("file.report", ORDERS[order][1])

    def call(self, arguments, **options):
        """The status and the text; a status below 0 is a signal's number."""
        self.calls += 1
        call = subprocess.run([self.program] + arguments, cwd=self.folder, stdout=subprocess.PIPE, timeout=120, check=False, **options)
        return call.returncode, call.stdout.decode()

    def wants(self, about, wanted, got):
        if wanted != got:
            self.faults.append(f"{about}: {got!r}, not {wanted!r}")

    def asks(self, order, wanted, file="file.elf", report="file.report", about="", **options):
        """Whether the order has this status and text."""
        self.wants(f"{order} {about}", wanted, self.call(words(order, file, report), **options))


def whole(order):
    return 0, ORDERS[order][2]


def orders_over_files(place):
    """Each order that reads FILE, with its report in place."""
    for order in OVER_FILES:
        place.put_report(order)
        yield order


# Damage.


def whole_answers(place):
    """Each order over a sound file, as it stands."""
    for order in ORDERS:
        place.put_report(order)
        place.asks(order, whole(order))


def cut_refusal(n):
    if n < 64:
        return 1, f"refused Short {n} at offset {n}\n"
    return 1, "refused BadHeaderTable at offset 32\n" if n < 120 else "refused BadSegment at offset 64\n"


def cut_files(place):
    """The first n bytes of a file of 188, for each n."""
    for order in orders_over_files(place):
        for n in range(len(FRAME)):
            place.put("file.elf", FRAME[:n])
            place.asks(order, cut_refusal(n), about=f"of {n} bytes")


# A field of the small file's headers, the bytes that are put there, and the line.
HEADERS = [
    ("magic", 0, b"\x7fELf", "NotElf at offset 0"),
    ("class", 4, b"\1", "NotClass64 1 at offset 4"),
    ("data", 5, b"\2", "NotLittle 2 at offset 5"),
    ("e_type", 16, number(3, 2), "NotExec 3 at offset 16"),
    ("e_machine", 18, number(62, 2), "NotRiscv 62 at offset 18"),
    ("e_flags", 48, number(8, 4), "Rve at offset 48"),
    ("e_phentsize", 54, number(55, 2), "BadHeaderTable at offset 54"),
    ("e_phnum", 56, number(65535, 2), "BadHeaderTable at offset 32"),
    ("e_phnum", 56, number(0, 2), "NoCode 0x10078 at offset 24"),
    ("e_phoff", 32, number(2**64 - 1, 8), "BadHeaderTable at offset 32"),
    ("e_entry", 24, number(0x1007A, 8), "NoCode 0x1007a at offset 24"),
    ("p_type", 64, number(2, 4), "Dynamic at offset 64"),
    ("p_type", 64, number(3, 4), "Dynamic at offset 64"),
    ("p_flags", 68, number(6, 4), "NoCode 0x10078 at offset 24"),
    ("p_vaddr", 80, number(2**64 - 8, 8), "BadSegment at offset 64"),
    ("p_filesz", 96, number(2**64 - 1, 8), "BadSegment at offset 64"),
    ("p_memsz", 104, number(127, 8), "BadSegment at offset 64"),
    ("p_filesz, p_memsz", 96, number(0, 8) * 2, "NoCode 0x10078 at offset 24"),
]


def headers(place):
    """One field of the headers at a time."""
    for order in orders_over_files(place):
        for field, at, change, line in HEADERS:
            place.put("file.elf", with_header(FIVE, at, change))
            place.asks(order, (1, f"refused {line}\n"), about=field)


def a_segment_of_half_of_memory(place):
    """p_memsz 2^63: behind the stored bytes there are zeros, which are no instruction."""
    file = elf([0x00000513])
    place.put("file.elf", with_header(file, 104, number(2**63, 8)))
    for order in orders_over_files(place):
        place.asks(order, (1, "refused NoInstruction 00000000 at 0x1007c\n"))


def a_run_in_half_of_memory(place):
    """The machine has pages for stored bytes alone: a run of such a file, where 64 megabytes of addresses are allowed."""
    place.put("file.elf", with_header(FIVE, 104, number(2**63, 8)))
    place.put("file.report", FIVE_REPORT)
    verdict = (0, "affine-run 1\nsteps 1\nstop break 0x1007c\nend\n")
    arguments = ["run", "file.elf", "file.report", "--steps", "9"]
    place.wants("run", verdict, place.call(arguments, preexec_fn=lambda: resource.setrlimit(resource.RLIMIT_AS, (2**26, 2**26))))


def cut_report(front):
    """The line of a report that was cut: it is its last line, which is unfinished or missing. But of the two rows with the
    leads 4 and 2^62 the first alone is no reduced basis, and rows are judged before the line that follows them."""
    lines = front.split("\n")
    if len(lines) > 1 and lines[-2] == QUARTER[0]:
        point = max(i for i, line in enumerate(lines) if line.startswith("at ") and i < len(lines) - 1)
        return 6, f"refused report NotReduced {point + 1}\n"
    return 6, f"refused report Syntax {len(lines)}\n"


def cut_reports(place):
    """The first n bytes of a report, for each n, of both versions where the order reads both."""
    for order in OVER_REPORTS:
        texts = [ORDERS[order][1]]
        if order == "run":
            place.put("recursion.elf", RECURSION)
            texts += [FRAME_OLD, RECURSION_REPORT, without_certificates(RECURSION_REPORT)]
        for text in texts:
            file = "recursion.elf" if RECURSION_LIST in text else "file.elf"
            for n in range(len(text)):
                place.put("file.report", text[:n])
                place.asks(order, cut_report(text[:n]), file, about=f"of {n} bytes")


def written_elsewhere(place):
    """Lines that end with a carriage return, a byte order mark, no last newline, a NUL, bytes that are no text, blank lines."""
    for order in OVER_REPORTS:
        text = ORDERS[order][1]
        lines = text.count("\n")
        nul = text.replace("track sp", "track\0sp", 1)
        assert nul != text
        changed = {
            "with CRLF": (text.replace("\n", "\r\n"), 1),
            "with CR": (text.replace("\n", "\r"), 1),
            "with a mark": ("\ufeff" + text, 1),
            "in UTF-16": (text.encode("utf-16-le"), 1),
            "with no last newline": (text[:-1], lines),
            "with a NUL": (nul, 2),
            "with a NUL behind it": (text + "\0", lines + 1),
            "with a blank line": (text + "\n", lines + 1),
            "with a byte 255": (text.encode()[:-4] + b"\xff\n", lines),
            "twice": (text + text, lines + 1),
            "with CRLF on the last line alone": (text[:-1] + "\r\n", lines),
        }
        for about, (report, line) in changed.items():
            place.put("file.report", report)
            place.asks(order, (6, f"refused report Syntax {line}\n"), about=about)


def exchanged(place):
    """FILE and REPORT exchanged, and one name for both."""
    for order in OVER_REPORTS:
        place.put_report(order)
        place.asks(order, (1, "refused NotElf at offset 0\n"), "file.report", "file.elf", "exchanged")
        place.asks(order, (6, "refused report Syntax 1\n"), "file.elf", "file.elf", "twice")


# What FILE and REPORT may be.


def sparse(place, name, length):
    with open(place.path(name), "wb") as out:
        out.truncate(length)


def absent(place):
    """A name that isn't there, an empty name, one that is too long, one whose link goes nowhere or round."""
    os.symlink("nowhere", place.path("dangling"))
    os.symlink("round", place.path("round"))
    for name in ["absent", "", "x" * 5000, "file.elf/x", "dangling", "round"]:
        for order in orders_over_files(place):
            place.asks(order, READ_FAULT, file=name, about=name[:20])
        for order in OVER_REPORTS:
            place.asks(order, READ_FAULT, report=name, about=name[:20])


def folder(place):
    os.mkdir(place.path("folder"))
    for order in orders_over_files(place):
        place.asks(order, READ_FAULT, file="folder")
    for order in OVER_REPORTS:
        place.asks(order, READ_FAULT, report="folder")


def lowered():
    if os.getuid() == 0:
        os.setgroups([])
        os.setgid(65534)
        os.setuid(65534)


def unreadable(place):
    """A file that may not be read, also where this script is run by root."""
    os.chmod(place.folder, 0o755)
    for name in ["file.elf", "file.report"]:
        place.put(name, FRAME)
        os.chmod(place.path(name), 0)
    for order in OVER_FILES:
        place.asks(order, READ_FAULT, preexec_fn=lowered)
    os.chmod(place.path("file.elf"), 0o644)
    for order in OVER_REPORTS:
        place.asks(order, READ_FAULT, preexec_fn=lowered)


def empty(place):
    place.put("empty", "")
    for name in ["empty", "/dev/null"]:
        for order in orders_over_files(place):
            place.asks(order, cut_refusal(0), file=name)
        for order in OVER_REPORTS:
            place.asks(order, (6, "refused report Syntax 1\n"), report=name)


def zeros(place):
    """2^24 zeros, one more, and zeros without end."""
    sparse(place, "zeros", 2**24)
    sparse(place, "more", 2**24 + 1)
    for order in orders_over_files(place):
        place.asks(order, (1, "refused NotElf at offset 0\n"), file="zeros")
        place.asks(order, TOO_LONG, file="more")
        place.asks(order, TOO_LONG, file="/dev/zero", about="of zeros without end")


def long_reports(place):
    """2^28 zeros, one more, and zeros without end."""
    sparse(place, "zeros", LONGEST_REPORT)
    sparse(place, "more", LONGEST_REPORT + 1)
    for order in OVER_REPORTS:
        place.asks(order, (6, "refused report Syntax 1\n"), report="zeros")
        place.asks(order, (6, f"refused report TooLong {LONGEST_REPORT}\n"), report="more")
        place.asks(order, (6, f"refused report TooLong {LONGEST_REPORT}\n"), report="/dev/zero")


def other_files(place):
    """What has the wrong form from its first bytes on: a text, an archive, the program itself, a script."""
    place.put("text", "        .globl _start\n" * 9)
    place.put("archive", b"!<arch>\n" + bytes(80))
    place.put("script", "#!/bin/sh\n" + "# nothing here\n" * 9)
    for order in orders_over_files(place):
        for name in ["text", "archive", "script"]:
            place.asks(order, (1, "refused NotElf at offset 0\n"), file=name)
        place.asks(order, (1, "refused NotExec 3 at offset 16\n"), file="program", about="over itself")


def pipes(place):
    """FILE or REPORT from standard input: it is read once, ahead."""
    for order in orders_over_files(place):
        place.asks(order, whole(order), file="/dev/stdin", about="from a pipe", input=FRAME)
        with open(place.path("file.elf"), "rb") as file:
            place.asks(order, whole(order), file="/dev/stdin", about="from a file", stdin=file)
        place.asks(order, cut_refusal(0), file="/dev/stdin", about="from an empty pipe", input=b"")
    for order in OVER_REPORTS:
        report = ORDERS[order][1].encode()
        place.asks(order, whole(order), report="/dev/stdin", about="of a report from a pipe", input=report)
        place.asks(order, (6, "refused report Syntax 1\n"), "/dev/stdin", "/dev/stdin", "twice", input=FRAME)


def slow_pipes(place):
    """A pipe that is written in two parts, with time between them, and one of a byte at a time."""

    def write(name, parts, wait):
        with open(place.path(name), "wb", buffering=0) as out:
            for part in parts:
                out.write(part)
                time.sleep(wait)

    parts = {"halves": ([FRAME[:100], FRAME[100:]], 0.05), "bytes": ([FRAME[i:i + 1] for i in range(len(FRAME))], 0)}
    for name, (pieces, wait) in parts.items():
        os.mkfifo(place.path(name))
        for order in orders_over_files(place):
            writer = threading.Thread(target=write, args=(name, pieces, wait))
            writer.start()
            place.asks(order, whole(order), file=name)
            writer.join()


def growing_and_shrinking(place):
    """A file that another writes while it is read: each answer is that of a front of the file."""
    fronts = {cut_refusal(n) for n in range(100, len(FRAME))}
    stop = threading.Event()

    def rewrite():
        with open(place.path("changing"), "r+b", buffering=0) as file:
            while not stop.is_set():
                for n in range(100, len(FRAME)):
                    os.pwrite(file.fileno(), FRAME[n:n + 1], n)
                for n in range(len(FRAME) - 1, 99, -1):
                    file.truncate(n)

    place.put("changing", FRAME[:100])
    writer = threading.Thread(target=rewrite)
    writer.start()
    try:
        for order in orders_over_files(place):
            for _ in range(60):
                got = place.call(words(order, "changing"))
                if got not in fronts and got != whole(order):
                    place.faults.append(f"{order}: {got!r} is the answer of no front")
    finally:
        stop.set()
        writer.join()


def growing_without_end(place):
    """A file to which another appends while it is read: too long, or the answer of a front, and always an end."""
    stop = threading.Event()
    long_line = (1, "refused NotElf at offset 0\n")

    def append():
        with open(place.path("growing"), "ab", buffering=0) as file:
            while not stop.is_set() and file.tell() < 2**25:
                file.write(bytes(2**16))

    sparse(place, "growing", 2**24 - 2**16)
    writer = threading.Thread(target=append)
    writer.start()
    try:
        for order in orders_over_files(place):
            got = place.call(words(order, "growing"))
            if got not in (TOO_LONG, long_line):
                place.faults.append(f"{order}: {got!r}")
    finally:
        stop.set()
        writer.join()


# What the arguments may be.


def arguments(place):
    """Arguments that are no order, and bytes that are no text."""
    for given in [[], [""], ["frob"], ["--help"], ["-V"], ["list"], ["list", "file.elf", "file.elf"], ["list", b"\xff.elf"], [b"\xff"]]:
        place.wants(f"{given}", (2, USAGE), place.call(given))
    place.put("-x", FRAME)
    place.wants("list -x", (2, USAGE), place.call(["list", "-x"]))
    place.wants("list -- -x", whole("list"), place.call(["list", "--", "-x"]))


# What standard output may be.


def ends_with(place, order, status, stdout=None, about="", **options):
    """Whether the order ends with this status over this output."""
    place.calls += 1
    call = subprocess.run([place.program] + words(order), cwd=place.folder, stdout=stdout, timeout=120, check=False, **options)
    place.wants(f"{order} {about}", status, call.returncode)


def full_outputs(place):
    """No room at all."""
    for order in ORDERS:
        place.put_report(order)
        with open("/dev/full", "wb") as full:
            ends_with(place, order, 4, full)
    with open("/dev/full", "wb") as full:
        place.put("file.elf", "")
        ends_with(place, "list", 4, full, "of a refusal")


def outputs_with_little_room(place):
    """Room for n bytes, for n below the text's length: a front of the text, and status 4, or the system's signal for it."""
    for order in ORDERS:
        place.put_report(order)
        text = ORDERS[order][2]
        for n in {0, 1, 10, len(text) // 2, len(text) - 1}:
            for handler, status in [(signal.SIG_IGN, 4), (signal.SIG_DFL, -signal.SIGXFSZ)]:
                with open(place.path("out"), "wb") as out:
                    ends_with(place, order, status, out, f"with room for {n}", restore_signals=False, preexec_fn=limited(n, handler))
                with open(place.path("out"), "rb") as out:
                    place.wants(f"{order} with room for {n}", text[:n], out.read().decode())


def limited(n, handler):
    def limit():
        signal.signal(signal.SIGXFSZ, handler)
        resource.setrlimit(resource.RLIMIT_FSIZE, (n, n))
    return limit


def closed_outputs(place):
    """Standard output is closed, or is open for reading alone: nothing can be said, and the status says so."""
    for order in ORDERS:
        place.put_report(order)
        ends_with(place, order, 4, None, "closed", preexec_fn=lambda: os.close(1))
        with open(place.path("file.elf"), "rb") as file:
            ends_with(place, order, 4, file, "read only")
        with open(place.path("file.elf"), "rb") as file:
            place.wants(f"{order} and the file", FRAME, file.read())


def closed_inputs(place):
    """Standard input and error are closed: nothing is read from the one or written to the other."""
    for order in ORDERS:
        place.put_report(order)
        place.asks(order, whole(order), about="with no input", preexec_fn=lambda: os.close(0))
        place.asks(order, whole(order), about="with no error", preexec_fn=lambda: (os.close(0), os.close(2)))
        ends_with(place, order, 4, None, "with none", preexec_fn=lambda: (os.close(0), os.close(1), os.close(2)))
    with open(place.path("file.elf"), "rb") as file:
        place.wants("the file", FRAME, file.read())


def gone_readers(place):
    """Whoever reads a pipe has gone: the write fails, whether the caller ignores the signal for it or not."""
    for order in ORDERS:
        place.put_report(order)
        for ignored in [True, False]:
            reading, writing = os.pipe()
            os.close(reading)
            options = {"restore_signals": not ignored}
            if ignored:
                options["preexec_fn"] = lambda: signal.signal(signal.SIGPIPE, signal.SIG_IGN)
            place.calls += 1
            call = subprocess.run([place.program] + words(order), cwd=place.folder, stdout=writing, check=False, **options)
            os.close(writing)
            place.wants(order, 4, call.returncode)


# Signals.

ENDLESS = elf([jal(ZERO, 0)])
ENDLESS_REPORT = "affine-report 2\ntrack a0\nproc 0x10078\nat 0x10078\nnone\nend\n"


def interrupted_runs(place):
    """A run of 10^9 steps that a signal ends has said nothing."""
    place.put("file.elf", ENDLESS)
    place.put("file.report", ENDLESS_REPORT)
    for number_of in [signal.SIGINT, signal.SIGTERM, signal.SIGKILL, signal.SIGHUP]:
        place.calls += 1
        arguments = [place.program, "run", "file.elf", "file.report", "--steps", "1000000000"]
        run = subprocess.Popen(arguments, cwd=place.folder, stdout=subprocess.PIPE)
        time.sleep(0.2)
        run.send_signal(number_of)
        text, _ = run.communicate(timeout=60)
        place.wants(f"{number_of.name}", (-number_of, b""), (run.returncode, text))


def straight(points):
    """A file with so many points, in a row, and its report and list."""
    addresses = [ENTRY + 4 * i for i in range(points)]
    report = [f"at {a:#x}\nnone\n" for a in addresses]
    lines = [f"{a:#x} 00050513 addi a0,a0,0\n" for a in addresses[:-1]] + [f"{addresses[-1]:#x} 00100073 ebreak\n"]
    texts = ["affine-report 2\ntrack a0\n" + f"proc {ENTRY:#x}\n" + "".join(report) + "end\n"]
    texts += ["affine-list 1\n" + f"proc {ENTRY:#x}\n" + "".join(lines) + "end\n"]
    return elf([0x00050513] * (points - 1) + [EBREAK]), *texts


def interrupted_texts(place):
    """A signal that comes while a text is written leaves a front of it, which doesn't end as a whole text does, and which no
    order takes for one."""
    file, text, _ = straight(16384)
    place.put("file.elf", file)
    arguments = [place.program, "analyse", "file.elf", "--track", "a0"]
    run = subprocess.Popen(arguments, cwd=place.folder, stdout=subprocess.PIPE)
    first = os.read(run.stdout.fileno(), 1000)
    time.sleep(0.2)
    run.send_signal(signal.SIGTERM)
    rest, _ = run.communicate(timeout=60)
    got = (first + rest).decode()
    place.calls += 2
    place.wants("the status", -signal.SIGTERM, run.returncode)
    if not text.startswith(got) or got == text or got.endswith("end\n"):
        place.faults.append(f"{len(got)} bytes of {len(text)}, the last {got[-20:]!r}")
    place.put("file.report", got)
    wanted = (6, f"refused report Syntax {got.count(chr(10)) + 1}\n")
    place.wants("the front", wanted, place.call(["run", "file.elf", "file.report", "--steps", "1"]))


def suspended_runs(place):
    """A run that is stopped and goes on says what it would have said."""
    place.put("file.elf", COUNTING)
    place.put("file.report", COUNTING_REPORT)
    arguments = [place.program, "run", "file.elf", "file.report", "--steps", "2000000", "--regs", "a1=4000000"]
    place.calls += 1
    run = subprocess.Popen(arguments, cwd=place.folder, stdout=subprocess.PIPE)
    time.sleep(0.02)
    run.send_signal(signal.SIGSTOP)
    time.sleep(0.1)
    run.send_signal(signal.SIGCONT)
    text, _ = run.communicate(timeout=60)
    place.wants("run", (0, b"affine-run 1\nsteps 1000001\nstop break 0x10084\nend\n"), (run.returncode, text))


def little_memory(place):
    """Where the system gives little memory an order says so, with its line and its status, or does all that it does."""
    file, report, listed = straight(16384)
    place.put("file.elf", file)
    for arguments, text in [(["analyse", "file.elf", "--track", "a0"], report), (["list", "file.elf"], listed)]:
        told = set()
        for megabytes in range(4, 80, 4):
            limit = (megabytes * 2**20,) * 2
            told.add(place.call(arguments, preexec_fn=lambda: resource.setrlimit(resource.RLIMIT_AS, limit)))
        if told != {(5, "out of memory\n"), (0, text)}:
            place.faults.append(f"{arguments[0]}: {[(status, said[:40]) for status, said in told]}")


TESTS = [
    whole_answers, cut_files, headers, a_segment_of_half_of_memory, a_run_in_half_of_memory, cut_reports, written_elsewhere, exchanged,
    absent, folder, unreadable, empty, zeros, long_reports, other_files, pipes, slow_pipes, growing_and_shrinking, growing_without_end,
    arguments, full_outputs, outputs_with_little_room, closed_outputs, closed_inputs, gone_readers, interrupted_runs, interrupted_texts,
    suspended_runs, little_memory,
]


def ran(program, test):
    since = time.monotonic()
    with tempfile.TemporaryDirectory() as folder_of_test:
        place = Place(program, folder_of_test)
        test(place)
    seconds = time.monotonic() - since
    print(f"{'FAILED' if place.faults else 'passed'}  {test.__name__}  {place.calls} calls, {seconds:.1f} s", flush=True)
    for fault in place.faults[:5]:
        print("        " + fault[:400])
    return not place.faults


def main():
    if len(sys.argv) < 2:
        sys.exit(__doc__)
    tests = {test.__name__: test for test in TESTS}
    passed = [ran(os.path.abspath(sys.argv[1]), tests[name]) for name in sys.argv[2:] or tests]
    print(f"{sum(passed)} passed, {len(passed) - sum(passed)} failed")
    sys.exit(0 if all(passed) else 1)


if __name__ == "__main__":
    main()
