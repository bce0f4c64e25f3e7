#!/usr/bin/env python3
"""What `make` says of files that no order can be done on: each says what to do, or where to read it.

    messages.py     at the repository's top, where `make build` has been through

Each case is a file, the line that the program prints, or none where it isn't begun, and words that stand in what make says.
"""
import os
import subprocess
import sys
import tempfile

from worked import FIVE, number, with_header

TOP = os.path.join(os.path.dirname(os.path.abspath(__file__)), "..")

# What FILE is, its bytes, or none, the program's line, and words of the message.
CASES = [
    ("not there", None, "", "isn't there"),
    ("a folder", "folder", "", "is a folder"),
    ("an empty file", b"", "refused Short 0 at offset 0\n", "An empty or a cut file"),
    ("a text file", b"        .globl _start\n" * 9, "refused NotElf at offset 0\n", "A text file does this"),
    ("an archive", b"!<arch>\n" + bytes(80), "refused NotElf at offset 0\n", "an archive .a"),
    ("an object file", with_header(FIVE, 16, number(1, 2)), "refused NotExec 1 at offset 16\n", "For an object file: link it"),
    ("a PIE", with_header(FIVE, 16, number(3, 2)), "refused NotExec 3 at offset 16\n", "Link with -static -no-pie"),
    ("a 32-bit file", with_header(FIVE, 4, b"\1"), "refused NotClass64 1 at offset 4\n", "An ELF file of 32 bits"),
    ("another machine's", with_header(FIVE, 18, number(62, 2)), "refused NotRiscv 62 at offset 18\n", "Build with --target=riscv64"),
    ("a dynamic one", with_header(FIVE, 64, number(3, 4)), "refused Dynamic at offset 64\n", "Link statically"),
    ("code with a CSR", with_header(FIVE, 120, number(0x30529073, 4)), "refused NoInstruction 30529073 at 0x10078\n", "RV64IM"),
    ("a pointer's call", with_header(FIVE, 120, number(0x000780E7, 4)), "refused IndirectJump a5 at 0x10078\n", "function pointer"),
]


def says(path, line, words):
    """What is wrong with what make says of the file, or nothing."""
    environment = {name: value for name, value in os.environ.items() if not name.startswith(("MAKE", "MFLAGS"))}
    call = subprocess.run(
        ["make", "-s", "list", f"FILE={path}"], cwd=TOP, env=environment, stdout=subprocess.PIPE, stderr=subprocess.PIPE, check=False
    )
    told = " ".join(call.stderr.decode().replace("make:", " ").split())
    if call.stdout.decode() != line or words not in told or (call.returncode == 0) != (line != ""):
        return f"{call.returncode}, {call.stdout.decode()!r}, {told!r}"
    return ""


def main():
    passed = failed = 0
    with tempfile.TemporaryDirectory() as folder:
        for name, contents, line, words in CASES:
            path = os.path.join(folder, name.replace(" ", "-"))
            if contents == "folder":
                os.mkdir(path)
            elif contents is not None:
                with open(path, "wb") as out:
                    out.write(contents)
            fault = says(path, line, words)
            passed, failed = passed + (not fault), failed + bool(fault)
            print(f"{'FAILED' if fault else 'passed'}  make list of {name}{'  ' + fault if fault else ''}")
    print(f"{passed} passed, {failed} failed")
    sys.exit(1 if failed else 0)


if __name__ == "__main__":
    main()
