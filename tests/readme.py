#!/usr/bin/env python3
"""Each command of pages, as it stands there, with what the page shows of it.

    readme.py PAGE.md .. [--all]

A command is a line `$ ..` of an indented block, with the lines up to END where it has `<<'END'`. The lines below it are what
it prints on standard output, where a line `...` stands for any lines; with none, it is only to end well. The commands run one after the
other in a copy of the repository, with a folder of its own as HOME, whose .local/bin is looked in first. One whose program isn't installed is passed over, and
so are those that take long, but with --all.
"""
import os
import re
import shutil
import subprocess
import sys
import tempfile

TOP = os.path.join(os.path.dirname(os.path.abspath(__file__)), "..")
PROGRAMS = ["crates/analyser_main/out/analyser_main", "crates/abi_check/out/abi_check"]
LONG = ["make build", "rt ci", "make edits", "make test"]


def commands(lines):
    """Each command with what is shown of it."""
    found, open_block, here = [], False, None
    for line in lines:
        if not line.startswith("    "):
            open_block = open_block and not line.strip()
            here = None
            continue
        line = line[4:]
        if here is not None:
            found[-1][0] += "\n" + line
            here = None if line == here else here
        elif line.startswith("$ "):
            found.append([line[2:], []])
            heredoc = re.search(r"<<'(\w+)'", line)
            here = heredoc.group(1) if heredoc else None
            open_block = True
        elif open_block:
            found[-1][1].append(line)
    return found


def agrees(shown, told):
    """Whether the lines are those that are shown, `...` being any lines."""
    if not shown:
        return not told
    if shown[0] == "...":
        return any(agrees(shown[1:], told[i:]) for i in range(len(told) + 1))
    return bool(told) and told[0] == shown[0] and agrees(shown[1:], told[1:])


def copied(folder):
    """A copy of the repository, with the built programs where they are there."""
    place = os.path.join(folder, "repository")
    shutil.copytree(TOP, place, ignore=shutil.ignore_patterns("out", ".git", "__pycache__"))
    for program in PROGRAMS:
        if os.path.exists(os.path.join(TOP, program)):
            os.makedirs(os.path.dirname(os.path.join(place, program)))
            shutil.copy2(os.path.join(TOP, program), os.path.join(place, program))
    return place


def main():
    if len(sys.argv) < 2:
        sys.exit(__doc__)
    found = []
    for name in sys.argv[1:]:
        if name != "--all":
            with open(name, encoding="utf-8") as page:
                found += commands(page.read().split("\n"))
    passed = failed = over = 0
    with tempfile.TemporaryDirectory() as folder:
        place = copied(folder)
        environment = {name: value for name, value in os.environ.items() if not name.startswith(("MAKE", "MFLAGS"))} | {"HOME": folder}
        environment["PATH"] = os.path.join(folder, ".local", "bin") + ":" + environment["PATH"]
        for name in ("FILE", "TRACK", "REPORT", "STEPS", "REGS"):
            environment.pop(name, None)
        for command, shown in found:
            title = command.split("\n")[0]
            if title in LONG and "--all" not in sys.argv or shutil.which(title.split(" ")[0], path=environment["PATH"]) is None:
                over += 1
                print(f"passed over  {title}", flush=True)
                continue
            run = subprocess.run(["bash", "-c", command], cwd=place, env=environment, stdout=subprocess.PIPE, stderr=subprocess.PIPE, check=False)
            told = run.stdout.decode().split("\n")[:-1]
            good = run.returncode == 0 and (not shown or agrees(shown, told))
            passed, failed = passed + good, failed + (not good)
            print(f"{'passed' if good else 'FAILED'}  {title}", flush=True)
            if not good:
                print(f"        status {run.returncode}; shown {shown}, told {told[:20]}, {run.stderr.decode()[:600]}")
    print(f"{passed} passed, {failed} failed, {over} passed over")
    sys.exit(1 if failed else 0)


if __name__ == "__main__":
    main()
