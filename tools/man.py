#!/usr/bin/env python3
"""A page of docs/ as a manual page.

    man.py PAGE.md     prints it, for man(1)

The page has one heading, the program's name, and a line on it; then sections. What it may have else: paragraphs, tables of
two columns, whose head is left out, blocks of four spaces, and words between backquotes or two stars.
"""
import os
import re
import sys

TOP = os.path.join(os.path.dirname(os.path.abspath(__file__)), "..")


def escaped(text):
    text = text.replace("\\", "\\e").replace("-", "\\-")
    return "\\&" + text if text[:1] in (".", "'") else text


def inline(text):
    parts = re.split(r"(`[^`]*`|\*\*[^*]*\*\*)", text)
    return "".join(f"\\fB{escaped(part.strip('`*'))}\\fR" if part[:1] in ("`", "*") and part else escaped(part) for part in parts)


def blocks(lines):
    """Runs of lines of one kind: a heading, a table, a block of code, a paragraph."""
    kind, run = None, []
    for line in lines + [""]:
        of = "head" if line.startswith("#") else "table" if line.startswith("|") else "code" if line.startswith("    ") else "text" if line else None
        if run and of != kind:
            yield kind, run
            run = []
        kind = of
        if of:
            run.append(line)


def page(name, lines):
    with open(os.path.join(TOP, "VERSION"), encoding="utf-8") as version:
        number = version.readline().strip()
    yield f'.TH {name.upper()} 1 "" "{name} {number}" "User commands"'
    first = True
    for kind, run in blocks(lines):
        if kind == "head":
            if run[0].startswith("## "):
                yield f".SH {escaped(run[0][3:].upper())}"
        elif first:
            yield ".SH NAME"
            yield f"{escaped(name)} \\- {inline(' '.join(run))}"
            first = False
        elif kind == "table":
            for row in run[2:]:
                term, *rest = [cell.strip() for cell in row.strip("|").split("|")]
                yield from [".TP", inline(term), inline("; ".join(rest))]
        elif kind == "code":
            yield from [".PP", ".nf", ".RS 4"] + [escaped(line[4:]) for line in run] + [".RE", ".fi"]
        else:
            yield from [".PP", inline(" ".join(run))]


def main():
    if len(sys.argv) != 2:
        sys.exit(__doc__)
    with open(sys.argv[1], encoding="utf-8") as source:
        lines = source.read().split("\n")
    for line in page(lines[0].lstrip("# "), lines):
        print(line)


if __name__ == "__main__":
    main()
