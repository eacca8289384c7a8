#!/usr/bin/env python3
"""Whether the table of docs/REUSE.md says what has to be copied to use a crate, and what HANDLES has to allow for it.

    docs/check_reuse.py

Of each row: the first name in its second column is a crate, and all names there are to be that crate and those below it by
crates.txt. A name behind "those of" stands for all that the row with this crate lists. The third column is to be what the
sources of these crates take of std to start threads, to wait and to open sockets.

Prints what is not so, and ends with status 1 where something is not so.
"""
import glob
import os
import re
import sys

ROOT = os.path.dirname(os.path.dirname(os.path.abspath(__file__)))
NAME = re.compile(r"`([^`]+)`")
HANDLES = ("Threads", "Wait", "Net")


def read(path):
    with open(os.path.join(ROOT, path), encoding="utf-8") as text:
        return text.read()


def lines_of_crates():
    """On which crates of this repository each of them stands, by its line."""
    lines = [line.split(":") for line in read("crates.txt").split("\n") if line and not line.startswith("#")]
    words = {line[0].split()[0]: line[1].split() for line in lines}
    return {crate: [word for word in below if word in words] for crate, below in words.items()}


def closed(below, crate):
    """The crate and all below it."""
    found, left = set(), [crate]
    while left:
        name = left.pop()
        if name not in found:
            found.add(name)
            left += below[name]
    return found


def handles_of(crates):
    """What the sources of these crates take of std."""
    paths = [path for crate in crates for path in glob.glob(os.path.join(ROOT, "crates", crate, "src/**/*.rt"), recursive=True)]
    uses = " ".join(use for path in paths for use in re.findall(r"^use std::[^;]*;", read(path), re.MULTILINE))
    return {handle for handle in HANDLES if re.search(rf"\b{handle}\b", uses)}


def rows():
    """The rows of the table: what is copied, and what has to be allowed."""
    lines = read("docs/REUSE.md").partition("| What | Copy |")[2].split("\n")[2:]
    table = lines[: next(number for number, line in enumerate(lines) if not line.startswith("|"))]
    return [line.strip("| ").split(" | ")[1:] for line in table]


def listed(column, columns):
    """All crates that a column names, with those of the rows that it refers to."""
    names, _, others = column.partition("those of")
    found = set(NAME.findall(names))
    for other in NAME.findall(others):
        found |= listed(columns[other], columns) if other in columns else {f"the row of {other}"}
    return found


def untrue(copy, allow, columns, below):
    """What a row says that is not so."""
    crate, names = NAME.findall(copy)[0], listed(copy, columns)
    if crate not in below:
        yield f"no crate: {crate}"
        return
    needed = closed(below, crate)
    yield from (f"{crate}: not named: {name}" for name in sorted(needed - names))
    yield from (f"{crate}: named, and not below it: {name}" for name in sorted(names - needed))
    handles, allowed = handles_of(needed), set(NAME.findall(allow))
    yield from (f"{crate}: not allowed: {name}" for name in sorted(handles - allowed))
    yield from (f"{crate}: allowed, and not taken: {name}" for name in sorted(allowed - handles))


def main():
    table, below = rows(), lines_of_crates()
    columns = {NAME.findall(copy)[0]: copy for copy, _ in table}
    wrong = [one for copy, allow in table for one in untrue(copy, allow, columns, below)]
    print("\n".join([*wrong, f"rows {len(table)} untrue {len(wrong)}"]))
    sys.exit(1 if wrong else 0)


main()
