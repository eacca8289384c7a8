#!/usr/bin/env python3
"""Which functions of a crate the prover takes longest for.

    (cd crates/NAME && rm -rf out/incremental && rt check --jobs 1)
    python3 bench/slow.py NAME [HOW MANY]

A check keeps what it proved in files, one after the other where it runs alone, so the times between them are those that
their functions took. The kinds say at what: `Lts` and `Tie` are the borrow checker's part of a function, which grows with
the values that are alive at each early return; `Proof` and `Answers` are the search for proofs and those that are written
down.
"""
import os
import re
import sys
from collections import Counter

KINDS = ("Lts", "Tie", "Layout", "Code", "Given", "Goals", "Answers", "Proof", "Met", "Statement")
# A gap that is longer is none: another check ran meanwhile, or the folder is of two.
LONGEST = 150


def files_of(folder):
    """The files of what was proved, by when they were written."""
    found = []
    for at, _, names in os.walk(folder):
        for name in names:
            if name.endswith(".oantt"):
                found.append((os.stat(os.path.join(at, name)).st_mtime, name))
    return sorted(found)


def function_of(name):
    """The function that a file is of, and which part of its check."""
    name = re.sub(r"^Rattle-\w+-(proofs|specs)\.", "", name)
    for part in name.split("."):
        if part in KINDS:
            return name.split("." + part)[0], part
    return name.removesuffix(".oantt"), "other"


def main():
    if len(sys.argv) < 2:
        sys.exit(__doc__)
    crate, most = sys.argv[1], int(sys.argv[2]) if len(sys.argv) > 2 else 20
    root = os.path.dirname(os.path.dirname(os.path.abspath(__file__)))
    found = files_of(os.path.join(root, "crates", crate, "out", "incremental"))
    functions, kinds = Counter(), Counter()
    for (before, _), (after, name) in zip(found, found[1:]):
        if after - before < LONGEST:
            function, kind = function_of(name)
            functions[function] += after - before
            kinds[kind] += after - before
    print(f"{crate}: {sum(kinds.values()):.0f} s:", ", ".join(f"{kind} {time:.0f}" for kind, time in kinds.most_common()))
    for function, time in functions.most_common(most):
        print(f"{time:8.1f} s  {function}")


main()
