#!/usr/bin/env python3
"""Whether each atomic step of the sources has the order SeqCst, by which the reasons go that no wake-up is lost.

    docs/check_orders.py

A step of a weaker order does the same in every test on processors that order stores as x86-64 does. Prints each line of a crate
that names another order, and ends with status 1 where there is one.
"""
import glob
import os
import re
import sys

ROOT = os.path.dirname(os.path.dirname(os.path.abspath(__file__)))
WEAKER = re.compile(r"\b(Relaxed|Acquire|Release|AcqRel)\b")
STEPS = re.compile(r"\bSeqCst\)")


def lines_of(path):
    with open(path, encoding="utf-8") as source:
        return [(number, line.strip()) for number, line in enumerate(source, 1) if not line.strip().startswith("//")]


def main():
    wrong, count = [], 0
    for path in sorted(glob.glob(os.path.join(ROOT, "crates/*/src/**/*.rt"), recursive=True)):
        lines = lines_of(path)
        count += sum(len(STEPS.findall(line)) for _, line in lines)
        wrong += [f"{os.path.relpath(path, ROOT)}:{number}: {line}" for number, line in lines if WEAKER.search(line)]
    print("\n".join([*wrong, f"steps {count} of a weaker order {len(wrong)}"]))
    sys.exit(1 if wrong or not count else 0)


main()
