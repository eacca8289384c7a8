#!/usr/bin/env python3
"""What planted wrong bodies find: runs `rt plant` in crates and prints what their contracts let through.

    python3 bench/plants.py [--minutes 10] [--jobs 1] [NAME ..]

`rt plant` replaces a function's body by a wrong one, a plant, and tells whether the contract lets it through. With no name it
goes through all crates of crates.txt. For each crate it prints the last line of `rt plant`, which counts, and each plant that
was let through (`proves`), each function without a clause (`no-ensures`), and each of which no plant could be judged
(`untested`). docs/PROMISES.md says why those that are let through are right, or what else rules them out.
"""

import os
import re
import subprocess

from common import given_words

ROOT = os.path.dirname(os.path.dirname(os.path.abspath(__file__)))
ROWS = re.compile(r"\s*(no-ensures|untested|proves)\b")


def crates():
    """The crates of crates.txt, lowest first."""
    with open(os.path.join(ROOT, "crates.txt"), encoding="utf-8") as f:
        return [line.split(":")[0].split()[0] for line in f if line.strip() and not line.startswith("#")]


def planted(name, minutes, jobs):
    """The rows and the last line of a run."""
    command = ["rt", "plant", "--minutes", str(minutes), "--jobs", str(jobs)]
    run = subprocess.run(command, cwd=os.path.join(ROOT, "crates", name), capture_output=True, text=True)
    lines = [line for line in run.stdout.split("\n") if line.strip()]
    if run.returncode or not lines:
        raise SystemExit(f"plants.py: {name}: {(lines or run.stderr.split(chr(10)))[-1]}")
    return [line.strip() for line in lines if ROWS.match(line)], lines[-1].strip()


def main():
    options = given_words("names", "*", minutes=10, jobs=1)
    for name in options.names or crates():
        rows, last = planted(name, options.minutes, options.jobs)
        print("\n".join([last, *("    " + row for row in rows)]), flush=True)


if __name__ == "__main__":
    main()
