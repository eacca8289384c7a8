#!/usr/bin/env python3
"""Tries the wrong bodies that the gate does not: those of bench/wrong/, which the prover has to refuse too.

    python3 bench/wrong.py [--jobs N] [CRATE ..]
    python3 bench/wrong.py --fit                  # only whether each still fits the sources, and each of must-fail/, as the gate does

bench/wrong/CRATE/ has edits in the form of those of crates/CRATE/must-fail/. With no name it goes through all crates that have some.
They are put into a copy of the tree, in place of all wrong bodies there, and `rt ci` tries them in it. It has N checks beside one
another, or as many as it takes itself. It takes what an earlier run on this machine proved, and proves the rest: so run it after a
gate that passed. A crate's edits still begin with a check of the crate. What was tried is kept as well, and tried again only if
something that it stands on has changed.

It tells each crate that is begun, and at the end how many edits of each the prover refused. Of each other edit it prints what `rt`
says: the crate is still proved with it, it does not reach the prover, it was not tried, or it is refused only for a name that it
takes away. Its last line is `edits N failures 0`; if an edit was not refused, it fails.
"""
import argparse
import os
import re
import shutil
import subprocess
import sys
import tempfile

from common import Edit, edits_in

ROOT = os.path.dirname(os.path.dirname(os.path.abspath(__file__)))
WRONG = os.path.join(ROOT, "bench", "wrong")
# What rt says of an edit: its crate, its name and the verdict, with the lines of a check that follow some.
SAID = re.compile(r"^rt: must-fail (\w+)/(\S+)\.edit: (.*(?:\n(?!rt: |== |\d+ passed, ).*)*)", re.M)
REFUSED = "refused, as it must be"
FOR_A_NAME = REFUSED + " (only because a proof file names what the edit took away"
# What rt says of a crate while it is at work.
BEGINS = re.compile(r"^rt: \w+: trying its must-fail edits|^rt: .* NOT PROVED")


def misfits(crate):
    """The edits of a crate, of both tiers, that do not fit its sources, and why."""
    sources = os.path.join(ROOT, "crates", crate)
    for folder in (os.path.join(WRONG, crate), os.path.join(sources, "must-fail")):
        for name in edits_in(folder) if os.path.isdir(folder) else []:
            try:
                Edit(os.path.join(folder, f"{name}.edit")).put_into(sources)
            except ValueError as why:
                yield f"{crate}/{name}: {why}"


def copy_with(crates, tree):
    """A copy of the crates in this folder, whose wrong bodies are these crates' of bench/wrong/ alone."""
    left_out = shutil.ignore_patterns("out", "must-fail")
    shutil.copytree(os.path.join(ROOT, "crates"), os.path.join(tree, "crates"), ignore=left_out)
    for name in ("crates.txt", "HANDLES"):
        shutil.copy(os.path.join(ROOT, name), tree)
    for crate in crates:
        shutil.copytree(os.path.join(WRONG, crate), os.path.join(tree, "crates", crate, "must-fail"))


def said_of(crates, tree, jobs):
    """What `rt ci` says, of which it prints what tells how far it is."""
    more = {"RT_JOBS": str(jobs)} if jobs else {}
    how = {"stdin": subprocess.DEVNULL, "stdout": subprocess.PIPE, "stderr": subprocess.STDOUT, "text": True, "errors": "replace"}
    lines = []
    with subprocess.Popen(["rt", "ci", *crates], cwd=tree, env={**os.environ, **more}, **how) as process:
        for line in process.stdout:
            lines.append(line)
            if BEGINS.match(line):
                print(line, end="", flush=True)
    return "".join(lines)


def is_refused(verdict):
    return verdict.startswith(REFUSED) and not verdict.startswith(FOR_A_NAME)


def failures_of(crate, verdicts):
    """How many edits of a crate were not refused. It prints what was said of these."""
    names = edits_in(os.path.join(WRONG, crate))
    failed = [name for name in names if not is_refused(verdicts.get((crate, name), ""))]
    for name in failed:
        print(f"{crate}/{name}: {verdicts.get((crate, name), 'NOT TRIED: nothing was said of it').rstrip()}")
    print(f"{crate}: {len(names) - len(failed)} of {len(names)} refused", flush=True)
    return len(failed)


def try_all(crates, jobs):
    """How many edits of these crates were not refused."""
    with tempfile.TemporaryDirectory(prefix="wrong-") as tree:
        copy_with(crates, tree)
        said = said_of(crates, tree, jobs)
    verdicts = {(crate, name): verdict for crate, name, verdict in SAID.findall(said)}
    if not verdicts:
        print(said[-2000:], end="")
    return sum(failures_of(crate, verdicts) for crate in crates)


def main():
    parser = argparse.ArgumentParser()
    parser.add_argument("crates", nargs="*", metavar="CRATE")
    parser.add_argument("--jobs", type=int, default=0)
    parser.add_argument("--fit", action="store_true")
    options = parser.parse_args()
    there = sorted(os.listdir(WRONG))
    for crate in options.crates:
        if crate not in there:
            parser.error(f"bench/wrong/ has no folder {crate}")
    crates = [crate for crate in there if crate in options.crates or not options.crates]
    count = sum(len(edits_in(os.path.join(WRONG, crate))) for crate in crates)
    if options.fit:
        found = [why for crate in sorted(os.listdir(os.path.join(ROOT, "crates"))) for why in misfits(crate)]
        print("\n".join([*found, f"wrong bodies of both tiers that do not fit {len(found)}"]))
        sys.exit(1 if found else 0)
    failures = try_all(crates, options.jobs)
    print(f"edits {count} failures {failures}")
    sys.exit(1 if failures else 0)


if __name__ == "__main__":
    main()
