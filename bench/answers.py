#!/usr/bin/env python3
"""Goals that wrong bodies break and that have no answer: what makes a try of these long. It can write an answer for each.

    ./build CRATE                                  # the crates below it
    (cd crates/CRATE && rt check)                  # what the tries begin with
    python3 bench/answers.py CRATE [--write]

Where a goal has no answer, the prover searches for a proof until it meets a limit, and does so once more for the file that it
offers. An answer that fails is given up at once. So a goal that a wrong body breaks is to have one, though the search finds its
proof in the right body. The wrong bodies of the crate, of its must-fail/ and of bench/wrong/, are put into a copy of it, those of
different functions together, and each goal is printed that the prover then left open. With --write those goals get the answer
`search rules`, or `grind` where that proves more, in the crate's own proofs/; an answer by which the crate as it stands is not
proved goes again, and a goal that only the wrong body has gets none. `rt tidy` then takes out the imports that nothing uses.
"""
import argparse
import os
import re
import shutil
import subprocess
import sys
import tempfile
import types
from importlib.machinery import SourceFileLoader

from common import Edit, edits_in

ROOT = os.path.dirname(os.path.dirname(os.path.abspath(__file__)))
sys.dont_write_bytecode = True
BUILD = types.ModuleType("build")
BUILD.__file__ = os.path.join(ROOT, "build")
SourceFileLoader("build", BUILD.__file__).exec_module(BUILD)
PARTS = ("src", "specs", "proofs")
# A function's line, and where the file of its answers is to be.
OPEN = re.compile(r"^fn (\S+): (?:no proof|not proved).*?expected answers in \./(\S+); `search` did not prove ((?:`[^`]+`(?:, )?)+)", re.M)
# An answer that was refused, by its line.
REFUSED = re.compile(r"^\./(proofs/\S+/Answers\.antt):(\d+):\d+: error: ", re.M)
# An answer in a file of those that the prover offers.
OFFERED = re.compile(r"^pub (\S+) : goal\.\S+\n(\S+(?: g)? c) = \?$", re.M)
SEARCH = "search rules"


def read(path):
    with open(path, encoding="utf-8") as file:
        return file.read()


def write(path, text):
    os.makedirs(os.path.dirname(path), exist_ok=True)
    with open(path, "w", encoding="utf-8") as file:
        file.write(text)


class Tried:
    """A copy of a crate's texts and of what was proved of it, in which wrong bodies can stand."""

    def __init__(self, crate):
        self.crate, self.at, self.functions = crate, tempfile.mkdtemp(prefix="answers-"), set()

    def __enter__(self):
        for part in (*PARTS, "out/incremental"):
            if os.path.isdir(os.path.join(self.crate.folder, part)):
                shutil.copytree(os.path.join(self.crate.folder, part), os.path.join(self.at, part))
        return self

    def __exit__(self, *_):
        shutil.rmtree(self.at)

    def takes(self, edit):
        """Puts a wrong body in, unless one stands in the same function."""
        texts, functions = {}, set()
        for file, old, new in Edit(edit).pairs:
            path = os.path.join(self.at, file)
            whole = texts.get(path) or read(path)
            functions.add((path, whole.rfind("fn ", 0, whole.find(old))))
            if whole.count(old) != 1 or functions & self.functions:
                return False
            texts[path] = whole.replace(old, new)
        for path, text in texts.items():
            write(path, text)
        self.functions |= functions
        return True

    def run(self, *flags):
        """What a check says, over what was proved of the crate."""
        words = ["check", *self.crate.words(list(flags), keeps=False), "--incremental", os.path.join(self.at, "out/incremental")]
        ran = subprocess.run([BUILD.RT.RATTLE, *words], cwd=self.at, capture_output=True, text=True, errors="replace", check=False)
        return ran.stdout + ran.stderr

    def offered(self, functions):
        """The head of an answer, as `returns g c`, for each goal of these functions that the crate as it stands has, by its file."""
        asked = [word for function in functions for word in ("--start", function.partition("::")[2])]
        self.run(*asked, "--generated", os.path.join(self.at, "made"))
        made = os.path.join(self.at, "made", f"Rattle-{self.crate.name}-proofs")
        found = {}
        for at, _, names in os.walk(made):
            if "AnswersOffered.antt" in names:
                file = os.path.join("proofs", os.path.relpath(at, made), "Answers.antt")
                found[file] = dict(OFFERED.findall(read(os.path.join(at, "AnswersOffered.antt"))))
        return found


def open_goals(crate):
    """The goals that the wrong bodies of a crate leave open, by the file of their answers, and the functions that they are of."""
    folders = [os.path.join(crate.folder, "must-fail"), os.path.join(ROOT, "bench", "wrong", crate.name)]
    left = [os.path.join(at, f"{name}.edit") for at in folders if os.path.isdir(at) for name in edits_in(at)]
    goals, functions = {}, set()
    while left:
        with Tried(crate) as tried:
            took = [edit for edit in left if tried.takes(edit)]
            if not took:
                sys.exit(f"answers.py: {left[0]} does not fit the sources")
            for function, file, names in OPEN.findall(tried.run("--jobs", "1")):
                functions.add(function)
                goals.setdefault(file, set()).update(re.findall(r"`([^`]+)`", names))
        left = [edit for edit in left if edit not in took]
    return goals, functions


class Answers:
    """A file of answers, `self.text`, and what it is to have more."""

    def __init__(self, crate, file):
        self.path = os.path.join(crate.folder, file)
        module = file.removesuffix("/Answers.antt").replace("/", ".")
        self.text = read(self.path) if os.path.isfile(self.path) else f"use Rattle.{crate.name}.{module}.Goals as goal\n"

    def imports(self, module, name):
        """Has the file name something of a module."""
        line = re.search(rf"^use {re.escape(module)}\.{{([^}}]*)}}$", self.text, re.M)
        if line is None:
            self.text = f"use {module}.{{{name}}}\n{self.text}"
        elif name not in re.split(r"[,\s]+", line[1]):
            self.text = self.text[: line.end(1)] + f", {name}" + self.text[line.end(1) :]

    def add(self, goal, head):
        self.imports("Rattle.std.proofs.Common", "rules")
        self.text += f"\npub {goal} : goal.{goal}\n{head} = {SEARCH}\n"

    def mend(self, number):
        """Has the refused answer of this line try `grind`, or go where it does."""
        start = self.text.rindex("\npub ", 0, sum(len(line) + 1 for line in self.text.split("\n")[:number]))
        end = self.text.find("\n\npub ", start + 1)
        answer = self.text[start : len(self.text) if end < 0 else end + 1]
        grind = answer.replace(SEARCH, "grind (arith, common_steps)") if SEARCH in answer else ""
        self.text = self.text.replace(answer, grind)
        if grind:
            self.imports("Rattle.std.proofs.Common", "arith")
            self.imports("Rattle.std.proofs.lemmas.Grind", "common_steps")

    def write(self):
        if "\npub " in self.text:
            write(self.path, self.text)
        elif os.path.isfile(self.path):
            os.remove(self.path)


def answer(crate, heads):
    """Writes an answer for each of these goals, and lets those go by which the crate is not proved."""
    for file, goals in heads.items():
        answers = Answers(crate, file)
        for goal, head in sorted(goals.items()):
            answers.add(goal, head)
        answers.write()
    while True:
        with Tried(crate) as tried:
            refused = {(file, int(line)) for file, line in REFUSED.findall(tried.run("--jobs", "1"))}
        if not refused:
            return
        # from the last line on, as those above it stay where they are
        for file, line in sorted(refused, reverse=True):
            answers = Answers(crate, file)
            answers.mend(line)
            answers.write()


def main():
    parser = argparse.ArgumentParser()
    parser.add_argument("crate")
    parser.add_argument("--write", action="store_true")
    options = parser.parse_args()
    crate = BUILD.crate_of(options.crate)
    goals, functions = open_goals(crate)
    with Tried(crate) as tried:
        offered = tried.offered(functions) if functions else {}
    heads = {file: {goal: head for goal, head in offered[file].items() if goal in goals[file]} for file in offered if file in goals}
    for file, found in sorted(heads.items()):
        print(file, *sorted(found))
    print(f"goals {sum(map(len, heads.values()))} without an answer, {sum(map(len, goals.values()))} with those of wrong bodies alone")
    if options.write:
        answer(crate, heads)


if __name__ == "__main__":
    main()
