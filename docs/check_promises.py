#!/usr/bin/env python3
"""Whether docs/PROMISES.md names what there is.

    docs/check_promises.py

Of the table of promises: each wrong body that a row names is an edit of some crate's must-fail/ folder, or, after the word `also:`,
of bench/wrong/; each function, type and crate that carries a promise is there; and each clause that stands after a dot is one of a
function of that name. Each edit stands in one of these rows, and in one of the two tiers. Of the tables of wrong programs in
threads: each test and each edit that they name is there. No cell of a table of the page has more than 60 words.

Prints what is not so, and how much was looked at, and ends with status 1 where something is not so. `*` stands for all
functions of a type.
"""
import os
import re
import sys
from collections import Counter

ROOT = os.path.dirname(os.path.dirname(os.path.abspath(__file__)))
CRATES = os.path.join(ROOT, "crates")
WRONG = os.path.join(ROOT, "bench", "wrong")
NAME = re.compile(r"`([^`]+)`")
CONTRACT = re.compile(r"^((?:[A-Za-z_]\w*::)*)(\w+|\*)?((?:\.\w+)*)$")
DECLARED = re.compile(r"\b(?:fn|struct|enum|trait|mod|type) (\w+)")
FUNCTION = re.compile(r"\bfn (\w+)(.*?)(?=\bfn \w|\Z)", re.DOTALL)
MOST_WORDS = 60
TYPE = re.compile(r"^(?:pub(?:\([a-z]+\))? )?(?:impl|trait|struct|enum)\b[^{;]*", re.MULTILINE)


def sources():
    """The texts of all sources."""
    for path, folders, names in os.walk(CRATES):
        folders[:] = [folder for folder in folders if folder != "out"]
        for name in names:
            if name.endswith(".rt"):
                with open(os.path.join(path, name), encoding="utf-8") as source:
                    yield source.read()


class Declared:
    """What the sources declare."""

    def __init__(self):
        self.names, self.clauses, self.methods = set(os.listdir(CRATES)) | {"Hash", "laws"}, set(), set()
        for text in sources():
            self.names.update(DECLARED.findall(text))
            types = {word for head in TYPE.findall(text) for word in re.findall(r"\b[A-Z]\w+", head)}
            for name, rest in FUNCTION.findall(text):
                self.clauses.update((name, clause) for clause in re.findall(r"\b(?:ensures|requires) (\w+) \{", rest))
                self.methods.update((word, name) for word in types)


def edits_in(folders):
    """How often each name is that of an edit of these folders."""
    return Counter(file.removesuffix(".edit") for folder in folders if os.path.isdir(folder) for file in os.listdir(folder))


def tiers():
    """The edits that the gate tries, and the others."""
    gate = edits_in(os.path.join(CRATES, name, "must-fail") for name in os.listdir(CRATES))
    return gate, edits_in(os.path.join(WRONG, name) for name in os.listdir(WRONG))


def wide_cells(page):
    """The cells of all tables that have too many words, by their first ones."""
    for line in page.split("\n"):
        for cell in line.strip("|").split(" | ") if line.startswith("| ") else []:
            words = cell.split()
            if len(words) > MOST_WORDS:
                yield f"{len(words)} words in a cell: {' '.join(words[:8])} .."


def rows_of(page):
    """The rows of the tables in a part of the page, without their heads."""
    rows = [line.strip().strip("|").split(" | ") for line in page.split("\n") if line.startswith("| ")]
    return [row for row in rows if row[0].strip() not in ("Promise", "Wrong body")]


def wrong_bodies(column):
    """The edits that a column names, those that the gate tries and the others, where it does not name the function of another row."""
    if column.strip().startswith("those of"):
        return set(), set()
    first, _, others = column.partition("also: ")
    return set(NAME.findall(first)), set(NAME.findall(others))


def untrue_contracts(column, declared):
    """The names of this column that no source declares. A name that begins with a dot is a clause of the one before it."""
    of, function = "", ""
    for name in NAME.findall(column):
        parts = CONTRACT.match(name)
        if not parts:
            yield name
            continue
        path, last, clauses = parts.group(1), parts.group(2), parts.group(3)
        if path:
            of = path.split("::")[-2]
        elif last and last[0].isupper():
            of = ""
        function = last or function
        if function != "*" and function not in declared.names or of and of not in declared.names:
            yield name
        elif path and of[0].isupper() and function != "*" and (of, function) not in declared.methods:
            yield name
        for clause in clauses.split(".")[1:]:
            if (function, clause) not in declared.clauses:
                yield name


def untrue_edits(named, there):
    """What is not so of the edits that the rows name, those that the gate tries and the others, beside those that are there."""
    for folder, names, edits in zip(("must-fail/", "bench/wrong/"), named, there):
        yield from (f"no edit of {folder}: {name}" for name in sorted(names - set(edits)))
    found = sum(there, Counter())
    yield from (f"no row: {name}" for name in sorted(set(found) - named[0] - named[1]))
    yield from (f"stands twice: {name}" for name in sorted(found) if found[name] > 1)


def main():
    with open(os.path.join(ROOT, "docs/PROMISES.md"), encoding="utf-8") as page:
        text = page.read()
    promises, _, others = text.partition("\n## Promises and wrong bodies\n")[2].partition("\n## Memory that is refused")
    declared, there, wrong = Declared(), tiers(), list(wide_cells(text))
    named, contracts = (set(), set()), 0
    for row in rows_of(promises):
        contracts += len(NAME.findall(row[1]))
        wrong += [f"no contract: {name}" for name in untrue_contracts(row[1], declared)]
        for names, of_row in zip(named, wrong_bodies(row[2])):
            names.update(of_row)
    wrong += untrue_edits(named, there)
    threads = others.partition("\n## Wrong programs in threads")[2].partition("\n## ")[0]
    told = [re.split(r"[:.]+", name)[-1] for row in rows_of(threads) for name in NAME.findall(row[-1]) if "/" not in name]
    known = declared.names.union(*there, (clause for _, clause in declared.clauses))
    wrong += [f"no test, contract or edit: {name}" for name in told if name not in known]
    counts = f"edits {len(there[0])} and {len(there[1])} contracts {contracts} of wrong programs {len(told)}"
    print("\n".join([*wrong, f"{counts} untrue {len(wrong)}"]))
    sys.exit(1 if wrong else 0)


main()
