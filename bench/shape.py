#!/usr/bin/env python3
"""The shape of the product's sources: how long its functions are, how many parameters and clauses they have, how deep they nest.

    python3 bench/shape.py [--names] [FOLDER ..]

Prints a table. The product is each crate of crates/ whose name begins with `peer_`, without its tests; with folders, the
`.rt` files below these are counted. With `--names` the functions and files that a row counts stand under it, each with its
number.

A parameter is each one between a function's parentheses, `self` too; `rt` and `alloc`, by which a function is given the
system and memory, are parameters like any other. A clause is an `ensures` or a `requires` of the function itself. The depth
is that of blocks within blocks: the function's own braces are the first, and each block of an `if`, a loop, a `match`, an
arm, a closure or a `let .. else` within it is one more; the braces of structs and patterns are none. The lines of a function
go from its `fn` to its last brace, with its clauses.
"""
import argparse
import os
import re

ROOT = os.path.dirname(os.path.dirname(os.path.abspath(__file__)))
TOKEN = re.compile(
    r"""(?P<gap>\s+|//[^\n]*|/\*.*?\*/)
      |(?P<text>b?r(?P<hashes>\#*)".*?"(?P=hashes)|b?"(?:\\.|[^"\\])*"|b?'(?:\\[^']*|[^'\\])')
      |(?P<word>[^\W\d]\w*)
      |(?P<mark>=>|->|::|==|<=|>=|!=|&&|\|\||.)""",
    re.VERBOSE | re.DOTALL,
)
OPENING, CLOSING = "([{", ")]}"


def tokens(text):
    """The words and marks of a source, each with its line. A literal text stands as `""`."""
    found, line = [], 1
    for match in TOKEN.finditer(text):
        if match.lastgroup in ("word", "mark"):
            found.append((match.group(), line))
        elif match.lastgroup != "gap":
            found.append(('""', line))
        line += match.group().count("\n")
    return found


def behind(words, at):
    """The place behind the bracket that closes the one at this place."""
    depth = 0
    while True:
        depth += (words[at] in OPENING) - (words[at] in CLOSING)
        at += 1
        if depth == 0:
            return at


def parameters(words):
    """How many parameters stand between these words."""
    depth, count, is_empty = 0, 0, True
    for word in words:
        depth += (word in "([{<") - (word in ")]}>")
        if word == "," and depth == 0:
            count, is_empty = count + 1, True
        else:
            is_empty = False
    return count + (not is_empty)


def depth_of(words):
    """How deep the blocks between these words nest, which are the body of a function."""
    # For each open bracket whether it is a block. A header is what stands before a block of an `if`, a loop or a `match`: it
    # is kept with the number of brackets that were open before it, and whether a pattern is being read.
    open_brackets, headers, deepest = [], [], 0
    for before, word in zip(["{", *words], words):
        here = len(open_brackets)
        in_header = bool(headers) and headers[-1][0] == here
        if word in ("if", "while", "match", "for", "loop", "else", "unsafe"):
            if word == "if" and in_header and headers[-1][1] == "else":
                headers.pop()
            headers.append((here, word, word == "for"))
        elif word == "let" and in_header:
            headers[-1] = (here, headers[-1][1], True)
        elif word in ("=", "in") and in_header:
            headers[-1] = (here, headers[-1][1], False)
        elif word == "=>" and in_header:
            headers.pop()
        elif word in OPENING:
            block = word == "{" and is_block(before, headers[-1] if in_header else None)
            if block and in_header:
                headers.pop()
            open_brackets.append(block)
            deepest = max(deepest, sum(open_brackets))
        elif word in CLOSING:
            open_brackets.pop()
            while headers and headers[-1][0] > len(open_brackets):
                headers.pop()
    return deepest + 1


def is_block(before, header):
    """Whether a brace behind this word, in this header, begins a block, and no struct or pattern."""
    if header:
        return not header[2]
    return not (before[0].isupper() or before == ">")


class Function:
    """A function: its name, its first line, and its numbers."""

    def __init__(self, found, at):
        words = [word for word, _ in found]
        self.name, self.line = words[at + 1], found[at][1]
        at += 2
        if words[at] == "<":
            at = behind_generics(words, at)
        end = behind(words, at)
        self.parameters = parameters(words[at + 1 : end - 1])
        self.clauses, at = 0, end
        while words[at] not in ("{", ";"):
            if words[at] in ("ensures", "requires"):
                self.clauses += 1
                at = behind(words, words.index("{", at))
            else:
                at = behind(words, at) if words[at] in OPENING else at + 1
        self.end = at + 1 if words[at] == ";" else behind(words, at)
        self.depth = depth_of(words[at + 1 : self.end - 1])
        self.lines = found[self.end - 1][1] - self.line + 1


def behind_generics(words, at):
    """The place behind the `>` that closes the `<` at this place."""
    depth = 0
    while True:
        depth += (words[at] == "<") - (words[at] == ">")
        at += 1
        if depth == 0:
            return at


def without_ghosts(found):
    """The words without ghost members, whose braces are no code: `ghost NAME = { .. };` and `ghost NAME: { .. };`."""
    kept, at, words = [], 0, [word for word, _ in found]
    while at < len(words):
        if words[at] == "ghost":
            while words[at] not in (";", ","):
                at = behind(words, at) if words[at] in OPENING else at + 1
        else:
            kept.append(found[at])
            at += 1
    return kept


def functions(text):
    """The functions of a source."""
    found = without_ghosts(tokens(text))
    at = 0
    while at + 1 < len(found):
        if found[at][0] == "fn" and found[at + 1][0][0] != "(":
            yield Function(found, at)
        at += 1


def sources(folders):
    """The files that are counted."""
    for folder in folders:
        for path, _, names in sorted(os.walk(folder)):
            parts = os.path.relpath(path, folder).split(os.sep)
            for name in sorted(names):
                if name.endswith(".rt") and name != "tests.rt" and "tests" not in parts and "out" not in parts:
                    yield os.path.join(path, name)


def product():
    """The folders of the product's sources."""
    crates = os.path.join(ROOT, "crates")
    return [os.path.join(crates, name, "src") for name in sorted(os.listdir(crates)) if name.startswith("peer_")]


def row(what, counted, most, with_names):
    """One row: how many, and the largest number of all."""
    print(f"| {what} | {len(counted)} | {most} |")
    if with_names:
        for number, name in sorted(counted, reverse=True):
            print(f"    {number} {name}")


def main():
    parser = argparse.ArgumentParser()
    parser.add_argument("--names", action="store_true")
    parser.add_argument("folders", nargs="*")
    options = parser.parse_args()
    all_functions, files = [], []
    for path in sources(options.folders or product()):
        with open(path, encoding="utf-8") as source:
            text = source.read()
        short = os.path.relpath(path, ROOT)
        files.append((text.count("\n"), short))
        all_functions += [(function, f"{short}:{function.line} {function.name}") for function in functions(text)]
    print(f"{len(all_functions)} functions in {len(files)} files of {sum(lines for lines, _ in files)} lines")
    print("| What | How many | Most |\n|---|---|---|")
    rows = [
        ("functions with five or more parameters", "parameters", 5),
        ("functions with seven or more parameters", "parameters", 7),
        ("functions with more than eight clauses", "clauses", 9),
        ("functions that nest five deep or deeper", "depth", 5),
        ("functions of more than 40 lines", "lines", 41),
    ]
    for what, number, least in rows:
        numbers = [(getattr(function, number), name) for function, name in all_functions]
        row(what, [one for one in numbers if one[0] >= least], max(numbers, default=(0, ""))[0], options.names)
    row("files of more than 300 lines", [one for one in files if one[0] > 300], max(files, default=(0, ""))[0], options.names)


if __name__ == "__main__":
    main()
