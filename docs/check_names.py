#!/usr/bin/env python3
"""Whether the files and names that README and docs/ name are there.

    docs/check_names.py

Of each page but TRAPS, which names what the toolchain has: each path between backquotes has to be a file or a folder, from
the top, from crates/, from a crate, or from a crate's src/; and each name in backquotes that looks like one of a program
(`snake_case`, `CamelCase`, with `::` or a dot) has to stand somewhere in the sources, the scripts or the examples. Where a
text says "`name`, `name` in `path`", each name has to stand in that file. Each line of a block of code after "From `path`" has to
stand in that file. Each link of a page leads to a file, and to a heading of it.

Prints what is not so, and ends with status 1 where something is not.
"""
import glob
import os
import re
import sys
from itertools import takewhile

ROOT = os.path.dirname(os.path.dirname(os.path.abspath(__file__)))
QUOTED = re.compile(r"`([^`]+)`")
PATH = re.compile(r"[\w.-]+(?:/[\w.*-]+)+/?|[\w-]+\.(?:rt|py|md|svg|txt|antt|edit)")
NAME = re.compile(r"(?:\w+(?:::|\.))*(?:[a-z]+(?:_\w+)+|[A-Z]+[a-z]\w*|[A-Z]+_\w+)")
IN_FILE = re.compile(r"((?:`[^`]+`(?:, | and ))*`[^`]+`) in `([^`]+)`")
# Names of HTTP, of groupcache, of Go, of proxies, and of what a text makes up.
OTHERS = re.compile(r"/|out/|values/|golang/|net/http|http\.|context\.|lru/lru\.go|fill/1048576|BasePath|Date|Stats\.|ssl_")
# A line of a block that stands for lines which are left out.
LEFT_OUT = "// .."
# The names of this page are those of the toolchain.
OF_TOOLCHAIN = "TRAPS.md"


def found_at(path):
    """The files and folders that a path may stand for."""
    path = path.rstrip("/")
    starts = ["", "docs", "crates", "crates/*", "crates/*/src", "crates/*/src/*", "bench"]
    ends = ["", ".antt", ".rt"]
    return [one for start in starts for end in ends for one in glob.glob(os.path.join(ROOT, start, path + end))]


def all_text():
    """All that the sources, scripts and examples say, and the names of their files."""
    texts = []
    for folder in ("crates", "bench", "examples", "go", "docs/pictures", ".ci"):
        for path, folders, names in os.walk(os.path.join(ROOT, folder)):
            folders[:] = [name for name in folders if name != "out"]
            for name in names:
                texts.append(name)
                with open(os.path.join(path, name), encoding="utf-8", errors="replace") as text:
                    texts.append(text.read())
    with open(os.path.join(ROOT, "crates.txt"), encoding="utf-8") as text:
        texts.append(text.read())
    return set(re.findall(r"\w+", "\n".join(texts)))


def untrue(line, known, names_too):
    """What a line names that is not there."""
    for name in QUOTED.findall(line):
        if PATH.fullmatch(name) and not OTHERS.match(name):
            if names_too and not found_at(name):
                yield f"no file: {name}"
        elif names_too and NAME.fullmatch(name) and not OTHERS.match(name):
            missing = [word for word in re.findall(r"\w+", name) if word not in known]
            if missing:
                yield f"no name: {name}"
    for names, path in IN_FILE.findall(line):
        if not PATH.fullmatch(path):
            continue
        words = set()
        for one in found_at(path):
            if os.path.isfile(one):
                with open(one, encoding="utf-8") as text:
                    words.update(re.findall(r"\w+", text.read()))
        for name in QUOTED.findall(names):
            if not words.issuperset(re.findall(r"\w+", name.split("::")[-1])):
                yield f"no {name} in {path}"


def blocks(page):
    """Each file that the page takes code from, with the lines of that code."""
    for part in re.split(r"\bFrom (?=`)", page)[1:]:
        path, _, rest = part[1:].partition("`")
        fenced = re.match(r"[^\n]*\n\n```go\n(.*?)^```$", rest, re.MULTILINE | re.DOTALL)
        lines = fenced[1].split("\n") if fenced else takewhile(lambda line: not line or line.startswith("    "), rest.split("\n")[1:])
        yield path, [line.strip() for line in lines if line.strip() not in ("", LEFT_OUT)]


def unlike(page):
    """What the blocks of the page say that their files do not."""
    for path, block in blocks(page):
        with open(os.path.join(ROOT, path), encoding="utf-8") as source:
            lines = {line.strip() for line in source}
        yield from (f"not in {path}: {line}" for line in block if line not in lines)


def anchors(path):
    """The headings of a page, as links name them."""
    with open(path, encoding="utf-8") as text:
        heads = re.findall(r"^#+ (.*)$", text.read(), re.MULTILINE)
    return {re.sub(r"[^\w -]", "", head.lower()).replace(" ", "-") for head in heads}


def broken_links(page, text):
    """The links of a page that lead nowhere."""
    for target in re.findall(r"\]\((?!http)([^)]+)\)", text):
        path, _, anchor = target.partition("#")
        file = os.path.normpath(os.path.join(os.path.dirname(page), path)) if path else page
        if not os.path.exists(file) or anchor and anchor not in anchors(file):
            yield f"leads nowhere: {target}"


def main():
    known, count, wrong = all_text(), 0, []
    for page in [os.path.join(ROOT, "README.md"), *sorted(glob.glob(os.path.join(ROOT, "docs/*.md")))]:
        with open(page, encoding="utf-8") as lines:
            text = lines.read()
            wrong += [f"{os.path.relpath(page, ROOT)}: {one}" for one in [*unlike(text), *broken_links(page, text)]]
            for number, line in enumerate(text.split("\n"), 1):
                count += len(QUOTED.findall(line))
                found = untrue(line, known, not page.endswith(OF_TOOLCHAIN))
                wrong += [f"{os.path.relpath(page, ROOT)}:{number}: {one}" for one in found]
    print("\n".join([*wrong, f"words in backquotes {count} not there {len(wrong)}"]))
    sys.exit(1 if wrong else 0)


main()
