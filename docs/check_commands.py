#!/usr/bin/env python3
"""Whether README and docs/GO.md are as short as they are to be, and whether their commands do what they say.

    docs/check_commands.py          # counts alone
    docs/check_commands.py --run    # runs the commands too: ./build has to have made the program

README has fewer than 1,800 words, all that stands between spaces counted. No sentence of it, and of the pages for who writes Go or
runs the program, has more than 25. A sentence ends with its paragraph, item or cell too, and in a cell with a semicolon. Code and
quotes are no sentences. No cell of a table of any page has more than 60.

A block that begins with ```sh is run as it stands, in a fresh clone with the built program in it: the blocks of a page one after the
other, in one shell that ends at the first command that fails. A ```text block after one is what it prints. A block that calls
./build takes the build itself, and is not run. Of a page all is left out from the first block on that calls something which is not
there: a program of the system, or a folder below /usr/share. Blocks that are indented are not run: they change another repository
or the system.

Prints what is not so, and ends with status 1 if something is not.
"""
import argparse
import contextlib
import os
import re
import shutil
import signal
import subprocess
import sys
import tempfile

ROOT = os.path.dirname(os.path.dirname(os.path.abspath(__file__)))
sys.dont_write_bytecode = True
sys.path.insert(0, os.path.join(ROOT, "bench"))
from common import may_have_its_own  # noqa: E402

README, PAGES = "README.md", ("README.md", "docs/GO.md")
READ = (*PAGES, "docs/OPERATING.md", "docs/STYLE.md", "docs/GLOSSARY.md")
PROGRAM = "crates/peer_front/out/peer_front"
MOST_WORDS, LONGEST, LARGEST_CELL = 1800, 25, 60
PATIENCE = 180
BLOCK = re.compile(r"^```(\w*)\n(.*?)^```$", re.MULTILINE | re.DOTALL)
OF_SHELL = {"cd", "exec", "echo", "printf", "set", "exit"}
MARK = "== block"


def read(page):
    with open(os.path.join(ROOT, page), encoding="utf-8") as text:
        return text.read()


# Words.


def passages(page):
    """The paragraphs, items and cells of a page, without code, quotes and heads."""
    passage = []
    for line in [*BLOCK.sub("", page).split("\n"), ""]:
        is_apart = not line.strip() or re.match(r"#|>|    |\||- |\d+\. ", line)
        if is_apart and passage:
            yield " ".join(passage)
            passage = []
        if line.startswith("|"):
            yield from re.split(r" \| |; ", line.strip("| "))
        elif line.strip() and not re.match(r"#|>|    |!\[", line):
            passage.append(re.sub(r"^(- |\d+\. )", "", line).strip())


def sentences(page):
    for passage in passages(page):
        yield from re.split(r"(?<=[.!?])\s+", re.sub(r"\]\([^)]*\)", "]", passage))


def words_of(text):
    return [word for word in text.split() if re.search(r"\w", word)]


def cells():
    """The cells of all pages, each with its page."""
    for page in (README, *(f"docs/{name}" for name in sorted(os.listdir(os.path.join(ROOT, "docs"))) if name.endswith(".md"))):
        for line in read(page).split("\n"):
            if line.startswith("|"):
                yield from ((page, cell) for cell in line.strip("| ").split(" | "))


def too_long():
    """What has too many words."""
    for page, cell in cells():
        if len(cell.split()) > LARGEST_CELL:
            yield f"{page}: a cell of {len(cell.split())} words: {cell}"
    count = len(read(README).split())
    if count >= MOST_WORDS:
        yield f"{README}: {count} words, and fewer than {MOST_WORDS} are to be there"
    for page in READ:
        for sentence in sentences(read(page)):
            if len(words_of(sentence)) > LONGEST:
                yield f"{page}: {len(words_of(sentence))} words: {sentence}"


# Commands.


class Block:
    """A block of commands of a page, and what it is to print, if that is told."""

    def __init__(self, commands, printed):
        self.commands, self.printed = commands, printed

    def builds(self):
        return re.search(r"^\./build\b", self.commands, re.MULTILINE)

    def missing(self):
        """What the block calls that is not there, or none."""
        text = re.sub(r"'[^']*'|\"[^\"]*\"|\d?>&?\s*\S+", "''", self.commands)
        begun = re.findall(r"(?:^|&&|\||&|;|\()\s*((?:\w+=\S*\s+)*)([\w.$/-]+)", text, re.MULTILINE)
        programs = [word for _, word in begun if "/" not in word and "$" not in word and "=" not in word and word not in OF_SHELL]
        gone = [f"there is no {word}" for word in programs if shutil.which(word) is None]
        folders = re.findall(r"(?<![\w.])/usr/share/[\w/.-]+", self.commands)
        return next(iter(gone + [f"there is no {path}" for path in folders if not os.path.exists(path)]), None)


def blocks_of(page):
    """The blocks of a page that are run."""
    found = BLOCK.findall(read(page))
    after = [*found[1:], ("", "")]
    return [Block(text, printed if kind == "text" else None) for (name, text), (kind, printed) in zip(found, after) if name == "sh"]


def files():
    """What a commit of this tree would have. Without git that is all but what was built."""
    asked = subprocess.run(["git", "ls-files", "-co", "--exclude-standard"], cwd=ROOT, capture_output=True, text=True, check=False)
    if not asked.returncode:
        return asked.stdout.split("\n")
    walked = [(at, names) for at, _, names in os.walk(ROOT) if "out" not in os.path.relpath(at, ROOT).split(os.sep)]
    return [os.path.relpath(os.path.join(at, name), ROOT) for at, names in walked for name in names]


def clone(folder):
    """Copies the files of a fresh clone, and the built program."""
    for name in {*files(), PROGRAM} - {""}:
        if os.path.isfile(os.path.join(ROOT, name)):
            os.makedirs(os.path.join(folder, os.path.dirname(name)), exist_ok=True)
            shutil.copy2(os.path.join(ROOT, name), os.path.join(folder, name), follow_symlinks=False)


def shell(script, folder):
    """What a script prints, and its status. It has a network of its own, if it may: its ports may be somebody's here."""
    words = ["bash", "-e", "-c", script]
    if may_have_its_own("net"):
        words = ["unshare", "--net", "bash", "-e", "-c", f"ip link set lo up\n{script}"]
    with open(os.path.join(folder, "printed"), "w+b") as printed:
        process = subprocess.Popen(words, cwd=folder, stdin=subprocess.DEVNULL, stdout=printed, start_new_session=True)
        try:
            status = process.wait(PATIENCE)
        except subprocess.TimeoutExpired:
            status = "late"
        finally:
            # Where it left nothing behind, its group is gone with it.
            with contextlib.suppress(ProcessLookupError):
                os.killpg(process.pid, signal.SIGKILL)
        printed.seek(0)
        return printed.read().decode(errors="replace"), status


def wrong_of(page, blocks, folder):
    """What the blocks do that they do not say."""
    script = "".join(f"echo '{MARK}'\n{block.commands}" for block in blocks)
    text, status = shell(script, folder)
    if status != 0:
        yield f"{page}: the commands end with {status}: {text[-300:]!r}"
    for block, printed in zip(blocks, text.split(f"{MARK}\n")[1:]):
        if block.printed is not None and printed.rstrip() != block.printed.rstrip():
            yield f"{page}: prints {printed!r}, and not {block.printed!r}: {block.commands}"


def ran(page):
    """Runs the commands of a page. Gives how many blocks, and what is wrong."""
    blocks = [block for block in blocks_of(page) if not block.builds()]
    for number, block in enumerate(blocks):
        why = block.missing()
        if why:
            print(f"{page}: {len(blocks) - number} blocks are left out: {why}")
            blocks = blocks[:number]
            break
    with tempfile.TemporaryDirectory(prefix="commands-", ignore_cleanup_errors=True) as folder:
        clone(folder)
        return len(blocks), list(wrong_of(page, blocks, folder))


def main():
    parser = argparse.ArgumentParser()
    parser.add_argument("--run", action="store_true")
    wrong, count = list(too_long()), 0
    if parser.parse_args().run:
        if not os.path.isfile(os.path.join(ROOT, PROGRAM)):
            sys.exit(f"{PROGRAM} is not built: run ./build")
        for page in PAGES:
            blocks, found = ran(page)
            count, wrong = count + blocks, wrong + found
    longest = max(len(words_of(sentence)) for page in READ for sentence in sentences(read(page)))
    print("\n".join([*wrong, f"words {len(read(README).split())} longest sentence {longest} blocks run {count} wrong {len(wrong)}"]))
    sys.exit(1 if wrong else 0)


main()
