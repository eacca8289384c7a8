#!/usr/bin/env python3
"""Memory refused, one growth after another: what `peer_front` does that may run out of it.

    ./build
    python3 bench/front_refused.py [PROGRAM]

The program is run with its n-th growth refused, for n from 1 until runs meet no refusal, and again with all growths from the
n-th on refused (`bench/refused.py` has how): in front of a service that words or a file name, over a table and over the
demonstration's groups. In each run three requests come on one connection, and the input ends. It may then have told why it
ended, with the status of that; or each reply is whole and right, the connection ends with one of them, and the totals add up.
Where one growth alone was refused a second client, which asks for other keys (the flights of the first may not have landed), is
answered whole. Its last line is `0 wrong`, or says how many were; then the program fails too.
"""
import os
import re
import subprocess
import sys
import tempfile

from common import Service, free_port
from refused import ALWAYS, MOST, ROOT, RUNS_AT_ALL, Tools, adds_up, ended, exchange, found, note, request, started, told, wrong

PROGRAM = sys.argv[1] if len(sys.argv) > 1 else os.path.join(ROOT, "crates/peer_front/out/peer_front")
VALUE = b"v" * 300

# the lines of a server that does not start since a growth was refused, by its status
ENDS = {
    1: r"cannot be looked up",
    2: r"cannot bind",
    4: r"standard output",
    5: r"memory",
}


def serve(stream):
    """A service that has a value for each key but one."""
    held = b""
    while part := stream.recv(10000):
        held += part
        while b"\r\n\r\n" in held:
            head, held = held.split(b"\r\n\r\n", 1)
            if b"/none" in head:
                stream.sendall(b"HTTP/1.1 404 Not Found\r\nContent-Length: 0\r\n\r\n")
            else:
                stream.sendall(b"HTTP/1.1 200 OK\r\nContent-Length: %d\r\n\r\n" % len(VALUE) + VALUE)


class Asked:
    """What a client asks for, and the replies."""

    def __init__(self, pairs):
        self.text = b"".join(request(target) for target, _ in pairs)
        self.replies = [reply for _, reply in pairs]
        self.whole = b"".join(self.replies)

    def is_front(self, got):
        """Whether these are the first replies, each of them whole."""
        return any(got == b"".join(self.replies[:n]) for n in range(len(self.replies) + 1))


class Case:
    """How the program is started, and what two clients ask for."""

    def __init__(self, name, words, first, second):
        self.name, self.words = name, words
        self.first, self.second = Asked(first), Asked(second)


def values_of(*keys):
    """What is asked for of a service or a table, the last key being none of theirs."""
    none = told(b"500 Internal Server Error", b"no such key")
    return [*((f"values/{key}", found(VALUE)) for key in keys[:-1]), (f"values/{keys[-1]}", none)]


def of_demo(key):
    """What is asked for of the demonstration, the last key being none."""
    none = told(b"500 Internal Server Error", b"not a number")
    return [(f"echo/{key}", found(key.encode())), (f"fill/{ord(key)}", found(b"x" * ord(key))), (f"square/{key}", none)]


def cases(folder, service):
    table = os.path.join(folder, "table")
    with open(table, "wb") as file:
        file.write(b"".join(b"values\t%c\t%s\n" % (key, VALUE) for key in b"abcd"))
    config = os.path.join(folder, "config")
    with open(config, "w", encoding="utf-8") as file:
        file.write(f'loops = 1\n[groups.values]\nurl = "{service.url}"\n')
    first, second = values_of("a", "b", "none"), values_of("c", "d", "none2")
    return [
        Case("a service", [f"values={service.url}"], first, second),
        Case("a service that a file names", ["--config", config], first, second),
        Case("a table", ["--table", table], first, second),
        Case("the demonstration", ["--demo"], of_demo("a"), of_demo("b")),
    ]


class Server:
    """A server of the program, under the library."""

    def __init__(self, tools, case):
        self.port = free_port()
        words = [PROGRAM, "--listen", f"127.0.0.1:{self.port}", "--loops", "1", "--cache", "64KiB", "--until-eof", *case.words]
        pipes = {"stdin": subprocess.PIPE, "stdout": subprocess.PIPE, "stderr": subprocess.PIPE}
        self.process = subprocess.Popen(words, env=tools.environment, **pipes)
        started.append(self.process)
        self.listens = self.process.stdout.readline() == b"listening\n"


def run(tools, case, first, last):
    """What one run did, and whether that is wrong."""
    tools.page.clear(first, last, armed=1)
    server = Server(tools, case)
    got, reset = exchange(server.port, case.first.text) if server.listens else (b"", False)
    is_over = server.listens and tools.page.get("counted") > last
    again, _ = exchange(server.port, case.second.text) if is_over else (case.second.whole, False)
    status, totals, lines = ended(server.process)
    said = f"status {status}, {len(got)} and {len(again)} bytes, {totals}{lines}"
    refused = tools.page.get("refused")
    if status == 2 and not refused:
        # A connection of somebody else took the port before the server did.
        return run(tools, case, first, last)
    if status != 0:
        fits = refused and not got and status in ENDS and re.search(ENDS[status], lines)
        return lines.strip().split("\n")[-1], None if fits else said
    whole = case.first.whole
    is_right = got == whole or refused and (case.first.is_front(got) or reset and whole.startswith(got))
    fits = is_right and again == case.second.whole and adds_up(totals)[0]
    return "answered whole" if got == whole else "ended a connection", None if fits else said


def sweep(tools, case):
    """Refuses growth after growth until runs meet no refusal."""
    counts, words = [], {}
    for title, last_of in (("growth", lambda n: n), ("all growths from", lambda n: ALWAYS)):
        met = free = 0
        for n in range(1, MOST):
            word, fault = run(tools, case, n, last_of(n))
            words[word] = words.get(word, 0) + 1
            if fault:
                note(case.name, f"{title} {n}: {fault}")
            if tools.page.get("refused"):
                met, free = met + 1, 0
            else:
                free += 1
            if free == RUNS_AT_ALL:
                break
        else:
            note(case.name, f"{title}: no end after {MOST} growths")
        counts.append(met)
    shown = ", ".join(f"{word} {words[word]}" for word in sorted(words))
    print(f"{case.name}: {counts[0]} growths refused one by one, {counts[1]} with all behind them ({shown})", flush=True)


def main():
    if not os.path.exists(PROGRAM):
        sys.exit(f"front_refused.py: no program {PROGRAM}: build it first")
    with tempfile.TemporaryDirectory() as folder:
        tools = Tools(folder)
        try:
            for case in cases(folder, Service(serve)):
                sweep(tools, case)
        finally:
            for process in started:
                process.kill()
    print(f"{len(wrong)} wrong")
    sys.exit(1 if wrong else 0)


main()
