#!/usr/bin/env python3
"""What the built upper_peer answers, the server over a source of its own from which docs/SOURCES.md copies.

    (cd crates/upper_peer && rt run)                   # builds it
    python3 bench/upper.py [crates/upper_peer/out/upper_peer]

Its last line is `rows N failures 0`; where a row fails, so does the program.
"""
import subprocess
import sys
import time

from common import Started, ask, free_port, run_rows

PROGRAM = sys.argv[1] if len(sys.argv) > 1 else "crates/upper_peer/out/upper_peer"


class Upper(Started):
    """The server on a free port."""

    def __init__(self):
        self.address = ("127.0.0.1", free_port())
        self.process = subprocess.Popen([PROGRAM, "%s:%d" % self.address], stdout=subprocess.DEVNULL)

    def ask(self, path):
        """The reply to a request, once the server listens, which it does not say."""
        for _ in range(100):
            try:
                return ask(self.address, path)
            except ConnectionRefusedError:
                time.sleep(0.1)
        raise ConnectionRefusedError


def a_key_comes_in_capital_letters():
    with Upper() as server:
        reply = server.ask("upper/red%20Rose-7")
        return reply.startswith(b"HTTP/1.1 200 ") and reply.endswith(b"\r\n\r\n\x0a\x0aRED ROSE-7")


def another_group_is_not_there():
    with Upper() as server:
        return server.ask("lower/red").startswith(b"HTTP/1.1 404 ")


run_rows([a_key_comes_in_capital_letters, another_group_is_not_there])
