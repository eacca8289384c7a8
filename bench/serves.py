#!/usr/bin/env python3
"""What the built peer_serve does as a server and as a pipe, row by row, each beside what it must be.

    (cd crates/peer_serve && rt run < stdin > /dev/null)    # builds it
    python3 bench/serves.py [crates/peer_serve/out/peer_serve]

It starts the servers itself, on free ports of the loopback address, and ends them. It takes some 20 s where all is well: a
row fails where something has not come after 20 s, and none asks that something comes sooner. Its last line is
`rows N failures 0`; where a row fails, so does the program.
"""
import http.client
import os
import resource
import select
import shutil
import signal
import socket
import subprocess
import sys
import tempfile
import time
from concurrent.futures import ThreadPoolExecutor

from common import Started, free_port

PROGRAM = sys.argv[1] if len(sys.argv) > 1 else "crates/peer_serve/out/peer_serve"
PATIENCE = 20
ALONE = 54323  # a user with no other processes, whose threads can be counted
rows = []


def row(name, value, wanted):
    rows.append(value == wanted)
    print(f"{'ok  ' if rows[-1] else 'FAIL'} {name}: {value!r}{'' if rows[-1] else f', and not {wanted!r}'}", flush=True)


def part_of(pipe):
    """What comes next on a pipe, and nothing where that takes too long."""
    return os.read(pipe.fileno(), 65536) if select.select([pipe], [], [], PATIENCE)[0] else b""


class Server(Started):
    """A server with these words behind its address, and what it says first."""

    def __init__(self, *words, given=b"", limit=None, program=PROGRAM):
        self.port = free_port()
        how = {"stdin": subprocess.PIPE, "stdout": subprocess.PIPE, "stderr": subprocess.PIPE}
        self.process = subprocess.Popen([program, f"127.0.0.1:{self.port}", *words], preexec_fn=limit, **how)
        self.process.stdin.write(given)
        self.process.stdin.close()
        self.said = part_of(self.process.stdout)

    def client(self):
        return http.client.HTTPConnection("127.0.0.1", self.port, timeout=PATIENCE)

    def end(self):
        """Its status and its totals, where it ends by itself."""
        try:
            self.process.wait(PATIENCE)
        except subprocess.TimeoutExpired:
            return None, b""
        return self.process.returncode, self.process.stdout.read()


def ask(client, *paths):
    """The status and the content of each reply, or the fault that came in the place of one."""
    replies = []
    for path in paths:
        try:
            client.request("GET", "/_groupcache/" + path)
            reply = client.getresponse()
            replies.append((reply.status, reply.read()))
        except (OSError, http.client.HTTPException) as fault:
            return replies + [type(fault).__name__]
    return replies


def totals(asked, hits, led):
    return b"asked %d hits %d led %d joined 0 calls %d rehits 0 left 0\n" % (asked, hits, led, led)


def first_line():
    with Server("1", "1", "1") as server:
        row("the line before a client comes", server.said, b"listening\n")


def table():
    with Server("1", "1", "1", "-", given=b"colors\tred\t#ff0000\n") as server:
        client = server.client()
        row("a key of a table", ask(client, "colors/red"), [(200, b"\n\x07#ff0000")])
        row("a group that the table lacks", ask(client, "echo/k"), [(404, b"no such group: echo\n")])
        client.close()
        row("the end of a server with a table", server.end(), (0, totals(1, 0, 1)))


def caches():
    paths = ["echo/k", "echo/k", "square/7", "square/7", "fill/100000", "fill/100000"]
    with Server("1", "1", "1") as server:
        client = server.client()
        statuses = [reply[0] for reply in ask(client, *paths)]
        client.close()
        row("three groups that are each asked twice", statuses, [200] * 6)
        row("the totals", server.end(), (0, totals(6, 3, 3)))


def clients_in_turn(server, count):
    for _ in range(count):
        client = server.client()
        yield ask(client, "echo/k")
        client.close()


def seats():
    for workers, conns, rounds, count in (("2", "1", "2", 2), ("1", "2", "1", 2)):
        with Server(workers, conns, rounds) as server:
            replies = list(clients_in_turn(server, count))
            row(f"clients of {workers} workers and {conns} seats", replies, [[(200, b"\n\x01k")]] * count)
            row("the end behind them", server.end(), (0, totals(count, count - 1, 1)))


def many():
    """One less than a connection gets, each behind a read of its own."""
    with Server("1", "1", "1") as server:
        client = server.client()
        replies = ask(client, *["echo/k"] * 9999)
        row("how many replies one client has", len([reply for reply in replies if reply == (200, b"\n\x01k")]), 9999)


def unread():
    """Who started the server reads its first line alone, so its totals cannot be written."""
    with Server("1", "1", "1") as server:
        server.process.stdout.close()
        client = server.client()
        row("a client of a server whose output nobody reads", ask(client, "echo/k"), [(200, b"\n\x01k")])
        client.close()
        status = server.process.wait(PATIENCE)
        row("its end", (status, server.process.stderr.read()), (4, b"peer_serve: write failed\n"))


def interrupt(process):
    """Stops the process and lets it go on, which ends its reads that wait for a time."""
    for number in (signal.SIGSTOP, signal.SIGCONT) * 5:
        process.send_signal(number)
        time.sleep(0.05)


def interrupted():
    with Server("1", "2", "1") as server:
        client = server.client()
        before = ask(client, "echo/k")
        time.sleep(0.3)
        interrupt(server.process)
        row("a client on both sides of a signal", before + ask(client, "echo/k"), [(200, b"\n\x01k")] * 2)


def stood_still():
    """Where the one seat is taken its client may be silent for a second, and here it asks while the server stands still for three."""
    with Server("1", "1", "1") as server, ThreadPoolExecutor(1) as threads:
        client = server.client()
        before = ask(client, "echo/k")
        time.sleep(0.3)
        server.process.send_signal(signal.SIGSTOP)
        asked = threads.submit(ask, client, "echo/k")
        time.sleep(3)
        server.process.send_signal(signal.SIGCONT)
        row("a client that asks a server which stands still", before + asked.result(), [(200, b"\n\x01k")] * 2)


def half_asked():
    """Where the one seat is taken its client may send for 10 s without a reply, and here its request comes whole while the server stands
    still for longer."""
    with Server("1", "1", "1") as server, socket.create_connection(("127.0.0.1", server.port), PATIENCE) as client:
        client.sendall(HEAD[:10])
        time.sleep(0.5)
        server.process.send_signal(signal.SIGSTOP)
        time.sleep(11)
        client.sendall(HEAD[10:])
        server.process.send_signal(signal.SIGCONT)
        try:
            got = client.recv(10000)
        except OSError as fault:
            got = type(fault).__name__
        row("a request that comes whole while the server stands still", got, FOUND)


HEAD = b"GET /_groupcache/echo/k HTTP/1.1\r\nHost: h\r\n\r\n"
FOUND = b"HTTP/1.1 200 OK\r\nContent-Type: application/x-protobuf\r\nContent-Length: 3\r\n\r\n\n\x01k"


def pipe():
    how = {"stdin": subprocess.PIPE, "stdout": subprocess.PIPE}
    with subprocess.Popen([PROGRAM], **how) as process:
        for _ in range(2):
            process.stdin.write(HEAD)
            process.stdin.flush()
            row("a reply on a pipe that stays open", part_of(process.stdout), FOUND)
        process.stdin.close()
        row("its end", process.wait(PATIENCE), 0)


def cut():
    run = subprocess.run([PROGRAM], input=HEAD[:-1], capture_output=True, timeout=PATIENCE)
    row("a head that is cut", (run.returncode, run.stdout, run.stderr), (2, b"", b"peer_serve: input ended inside a head\n"))


def alone(count):
    """A limit on threads, for a user whom they are counted for."""

    def limit():
        resource.setrlimit(resource.RLIMIT_NPROC, (count, count))
        os.setgroups([])
        os.setuid(ALONE)

    return limit


def threads():
    """Two workers and four seats are seven threads with the first."""
    if os.getuid() != 0:
        print("     no row on threads: it takes root to count those of another user")
        return
    with tempfile.TemporaryDirectory() as folder:
        os.chmod(folder, 0o755)
        program = shutil.copy(PROGRAM, folder)
        os.chmod(program, 0o755)
        for count in range(2, 7):
            with Server("2", "4", "1", limit=alone(count), program=program) as server:
                row(f"the end of a server that gets {count} threads of 7", server.end(), (5, b""))


def main():
    for part in (first_line, table, caches, seats, many, unread, interrupted, stood_still, half_asked, pipe, cut, threads):
        part()
    failures = rows.count(False)
    print(f"rows {len(rows)} failures {failures}")
    sys.exit(1 if failures else 0)


main()
