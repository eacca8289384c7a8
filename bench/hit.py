#!/usr/bin/env python3
"""How often a built server asks for memory for a request.

    ./build
    python3 bench/hit.py [crates/peer_front/out/peer_front]
    python3 bench/hit.py crates/peer_serve/out/peer_serve

gcc builds bench/hit.c, which is loaded before the C library and counts each call of malloc, calloc, realloc, aligned_alloc
and posix_memalign. On one connection a request is made once, so that the cache holds its value, then 1,000 times, and then
2,000 times: one after the other, or pipelined. What the 2,000 took more than the 1,000, over 1,000, is the number for one.
The server's totals have to show that all but the first were hits. The first row is a request that names no key: what it
takes, reading and writing take.
"""
import os
import socket
import struct
import subprocess
import sys
import tempfile

from common import Started, free_port

PROGRAM = sys.argv[1] if len(sys.argv) > 1 else "crates/peer_front/out/peer_front"
HERE = os.path.dirname(os.path.abspath(__file__))
REFUSED = b"HTTP/1.1 405 Method Not Allowed\r\nAllow: GET, HEAD\r\nContent-Length: 0\r\n\r\n"
FOUND = b"HTTP/1.1 200 OK\r\nContent-Type: application/x-protobuf\r\nContent-Length: 3\r\n\r\n\n\x01k"
HITS = "asked 3001 hits 3000 led 1 "
# what is asked, method and key, the reply, how the totals begin
ROWS = [
    ("another method", "POST", "k", REFUSED, "asked 0 "),
    ("a hit", "GET", "k", FOUND, HITS),
    ("a hit, its key with an escape", "GET", "%6B", FOUND, HITS),
]


class Server(Started):
    """A server of one connection, whose calls for memory are counted in a file."""

    def __init__(self, library, path):
        with open(path, "wb") as file:
            file.write(bytes(8))
        self.path, self.port = path, free_port()
        address = f"127.0.0.1:{self.port}"
        words = ["--listen", address, "--demo", "--until-eof"] if "peer_front" in PROGRAM else [address, "1", "1", "1"]
        environment = dict(os.environ, LD_PRELOAD=library, COUNT_TO=path)
        pipe = subprocess.PIPE
        self.process = subprocess.Popen([PROGRAM, *words], env=environment, stdin=pipe, stdout=pipe, stderr=subprocess.DEVNULL, text=True)
        if self.process.stdout.readline() != "listening\n":
            sys.exit("hit.py: the server did not start")

    def counted(self):
        with open(self.path, "rb") as file:
            return struct.unpack("N", file.read())[0]

    def totals(self):
        totals, _ = self.process.communicate(timeout=30)
        return totals.strip()


def ask(client, request, reply, number, at_once):
    """Asks so often, so many at once, and takes all replies."""
    for _ in range(0, number, at_once):
        client.sendall(request * at_once)
        text = b""
        while len(text) < at_once * len(reply):
            part = client.recv(1 << 20)
            if not part:
                sys.exit("hit.py: the connection ended early")
            text += part
        if text != reply * at_once:
            sys.exit("hit.py: another reply came")


def calls(server, request, reply, at_once):
    """The calls for memory of 1,000 requests and of 2,000."""
    seen = []
    with socket.create_connection(("127.0.0.1", server.port), 30) as client:
        client.settimeout(30)
        ask(client, request, reply, 1, 1)
        for number in (1000, 2000):
            before = server.counted()
            ask(client, request, reply, number, at_once)
            seen.append(server.counted() - before)
    return seen


def main():
    if not os.path.exists(PROGRAM):
        sys.exit(f"hit.py: no program {PROGRAM}: build it first, as the head of this script says")
    with tempfile.TemporaryDirectory() as folder:
        library = os.path.join(folder, "hit.so")
        subprocess.run(["gcc", "-O2", "-shared", "-fPIC", "-o", library, os.path.join(HERE, "hit.c")], check=True)
        for name, method, key, reply, start in ROWS:
            for at_once in (1, 10, 1000):
                with Server(library, os.path.join(folder, "count")) as server:
                    request = f"{method} /_groupcache/echo/{key} HTTP/1.1\r\nHost: h\r\n\r\n".encode()
                    few, many = calls(server, request, reply, at_once)
                    totals = server.totals()
                if not totals.startswith(start):
                    sys.exit(f"hit.py: these are the totals: {totals}")
                each = (many - few) / 1000
                print(f"{name:30} {at_once:4} at once: 1,000 take {few:5} calls for memory, 2,000 {many:5}: {each:.3f} each")


main()
