#!/usr/bin/env python3
"""Many clients of the built peer_front: silent ones, ones that ask and read nothing, and late ones beside busy ones.

    ./build
    python3 bench/loops.py [crates/peer_front/out/peer_front]

It wants `ulimit -n` of 20,000. Each line has a figure and its limit; the last is `failures 0`; where one fails, so does the
program.
"""
import resource
import socket
import subprocess
import sys
import threading
import time

from common import Started, free_port

PROGRAM = sys.argv[1] if len(sys.argv) > 1 else "crates/peer_front/out/peer_front"
SILENT, GREEDY, BUSY, LATE = 9000, 1000, 16, 20
resource.setrlimit(resource.RLIMIT_NOFILE, (20000, 20000))
failures = 0


def request(path):
    return b"GET /_groupcache/%s HTTP/1.1\r\nHost: h\r\n\r\n" % path.encode()


class Server(Started):
    def __init__(self, *words):
        self.address = ("127.0.0.1", free_port())
        listen = "%s:%d" % self.address
        self.process = subprocess.Popen([PROGRAM, "--listen", listen, "--demo", *words], stdout=subprocess.PIPE)
        assert self.process.stdout.readline() == b"listening\n"

    def connect(self):
        client = socket.create_connection(self.address)
        client.settimeout(30)
        return client

    def ask(self, client, path, length):
        client.sendall(request(path))
        return len(client.recv(length, socket.MSG_WAITALL)) == length

    def kib(self):
        with open(f"/proc/{self.process.pid}/status") as status:
            return next(int(line.split()[1]) for line in status if line.startswith("VmRSS"))

    def ticks(self):
        with open(f"/proc/{self.process.pid}/stat") as stat:
            fields = stat.read().split()
        return int(fields[13]) + int(fields[14])


def tell(what, figure, limit, unit, right=True):
    global failures
    bad = figure > limit or not right
    failures += bad
    print(f"{what}: {figure:,.3f} {unit}, at most {limit:,} {'WRONG' if bad else ''}")


def silent():
    with Server() as server:
        before = server.kib()
        clients = [server.connect() for _ in range(SILENT)]
        time.sleep(1)
        tell("memory of a silent client", (server.kib() - before) * 1024 / SILENT, 2048, "bytes")
        ticks = server.ticks()
        time.sleep(10)
        tell("time of a processor beside them in 10 s", (server.ticks() - ticks) / 100, 0.01, "s")
        right = all(server.ask(client, "echo/k", 79) for client in clients)
        tell("silent clients that got no reply", 0 if right else 1, 0, "")


def greedy():
    with Server("--workers", "2") as server:
        clients = []
        for i in range(GREEDY):
            client = server.connect()
            # Behind small replies 64 requests of a client may wait.
            assert all(server.ask(client, "echo/k", 79) for _ in range(6))
            client.sendall(b"".join(request(f"fill/{1000000 + (i * 48 + j) % 48576}") for j in range(48)))
            clients.append(client)
        most, longest = 0, 0.0
        for _ in range(9):
            begun = time.time()
            with server.connect() as client:
                right = server.ask(client, "echo/k", 79)
            longest = max(longest, time.time() - begun)
            most = max(most, server.kib())
            time.sleep(1)
        # One value for each client, --memory, the cache, and what comes before what clients hold is counted, once a second.
        tell(f"memory beside {GREEDY} clients that ask for 48 values of 1 MB and read nothing", most / 1024, 3072, "MiB", right)
        tell("the longest wait of a new client", longest, 1, "s")


def late():
    with Server("--connections", "1000") as server:
        ended = threading.Event()

        def work():
            with server.connect() as client:
                while not ended.is_set():
                    server.ask(client, "echo/k", 79)
                    time.sleep(0.05)

        busy = [threading.Thread(target=work) for _ in range(BUSY)]
        for thread in busy:
            thread.start()
        longest = 0.0
        for _ in range(LATE):
            begun = time.time()
            with server.connect() as client:
                assert server.ask(client, "echo/k", 79)
            longest = max(longest, time.time() - begun)
        ended.set()
        for thread in busy:
            thread.join()
        tell(f"the longest wait of {LATE} late clients beside {BUSY} busy ones", longest, 0.5, "s")


silent()
greedy()
late()
print("failures", failures)
sys.exit(1 if failures else 0)
