#!/usr/bin/env python3
"""What memory the built peer_front takes under load, by the flags of the README's three sizes of machine.

    ./build
    python3 bench/sizes.py [--value 20000] [--groups 1] [SIZE ..]    # sizes: 512MiB 2GiB 16GiB

A service gives values of so many bytes. Clients, nine tenths of --connections, ask for new keys one after the other, until every
cache was filled once and a quarter; so many groups share the cache of the size. A tenth of them then asks for eight values and takes
nothing, while the others go on for 8 s. Each line has the flags, the memory of the process at its worst moment and at the end, and
the values a second meanwhile. A size is left out if the machine has less free memory than that. Every reply is looked at: one that
is no value ends the script. It wants `ulimit -Hn` of 20,000, and takes minutes.
"""
import argparse
import multiprocessing
import resource
import selectors
import socket
import sys
import time

from common import Listening, Service

PROGRAM = "crates/peer_front/out/peer_front"
GIB, MIB = 1 << 30, 1 << 20
# The memory of the machine, the bytes of all caches, the connections, and the other flags.
SIZES = {
    "512MiB": (512 * MIB, 128 * MIB, 500, ["--memory", "32MiB", "--under-way", "64"]),
    "2GiB": (2 * GIB, GIB, 1500, ["--memory", "128MiB", "--under-way", "256"]),
    "16GiB": (16 * GIB, 8 * GIB, 10000, ["--memory", "1GiB", "--loops", "4", "--fetchers", "2"]),
}
SECONDS, LEFT_UNTAKEN, TENTH = 8, 8, 10
# As many connections to the service as begin at one moment.
BACKLOG = 4096


def serve_values(length, told):
    """A service whose values have this length. It tells its port, and serves until its process ends."""
    reply = b"HTTP/1.1 200 OK\r\nContent-Length: %d\r\n\r\n" % length + b"v" * length

    def serve(stream):
        waiting = b""
        while got := stream.recv(10000):
            waiting += got
            while b"\r\n\r\n" in waiting:
                waiting = waiting.partition(b"\r\n\r\n")[2]
                stream.sendall(reply)

    service = Service(serve)
    service.listener.listen(BACKLOG)
    told.send(service.port)
    time.sleep(3600)


class Client:
    """A connection with one request under way, of whose reply so many bytes are still to come."""

    def __init__(self, address):
        self.stream = socket.create_connection(address)
        self.left, self.is_new = 0, True

    def ask(self, group, key):
        self.stream.sendall(b"GET /_groupcache/g%d/k%d HTTP/1.1\r\nHost: h\r\n\r\n" % (group, key))
        self.left, self.is_new = 0, True

    def take(self, length):
        """Whether the reply is there. Those of values have one length, which `length` gives for the first bytes."""
        got = self.stream.recv(1 << 18)
        if self.is_new:
            if not got.startswith(b"HTTP/1.1 200"):
                sys.exit(f"sizes.py: no value: {got[:200]}")
            self.left, self.is_new = length(got), False
        self.left -= len(got)
        return self.left == 0


def length_of(first):
    """The bytes of a reply, by its first ones."""
    head = first.partition(b"\r\n\r\n")[0]
    length = next(int(line.split(b":")[1]) for line in head.split(b"\r\n") if line.lower().startswith(b"content-length:"))
    return len(head) + 4 + length


class Clients:
    """Clients that each ask for one new key after the other."""

    def __init__(self, address, count, groups):
        self.clients, self.groups, self.asked, self.answered = [], groups, 0, 0
        self.selector = selectors.DefaultSelector()
        for _ in range(count):
            client = Client(address)
            self.clients.append(client)
            self.selector.register(client.stream, selectors.EVENT_READ, client)
            self.ask(client)

    def ask(self, client):
        self.asked += 1
        client.ask(self.asked % self.groups, self.asked)

    def turn(self):
        for found, _ in self.selector.select(1):
            if found.data.take(length_of):
                self.answered += 1
                self.ask(found.data)

    def until_answered(self, count):
        while self.answered < count:
            self.turn()

    def for_seconds(self, seconds):
        """How many values a second come meanwhile."""
        begun, before = time.monotonic(), self.answered
        while time.monotonic() < begun + seconds:
            self.turn()
        return (self.answered - before) / (time.monotonic() - begun)

    def let_some_stop(self):
        """A tenth of the clients asks for more, and takes nothing from now on."""
        for client in self.clients[::TENTH]:
            self.selector.unregister(client.stream)
            for _ in range(LEFT_UNTAKEN):
                self.ask(client)


def memory_of(process, name):
    with open(f"/proc/{process.pid}/status", encoding="utf-8") as status:
        return next(int(line.split()[1]) / 1024 for line in status if line.startswith(name))


def free_memory():
    with open("/proc/meminfo", encoding="ascii") as lines:
        return next(int(line.split()[1]) * 1024 for line in lines if line.startswith("MemAvailable"))


def measure(name, given):
    machine, cache, connections, flags = SIZES[name]
    if free_memory() < machine:
        print(f"{name} is left out: {free_memory() / GIB:.1f} GiB are free")
        return
    # The service is slow beside all clients: it may take longer than by default.
    words = ["--cache", str(cache // given.groups), "--connections", str(connections), *flags, "--timeout", "60"]
    here, there = multiprocessing.Pipe()
    service = multiprocessing.Process(target=serve_values, args=(given.value, there), daemon=True)
    service.start()
    port = here.recv()
    groups = [f"g{number}=http://127.0.0.1:{port}/" for number in range(given.groups)]
    with Listening(PROGRAM, *words, *groups) as server:
        # With all connections taken, one that is silent for a second is closed.
        clients = Clients(server.address, connections * 9 // 10, given.groups)
        clients.until_answered(int(1.25 * cache / given.value))
        clients.let_some_stop()
        rate = clients.for_seconds(SECONDS)
        worst, last = memory_of(server.process, "VmHWM"), memory_of(server.process, "VmRSS")
        print(f"{name}: {' '.join(words)}: {worst:,.0f} MiB at most, {last:,.0f} MiB at the end, {rate:,.0f} values/s", flush=True)
    service.kill()


def main():
    parser = argparse.ArgumentParser()
    parser.add_argument("sizes", nargs="*", default=list(SIZES))
    parser.add_argument("--value", type=int, default=20000)
    parser.add_argument("--groups", type=int, default=1)
    given = parser.parse_args()
    most = resource.getrlimit(resource.RLIMIT_NOFILE)[1]
    resource.setrlimit(resource.RLIMIT_NOFILE, (most, most))
    for name in given.sizes:
        measure(name, given)


if __name__ == "__main__":
    main()
