#!/usr/bin/env python3
"""How long requests take beside slow ones: the built server, with 4 workers, beside groupcache in Go.

    (cd crates/peer_serve && rt run < stdin > /dev/null)    # builds the server
    apt-get install gcc golang-go golang-github-golang-groupcache-dev
    /usr/bin/python3 bench/latency.py [--rounds 5] [SERVER]

A slow key is one of `fill` whose source takes 10 ms more: in ours by bench/slow.c, in Go by a sleep in the getter. A fast key is
hot. Each number is the median over the rounds, in which the servers take turns.

1. One connection sends a fast key and then a slow one: when the first reply is there. It is not to wait for the second.
2. One connection sends 12 fast keys with 4 slow ones among them, each slow key another: when the last reply is there.
3. One connection asks for slow keys, one after the other, and 15 ask for a fast key, each again once it was answered (the load
   generator of bench/net.py): the median of the fast ones, and the slowest in a hundred.
4. 16 connections ask for one slow key at the same moment: when the last of them is answered.
"""
import argparse
import itertools
import os
import socket
import statistics
import sys
import threading
import time

from common import given_words
from growth import replies
from net import HERE, OUT, built, program, run, started

SIZES = itertools.cycle(range(5000, 12001))
SLOW = {"SLOW_FROM": "5000", "SLOW_TO": "12000", "SLOW_US": "10000"}


def request(group, key):
    return f"GET /_groupcache/{group}/{key} HTTP/1.1\r\nHost: h\r\n\r\n".encode()


FAST = request("echo", "k")


LOAD = os.path.join(OUT, "load")
# Whose processor time the load generator is to count: that of this script, which no row shows.
NOBODY = argparse.Namespace(pid=os.getpid())


class Client:
    """A connection, which tells how long replies take, in microseconds."""

    def __init__(self, address):
        host, port = address.split(":")
        self.socket = socket.create_connection((host, int(port)))
        self.socket.setsockopt(socket.IPPROTO_TCP, socket.TCP_NODELAY, 1)
        self.text = self.socket.makefile("rb")

    def __enter__(self):
        return self

    def __exit__(self, *_):
        self.text.close()
        self.socket.close()

    def ask(self, *requests, until=None):
        """The time until so many replies were there, of all by default."""
        start = time.perf_counter()
        self.socket.sendall(b"".join(requests))
        number = len(requests) if until is None else until
        replies(self.text, number)
        took = time.perf_counter() - start
        replies(self.text, len(requests) - number)
        return took * 1e6


def slow():
    return request("fill", next(SIZES))


def first_of_two(address):
    with Client(address) as client:
        client.ask(FAST)
        return (client.ask(FAST, slow(), until=1),)


def slow_among_fast(address):
    with Client(address) as client:
        client.ask(FAST)
        return (client.ask(*[slow() if i % 4 == 1 else FAST for i in range(16)]),)


def fast_beside_slow(address):
    done = threading.Event()

    def ask_slow():
        with Client(address) as client:
            while not done.is_set():
                client.ask(slow())

    thread = threading.Thread(target=ask_slow)
    thread.start()
    found = run(LOAD, "latency", address, NOBODY, ("echo", "hot:k", 15, 1), 0.4)
    done.set()
    thread.join()
    if found is None:
        sys.exit("latency.py: a reply was wrong")
    return found[1], found[2]


def all_for_one(address):
    key, gate, took = slow(), threading.Barrier(16), []

    def ask_one():
        with Client(address) as client:
            client.ask(FAST)
            gate.wait()
            took.append(client.ask(key))

    threads = [threading.Thread(target=ask_one) for _ in range(16)]
    for thread in threads:
        thread.start()
    for thread in threads:
        thread.join()
    return (max(took),)


RUNS = [
    (first_of_two, ["the fast reply of a fast key and a slow one"]),
    (slow_among_fast, ["12 fast keys and 4 slow ones on one connection"]),
    (fast_beside_slow, ["a fast key on 15 connections beside a slow one, median", "the same, slowest in a hundred"]),
    (all_for_one, ["one slow key on 16 connections"]),
]


def main():
    given = given_words("server", "?", "crates/peer_serve/out/peer_serve", rounds=5)
    server = program(given.server)
    os.makedirs(OUT, exist_ok=True)
    built("load", ["gcc", "-O2", "-o", "{out}/load", "load.c", "-lpthread"], ".")
    library = built("slow.so", ["gcc", "-O2", "-shared", "-fPIC", "-o", "{out}/slow.so", os.path.join(HERE, "slow.c")], ".")
    go = built("gcserver", ["go", "build", "-o", "{out}/gcserver", "."], "go", GO111MODULE="off", GOPATH="/usr/share/gocode")
    ours = ["env", f"LD_PRELOAD={library}", *(f"{name}={value}" for name, value in SLOW.items())]
    commands = {
        "ours": [*ours, server, "{addr}", "4", "16", "1000000"],
        "go": [go, "-addr", "{addr}", "-slow-from", "5000", "-slow-to", "12000", "-slow", "10ms"],
    }
    servers = {name: started(command) for name, command in commands.items()}
    print("| microseconds | ours | go | ours / go |\n|---|---|---|---|")
    try:
        for measure, names in RUNS:
            found = {name: [] for name in servers}
            for _ in range(given.rounds):
                for name, (address, _) in servers.items():
                    found[name].append(measure(address))
            for at, what in enumerate(names):
                ours, go = (statistics.median(numbers[at] for numbers in found[name]) for name in ("ours", "go"))
                print(f"| {what} | {ours:,.0f} | {go:,.0f} | {ours / go:.2f} |")
    finally:
        for _, process in servers.values():
            process.kill()


main()
