#!/usr/bin/env python3
"""How the rate of the built server grows: with connections, requests in flight, the size of values, entries, and workers.

    (cd crates/peer_serve && rt run < stdin > /dev/null)    # builds the server
    /usr/bin/python3 bench/growth.py [--rounds 5] [--seconds 0.3] [SERVER]

The first four tables are over sockets with the load generator of bench/net.py, which checks every reply: medians of the rounds,
in which the rows take turns. For the last table bench/slow.c is loaded before the C library, so that each call of the source
for `fill` takes 1 ms more: keys that are each asked for once are answered in proportion to the workers, and one key
that all of 16 connections ask for is called for once.
"""
import argparse
import os
import re
import socket
import statistics
import subprocess
import sys
import threading
import time

from net import HERE, OUT, built, free_port, program, run, started

SLOW = {"SLOW_FROM": "5000", "SLOW_TO": "12000", "SLOW_US": "1000"}


def table(title, heads, rows):
    print(f"\n{title}\n\n| {' | '.join(heads)} |\n{'|---' * len(heads)}|")
    for row in rows:
        print(f"| {' | '.join(row)} |")


def rates(load, server, cells, rounds, seconds):
    """For each load its median rate, and its median of processor time a request in microseconds."""
    results = {cell: [] for cell in cells}
    for _ in range(rounds):
        for cell in cells:
            if found := run(load, "ours", *server, cell, seconds):
                results[cell].append(found)
    return {cell: [statistics.median(r[at] for r in found) for at in (0, 4)] for cell, found in results.items()}


def grow(load, server, given):
    """The four tables in which the source takes no time."""
    conns = [("echo", "hot:k", c, 16) for c in (1, 2, 4, 8, 16)]
    depths = [("echo", "hot:k", 4, d) for d in (1, 4, 16, 64, 256)]
    sizes = [("fill", f"hot:{n}", 4, 4) for n in (1, 100, 10_000, 100_000, 1_048_576)]
    entries = [("echo", f"uniform:{n}", 4, 16) for n in (100, 500, 1000, 2000, 4096)]
    found = rates(load, server, [*conns, *depths, *sizes, *entries], given.rounds, given.seconds)
    cost = lambda cell: (f"{found[cell][0]:,.0f}", f"{found[cell][1]:.2f}")
    heads = ("requests a second", "us of processor time for one")
    table("One hot key, 16 requests in flight on each connection:", ("connections", *heads), [(str(c[2]), *cost(c)) for c in conns])
    table("One hot key, 4 connections:", ("in flight on each", *heads), [(str(c[3]), *cost(c)) for c in depths])
    rows = [(c[1][4:], *cost(c), f"{found[c][0] * int(c[1][4:]) / 1e6:,.0f}") for c in sizes]
    table("One hot value, 4 connections with 4 requests in flight:", ("bytes", *heads, "MB a second"), rows)
    table("Keys at random that are all kept, 4 connections with 16 requests in flight:", ("keys", *heads), [(c[1][8:], *cost(c)) for c in entries])


def take(client, length):
    if len(client.read(length)) != length:
        sys.exit("growth.py: the connection ended early")


def replies(client, number):
    """Takes so many replies of status 200 off a buffered client, with a length or in chunks."""
    for _ in range(number):
        length = None
        if not client.readline().startswith(b"HTTP/1.1 200 "):
            sys.exit("growth.py: another status")
        while (line := client.readline()) != b"\r\n":
            if line.startswith(b"Content-Length:"):
                length = int(line[15:])
        if length is not None:
            take(client, length)
            continue
        while size := int(client.readline(), 16):
            take(client, size + 2)
        take(client, 2)


def ask(address, keys):
    """Asks for these keys of `fill` on one connection."""
    with socket.create_connection(address) as client, client.makefile("rb") as text:
        client.sendall(b"".join(b"GET /_groupcache/fill/%d HTTP/1.1\r\nHost: h\r\n\r\n" % key for key in keys))
        replies(text, len(keys))


def ask_all(address, lists):
    """Asks for each list on a connection of its own, and gives the seconds that took."""
    threads = [threading.Thread(target=ask, args=(address, keys)) for keys in lists]
    start = time.perf_counter()
    for thread in threads:
        thread.start()
    for thread in threads:
        thread.join()
    return time.perf_counter() - start


def slow_server(server, library, workers):
    """A server of 16 connections in all, whose source takes 1 ms more for some values."""
    port = free_port()
    command = [server, f"127.0.0.1:{port}", str(workers), "16", "1"]
    process = subprocess.Popen(command, env={**os.environ, "LD_PRELOAD": library, **SLOW}, stdout=subprocess.PIPE, text=True)
    process.stdout.readline()
    return ("127.0.0.1", port), process


def slow_row(server, library, workers):
    """Of a source that takes 1 ms: the rate of keys asked for once, and how often it is called for one key."""
    number = 150 * workers
    address, process = slow_server(server, library, workers)
    took = ask_all(address, [range(5000 + i, 5000 + number, 4) for i in range(4)])
    process.kill()
    process.wait()
    address, process = slow_server(server, library, workers)
    ask_all(address, [[5000] * 100 for _ in range(16)])
    totals = process.communicate(timeout=30)[0]
    return (str(workers), f"{number / took:,.0f}", f"{number / took / workers / 1000:.2f}", re.search(r"calls (\d+)", totals)[1])


def main():
    parser = argparse.ArgumentParser()
    parser.add_argument("server", nargs="?", default="crates/peer_serve/out/peer_serve")
    parser.add_argument("--rounds", type=int, default=5)
    parser.add_argument("--seconds", type=float, default=0.3)
    given = parser.parse_args()
    server = program(given.server)
    os.makedirs(OUT, exist_ok=True)
    load = built("load", ["gcc", "-O2", "-o", "{out}/load", "load.c", "-lpthread"], ".")
    library = built("slow.so", ["gcc", "-O2", "-shared", "-fPIC", "-o", "{out}/slow.so", os.path.join(HERE, "slow.c")], ".")
    address, process = started([server, "{addr}", "2", "16", "1000000"])
    try:
        grow(load, (address, process), given)
    finally:
        process.kill()
    heads = ("workers", "requests a second", "of 1,000 for each worker", "calls for one key that is asked for 1,600 times")
    rows = [slow_row(server, library, workers) for workers in (1, 2, 4, 8, 16)]
    table("A source that takes 1 ms; each key once, on 4 connections:", heads, rows)


if __name__ == "__main__":
    main()
