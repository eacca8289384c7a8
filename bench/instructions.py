#!/usr/bin/env python3
"""Instructions a request of the built programs, counted by callgrind: they do not change with what else the machine does.

    (cd crates/peer_serve && rt run < stdin > /dev/null)    # builds it
    (cd crates/exchange_rate && rt run < stdin)             # builds the program of one exchange
    ./build
    apt-get install valgrind
    python3 bench/instructions.py [--parts] [--only ROWS] [--keys 99000] [crates/peer_serve/out/peer_serve]

Serial: so many requests on standard input, one thread, no cache. Over a connection: the server with one worker, a client that
has 16 requests in flight. A loop: peer_front with one loop and the same client; its counters are published in each turn. An
exchange: a connection as a state over memory, as the loops of peer_front have one for each client, in one thread that fills the jobs
too; a thousand bytes come in each turn. Each row runs 1,000 requests and 9,000; what the 9,000 took more, over 8,000, is the number
for one. Over a connection the threads wait for one another, so the median of three runs is given with the least and the largest. A
loop's last row is of so many keys that are kept, by --keys; 1,000,000 take twelve minutes. --only serial, connection, loop or
exchange prints those rows alone, and scattered that last one. With --parts it prints in place of that what share of a run's
instructions which part of the program takes, by the names of functions; what a compiler wrote into another function counts as that
one's.
"""
import argparse
import collections
import os
import re
import socket
import statistics
import subprocess
import sys
import tempfile

from profile import GROUPS, group_of

FEW, MANY = 1000, 9000
GO = "Host: 10.0.0.1:8001\r\nUser-Agent: Go-http-client/1.1\r\nAccept-Encoding: gzip\r\n"


def request(path, fields="Host: a\r\n"):
    return f"GET /_groupcache/{path} HTTP/1.1\r\n{fields}\r\n".encode()


def same(path, fields="Host: a\r\n"):
    return lambda i: request(path, fields)


SERIAL = [
    ("echo/k, 45 bytes", same("echo/k")),
    ("echo/k, the head of Go's client", same("echo/k", GO)),
    ("echo, each key once", lambda i: request(f"echo/{i:09}")),
    ("fill/1024", same("fill/1024")),
    ("a group that is not there: 404", same("none/k")),
]
CONNECTED = [
    ("a hit: echo/k, 45 bytes", same("echo/k")),
    ("a hit: echo/k, the head of Go's client", same("echo/k", GO)),
    ("a key asked for once: echo", lambda i: request(f"echo/{i:09}")),
]
EXCHANGE = [
    ("a hit: echo/k, 45 bytes", same("echo/k")),
    ("a hit: echo/k, the head of Go's client", same("echo/k", GO)),
    ("a key asked for once: echo", lambda i: request(f"echo/{i:09}")),
    ("a group that is not there: 404", same("none/k")),
]


def scattered(i):
    """Each key once, and then one after the other that have nothing to do with one another."""
    return request(f"echo/{i if i < options.keys else i * 7919 % options.keys:09}", GO)


def print_scattered():
    keys = options.keys
    name = f"a hit of {keys:,} keys in no order: echo, the head of Go's client"
    print(f"| a loop, {name} | {each(looped, scattered, keys + MANY, 2 * keys):,.0f} |")


def counted(words, program=None, **how):
    """A process under callgrind, whose last line but one tells how many instructions it took."""
    tool = ["valgrind", "--tool=callgrind", f"--callgrind-out-file={options.out}"]
    path = os.path.abspath(program or options.program)
    return subprocess.Popen([*tool, path, *words], stderr=subprocess.PIPE, text=True, **how)


def total(process):
    found = re.search(r"Collected : (\d+)", process.communicate()[1])
    if not found or process.returncode:
        sys.exit(f"instructions.py: the program ended with status {process.returncode}")
    return int(found[1])


def serial(made, number, program=None):
    with tempfile.TemporaryFile() as requests:
        requests.write(b"".join(made(i) for i in range(number)))
        requests.seek(0)
        return total(counted([], program, stdin=requests, stdout=subprocess.DEVNULL))


def exchange(made, number):
    return serial(made, number, options.exchange)


def free_port():
    with socket.socket() as probe:
        probe.bind(("127.0.0.1", 0))
        return probe.getsockname()[1]


def replies(client, number):
    """Takes so many replies off a buffered client."""
    for _ in range(number):
        length = 0
        while (line := client.readline()) not in (b"\r\n", b""):
            if line.startswith(b"Content-Length:"):
                length = int(line[15:])
        if line == b"" or len(client.read(length)) != length:
            sys.exit("instructions.py: the connection ended early")


def looped(made, number):
    port = free_port()
    words = ["--listen", f"127.0.0.1:{port}", "--demo", "--loops", "1", "--cache", "256MiB", "--until-eof"]
    server = counted(words, options.front, stdin=subprocess.PIPE, stdout=subprocess.PIPE)
    ask_all(server, port, made, number)
    return total(server)


def connected(made, number):
    port = free_port()
    server = counted([f"127.0.0.1:{port}", "1", "1", "1"], stdout=subprocess.PIPE)
    ask_all(server, port, made, number)
    return total(server)


def ask_all(server, port, made, number):
    """Asks a server that says that it listens, 9,000 requests over each connection, since the 10,000th reply closes it."""
    server.stdout.readline()
    for first in range(0, number, MANY):
        ask_some(port, made, range(first, min(first + MANY, number)))


def ask_some(port, made, numbers):
    """Asks over one connection, 16 requests at a time."""
    with socket.create_connection(("127.0.0.1", port)) as client, client.makefile("rb") as text:
        client.setsockopt(socket.IPPROTO_TCP, socket.TCP_NODELAY, 1)
        for i in range(0, len(numbers), 16):
            batch = numbers[i : i + 16]
            client.sendall(b"".join(made(j) for j in batch))
            replies(text, len(batch))


def each(run, made, few=FEW, many=MANY):
    return (run(made, many) - run(made, few)) / (many - few)


def shares(run, made):
    """The share of each group of functions in the instructions of a run."""
    run(made, MANY)
    told = subprocess.run(["callgrind_annotate", "--threshold=100", options.out], capture_output=True, text=True, check=True).stdout
    sums = collections.Counter()
    for count, name in re.findall(r"^ *([\d,]+) \([ \d.]+%\) +(.+)$", told, re.M):
        if name != "PROGRAM TOTALS":
            sums[group_of(name)] += int(count.replace(",", ""))
    return {group: share / sums.total() for group, share in sums.items()}


def print_parts():
    loads = [("one thread", serial, SERIAL[0]), ("a hit", connected, CONNECTED[0]), ("asked for once", connected, CONNECTED[2])]
    columns = []
    for _, run, (_, made) in loads:
        with tempfile.NamedTemporaryFile() as out:
            options.out = out.name
            columns.append(shares(run, made))
    print("| part | " + " | ".join(name for name, _, _ in loads) + " |")
    print("|---" * (len(loads) + 1) + "|")
    for group in [name for name, _ in GROUPS if any(name in column for column in columns)] + ["the rest"]:
        print(f"| {group} | " + " | ".join(f"{column.get(group, 0):.1%}" for column in columns) + " |")


def print_counts():
    print("| request | instructions |\n|---|---|")
    for name, made in SERIAL if options.only in (None, "serial") else []:
        print(f"| serial, {name} | {each(serial, made):,.0f} |")
    for name, made in CONNECTED if options.only in (None, "connection") else []:
        counts = [each(connected, made) for _ in range(3)]
        print(f"| over a connection, {name} | {statistics.median(counts):,.0f} ({min(counts):,.0f} to {max(counts):,.0f}) |")
    for name, made in CONNECTED if options.only in (None, "loop") else []:
        counts = [each(looped, made) for _ in range(3)]
        print(f"| a loop, {name} | {statistics.median(counts):,.0f} ({min(counts):,.0f} to {max(counts):,.0f}) |")
    if options.only in (None, "loop", "scattered"):
        print_scattered()
    for name, made in EXCHANGE if options.only in (None, "exchange") else []:
        print(f"| an exchange, {name} | {each(exchange, made):,.0f} |")


parser = argparse.ArgumentParser()
parser.add_argument("program", nargs="?", default="crates/peer_serve/out/peer_serve")
parser.add_argument("--exchange", default="crates/exchange_rate/out/exchange_rate")
parser.add_argument("--front", default="crates/peer_front/out/peer_front")
parser.add_argument("--only", choices=["serial", "connection", "loop", "scattered", "exchange"])
parser.add_argument("--keys", type=int, default=99_000)
parser.add_argument("--parts", action="store_true")
options = parser.parse_args()
options.out = "/dev/null"
programs = {"serial": options.program, "connection": options.program, "exchange": options.exchange}
programs |= {"loop": options.front, "scattered": options.front}
needed = [programs[options.only]] if options.only else [options.program] if options.parts else sorted(set(programs.values()))
for program in needed:
    if not os.path.exists(program):
        sys.exit(f"instructions.py: no program {program}: run `rt run < stdin` in its crate first")
print_parts() if options.parts else print_counts()
