#!/usr/bin/env python3
"""A hundred million requests to the built peer_front: every reply right, memory flat, totals exact.

    ./build
    apt-get install gcc
    python3 bench/soak.py [--million N] [crates/peer_front/out/peer_front]

They come in turns of a million, over 64 connections with 16 requests in flight on each. Of ten turns eight ask for three thousand
keys, which a cache holds, one for a hundred thousand, which it does not, and one for keys that nobody asked for before. The load
generator of bench/net checks each reply byte by byte. Memory is read behind each turn: behind the first tenth of them, in which
the caches fill, it may grow by 5 MiB at most. The last line is `rows N failures 0`; where a row fails, so does the program.
"""
import argparse
import os
import re
import subprocess
import sys

from net import OUT, built, free_port, program

MILLION = 1_000_000
GROWTH = 5120  # KiB
KEYS = ["uniform:3000"] * 8 + ["uniform:100000", "unique"]
failures = []
rows = 0


def row(name, value, wanted, ok):
    global rows
    rows += 1
    if not ok:
        failures.append(name)
    print(f"{'ok   ' if ok else 'WRONG'} {name}: {value} (wanted: {wanted})", flush=True)


class Server:
    """A server with 64 MiB for each cache, and what it prints at its end."""

    def __init__(self, path):
        self.address = f"127.0.0.1:{free_port()}"
        words = [path, "--listen", self.address, "--demo", "--until-eof"]
        self.process = subprocess.Popen(words, stdin=subprocess.PIPE, stdout=subprocess.PIPE, stderr=subprocess.DEVNULL, text=True)
        self.said = self.process.stdout.readline()

    def kib(self):
        with open(f"/proc/{self.process.pid}/status", encoding="ascii") as lines:
            return next(int(line.split()[1]) for line in lines if line.startswith("VmRSS"))

    def end(self):
        """Its totals by name, and its status."""
        self.process.stdin.close()
        line = self.process.stdout.read()
        words = line.split()
        return dict(zip(words[::2], map(int, words[1::2]))), self.process.wait(60)


def ask(load, server, count, keys):
    """How many of so many replies came, and how many were wrong."""
    command = [load, "-a", server.address, "-c", "64", "-d", "16", "-T", "2", "-t", "120", "-n", str(count), "-g", "echo", "-k", keys, "-e"]
    told = subprocess.run(command, stdout=subprocess.PIPE, text=True, check=True).stdout
    found = re.search(r"requests (\d+) .*failed (\d+)", told)
    return int(found[1]), int(found[2])


def soak(load, server, wanted):
    """How many replies came, how many were wrong, and the memory behind each turn."""
    came = wrong = 0
    memory = []
    while came < wanted and not wrong:
        keys = KEYS[len(memory) % len(KEYS)]
        replies, wrong = ask(load, server, min(MILLION, wanted - came), keys)
        came += replies
        memory.append(server.kib())
        if len(memory) % len(KEYS) == 0:
            print(f"      {came} replies, {memory[-1]} KiB", flush=True)
    return came, wrong, memory


def main():
    parser = argparse.ArgumentParser()
    parser.add_argument("program", nargs="?", default="crates/peer_front/out/peer_front")
    parser.add_argument("--million", type=int, default=100)
    options = parser.parse_args()
    os.makedirs(OUT, exist_ok=True)
    load = built("load", ["gcc", "-O2", "-o", "{out}/load", "load.c", "-lpthread"], ".")
    server = Server(program(options.program))
    wanted = options.million * MILLION
    came, wrong, memory = soak(load, server, wanted)
    row("replies", came, wanted, came == wanted)
    row("of these wrong", wrong, 0, wrong == 0)
    filled = max(1, options.million // 10)
    growth = max(memory[filled:], default=memory[-1]) - memory[filled - 1]
    row("growth behind the first tenth, in KiB", growth, f"{GROWTH} at most", growth <= GROWTH)
    totals, status = server.end()
    row("requests counted", totals.get("asked"), came, totals.get("asked") == came)
    parts = totals.get("hits", 0) + totals.get("led", 0) + totals.get("joined", 0)
    row("hits, led and joined", parts, came, parts == came)
    fills = totals.get("calls", 0) + totals.get("rehits", 0) + totals.get("left", 0)
    row("calls, rehits and left", fills, totals.get("led"), fills == totals.get("led"))
    row("status", status, 0, status == 0)
    print(f"rows {rows} failures {len(failures)}")
    sys.exit(1 if failures else 0)


main()
