#!/usr/bin/env python3
"""How many asks reach a service through a cache: keys by Zipf's law, asked of the built peer_front, of groupcache in Go and of nginx.

    ./build
    apt-get install gcc wrk nginx-light golang-go golang-github-golang-groupcache-dev
    python3 bench/zipf.py [--exponents 0.8,0.99,1.1] [--keys 1000000] [--bytes 100] [--caches 64] [--warm 60] [--seconds 5] [--rounds 5]
        [PROGRAM]

Each has a service of its own, bench/net/origin.c, which counts its calls. peer_front has caches of so many MiB, all told; groupcache,
whose limit counts keys and values alone, as many bytes of these as fit into them; nginx files of so many MiB on /dev/shm, if it is
installed. Each is warmed first, by 64 connections of wrk for so many seconds. Then they take turns, interleaved, since the machine's
own speed swings. A row has for each the median over the rounds of its calls for 100 asks; what one list of as many keys as peer_front
has would come to, by Che's approximation; the rates over groupcache's in the same round, with the least and the largest of ours; and
the resident memory of peer_front and of groupcache at the end.
"""
import argparse
import math
import os
import re
import shutil
import signal
import socket
import statistics
import subprocess
import sys
import tempfile
import time
import urllib.request

from memory import resident
from net import HERE, OUT, built, free_port, program
from rivals import end, nginx

SCRIPT = os.path.join(HERE, "net", "zipf.lua")
GROUP = "values"
# What peer_front counts for an entry beside a short key and a value, and for a value with a block of its own.
BESIDE, BLOCK, SHORT = 144, 72, 46


class Behind:
    """A server with its service, and a folder of its own."""

    def __init__(self, command, size):
        at, self.address = (f"127.0.0.1:{free_port()}" for _ in range(2))
        self.folder = tempfile.mkdtemp(prefix="zipf-", dir="/dev/shm")
        self.service = subprocess.Popen([os.path.join(OUT, "origin"), at, "0", str(size)], stdout=subprocess.PIPE, text=True)
        words = command(self.folder, at, self.address)
        self.process = subprocess.Popen(words, stdin=subprocess.DEVNULL, stdout=subprocess.DEVNULL, stderr=subprocess.DEVNULL)
        self.listens()

    def listens(self):
        for _ in range(200):
            try:
                return socket.create_connection(self.address.split(":"), 1).close()
            except OSError:
                time.sleep(0.05)
        sys.exit(f"zipf.py: {self.process.args[0]} does not listen")

    def calls(self):
        self.service.send_signal(signal.SIGUSR1)
        return int(self.service.stdout.readline())

    def asked(self, given, exponent, seconds, seed):
        """Calls for each 100 asks, and values a second."""
        before = self.calls()
        load = ["wrk", "-t2", "-c64", f"-d{seconds}s", "-s", SCRIPT, f"http://{self.address}/", "--"]
        told = subprocess.run([*load, exponent, str(given.keys), str(seed)], capture_output=True, text=True, check=True).stdout
        asks, rate = int(re.search(r"(\d+) requests in", told)[1]), float(re.search(r"Requests/sec:\s+([\d.]+)", told)[1])
        if "Non-2xx" in told or not asks:
            sys.exit(f"zipf.py: {self.address} answered another status, or nothing")
        return 100 * (self.calls() - before) / asks, rate

    def end(self):
        end(self.process)
        self.service.kill()
        self.service.wait()
        shutil.rmtree(self.folder, ignore_errors=True)


class Commands:
    """How the servers are started, with caches of so many MiB."""

    def __init__(self, given, cache):
        self.path, self.cache, self.page = program(given.program), cache, f"127.0.0.1:{free_port()}"
        self.go = built("go_cache", ["go", "build", "-o", "{out}/go_cache", "."], "go_cache", GO111MODULE="off", GOPATH="/usr/share/gocode")
        self.texts = len(str(given.keys)) - 1 + given.bytes

    def peer_front(self, _, service, address):
        words = ["--listen", address, "--stats", self.page, "--cache", f"{self.cache}MiB"]
        return [self.path, *words, f"{GROUP}=http://{service}/"]

    def groupcache(self, folder, service, address):
        entry = BESIDE + self.texts + BLOCK * (self.texts > SHORT)
        return [self.go, "-addr", address, "-cache", str((self.cache << 20) // entry * self.texts), f"{GROUP}=http://{service}/"]

    def nginx(self, folder, service, address):
        return nginx(folder, service, address, GROUP, f"{self.cache}m")

    def all(self):
        return {one.__name__: one for one in (self.peer_front, self.groupcache, *[self.nginx] * bool(shutil.which("nginx")))}

    def entries(self):
        """How many keys peer_front has."""
        with urllib.request.urlopen(f"http://{self.page}/metrics", timeout=10) as page:
            return int(re.search(r"^peer_front_group_cache_entries\{.*\} (\d+)$", page.read().decode(), re.MULTILINE)[1])


def of_one_list(exponent, keys, entries):
    """How many of 100 asks one list of so many keys misses, by Che's approximation: a key stays for the same time after each ask."""
    left = 1 - float(exponent)
    parts = [(key + 1) ** left - key**left for key in range(1, keys + 1)] if left else [math.log1p(1 / key) for key in range(1, keys + 1)]
    whole = sum(parts)
    parts = [part / whole for part in parts]
    least, most = 0.0, 1e12
    for _ in range(60):
        asks = (least + most) / 2
        held = sum(-math.expm1(-part * asks) for part in parts)
        least, most = (asks, most) if held < entries else (least, asks)
    return 100 * sum(part * math.exp(-part * most) for part in parts)


def compared(servers, given, exponent):
    """For each server what it did in each round."""
    found = {name: [] for name in servers}
    for server in servers.values():
        server.asked(given, exponent, given.warm, 0)
    for turn in range(1, given.rounds + 1):
        for name, server in servers.items():
            found[name].append(server.asked(given, exponent, given.seconds, turn * 100_003))
    return found


def row(given, cache, exponent):
    """A row of the table."""
    commands = Commands(given, cache)
    servers = {name: Behind(command, given.bytes) for name, command in commands.all().items()}
    try:
        found = compared(servers, given, exponent)
        memory = [f"{resident(servers[name].process) >> 20}" for name in ("peer_front", "groupcache")]
        entries = commands.entries()
    finally:
        for server in servers.values():
            server.end()
    calls = [f"{statistics.median(calls for calls, _ in rounds):.1f}" for rounds in found.values()]
    calls.insert(1, f"{of_one_list(exponent, given.keys, entries):.1f}" if entries < given.keys else "")
    rates = {name: [one[1] / go[1] for one, go in zip(rounds, found["groupcache"])] for name, rounds in found.items()}
    ours = rates.pop("peer_front")
    shown = f"{statistics.median(ours):.2f} ({min(ours):.2f} to {max(ours):.2f})"
    others = [f"{statistics.median(ratios):.2f}" for name, ratios in rates.items() if name != "groupcache"]
    return [f"{cache} MiB", exponent, f"{entries:,}", *calls, shown, *others, *memory]


def main():
    words = argparse.ArgumentParser(description=__doc__.split("\n", 1)[0])
    words.add_argument("--exponents", default="0.8,0.99,1.1")
    words.add_argument("--keys", type=int, default=1_000_000)
    words.add_argument("--bytes", type=int, default=100)
    words.add_argument("--caches", default="64")
    words.add_argument("--warm", type=int, default=60)
    words.add_argument("--seconds", type=int, default=5)
    words.add_argument("--rounds", type=int, default=5)
    words.add_argument("program", nargs="?", default=os.path.join(HERE, "..", "crates", "peer_front", "out", "peer_front"))
    given = words.parse_args()
    os.makedirs(OUT, exist_ok=True)
    built("origin", ["gcc", "-O2", "-o", "{out}/origin", "origin.c"], ".")
    more = ["nginx"] * bool(shutil.which("nginx"))
    print(f"{given.keys:,} keys, values of {given.bytes} bytes; load average {os.getloadavg()[0]:.1f}\n")
    heads = ["--cache", "exponent", "keys that it holds", "calls for 100 asks: peer_front", "one list of as many keys", "groupcache", *more]
    heads += ["rate over groupcache's: peer_front", *more, "resident MiB: peer_front", "groupcache"]
    print("| " + " | ".join(heads) + " |\n" + "|---" * len(heads) + "|")
    for cache in map(int, given.caches.split(",")):
        for exponent in given.exponents.split(","):
            print("| " + " | ".join(row(given, cache, exponent)) + " |", flush=True)


if __name__ == "__main__":
    main()
