#!/usr/bin/env python3
"""By how much the built peer_front grows while its cache fills up, against what `--cache` says.

    ./build
    apt-get install gcc wrk
    python3 bench/memory.py [--caches 64,256,1024] [--values 20,100,1000,10000] [--seconds 2] [--beside] [PROGRAM]

For each cache, in MiB, and each length of values a server of its own is asked for keys that are each asked for once, until what its
cache holds grows no more. What it grew by is its resident memory then, less what it was after a load of one key, which gives each
connection its buffers. A cell has that over the flag, and how many entries the cache has, if the page tells it. With `--beside` one
client asks meanwhile for 1,000 keys that are kept, which lie in all shards, and a cell has the time of its slowest reply, and of how
many. What else takes processors makes that longer.
"""
import argparse
import concurrent.futures
import os
import re
import subprocess
import sys
import time
import urllib.request

from net import HERE, OUT, built, free_port, program, started

# A cache is full once it grows by less than this part in one run of the load.
FULL = 0.002


def resident(process):
    """The resident memory of a process in bytes."""
    with open(f"/proc/{process.pid}/status", encoding="ascii") as lines:
        return next(int(line.split()[1]) for line in lines if line.startswith("VmRSS")) * 1024


def slowest(told):
    """The milliseconds of the slowest reply, and how many there were, as wrk tells them."""
    number, unit = re.search(r"Latency\s+\S+\s+\S+\s+([\d.]+)(us|ms|s)", told).groups()
    return float(number) * {"us": 0.001, "ms": 1, "s": 1000}[unit], int(re.search(r"(\d+) requests in", told)[1])


class Filled:
    """A server with its service and its page."""

    def __init__(self, path, cache, size):
        service, page = f"127.0.0.1:{free_port()}", f"127.0.0.1:{free_port()}"
        self.service = subprocess.Popen([os.path.join(OUT, "origin"), service, "0", str(size)])
        words = ["--cache", f"{cache}MiB", "--stats", page, f"values=http://{service}/"]
        self.page = f"http://{page}/metrics"
        self.address, self.process = started([path, "--listen", "{addr}", *words])
        self.one = f"http://{self.address}/_groupcache/values/one"

    def told(self, name):
        """A number of the page, or none."""
        with urllib.request.urlopen(self.page, timeout=10) as page:
            found = re.search(f"^peer_front_{name} (\\d+)$", page.read().decode(), re.M)
        return int(found[1]) if found else None

    def load(self, *words):
        told = subprocess.run(["wrk", *words], capture_output=True, text=True, check=True).stdout
        if "Non-2xx" in told or not re.search(r"[1-9]\d* requests in", told):
            sys.exit("memory.py: the server answered another status, or nothing")
        return told

    def run(self, script, clients, seconds, *words):
        """Asks for the keys of a script of wrk."""
        path = os.path.join(HERE, "net", f"{script}.lua")
        return self.load(*clients, f"-d{seconds}s", "-s", path, f"http://{self.address}/", "--", *words)

    def fill(self, seconds, has_client):
        """Asks for new keys until the cache grows no more. The slowest reply of a client beside that, and of how many, if there is
        one."""
        before, seen = 0, []
        if has_client:
            self.run("kept", ["-t1", "-c1"], 2)
        for turn in range(10_000):
            with concurrent.futures.ThreadPoolExecutor(1) as pool:
                client = pool.submit(self.run, "kept", ["-t1", "-c1"], seconds) if has_client else None
                self.run("unique", ["-t2", "-c64"], seconds, str(turn))
            seen += [slowest(client.result())] if client else []
            time.sleep(1.5)  # the page tells the bytes once a second
            held = self.told("cache_bytes")
            if held <= before * (1 + FULL):
                break
            before = held
        return (max(time for time, _ in seen), sum(count for _, count in seen)) if seen else None

    def end(self):
        for process in (self.process, self.service):
            process.kill()
            process.wait()


def grown(path, cache, size, given):
    """By how much a server grew, over its flag, the entries of its cache, and the slowest reply beside that."""
    server = Filled(path, cache, size)
    try:
        server.load("-t2", "-c64", "-d2s", server.one)
        before = resident(server.process)
        longest = server.fill(given.seconds, given.beside)
        entries = server.told('group_cache_entries{group="values"}')
        return (resident(server.process) - before) / (cache << 20), entries, longest
    finally:
        server.end()


def shown(ratio, entries, longest):
    more = [f"{entries:,} entries"] * (entries is not None)
    if longest is not None:
        more.append(f"{longest[0]:.1f} ms of {longest[1]:,} replies")
    return f"{ratio:.2f}" + (f" ({', '.join(more)})" if more else "")


def main():
    words = argparse.ArgumentParser(description=__doc__.split("\n", 1)[0])
    words.add_argument("--caches", default="64,256,1024")
    words.add_argument("--values", default="20,100,1000,10000")
    words.add_argument("--seconds", type=int, default=2)
    words.add_argument("--beside", action="store_true")
    words.add_argument("program", nargs="?", default=os.path.join(HERE, "..", "crates", "peer_front", "out", "peer_front"))
    given = words.parse_args()
    os.makedirs(OUT, exist_ok=True)
    built("origin", ["gcc", "-O2", "-o", "{out}/origin", "origin.c"], ".")
    path, sizes = program(given.program), [int(size) for size in given.values.split(",")]
    print("| --cache | " + " | ".join(f"values of {size:,} bytes" for size in sizes) + " |")
    print("|---" * (len(sizes) + 1) + "|")
    for cache in map(int, given.caches.split(",")):
        cells = [shown(*grown(path, cache, size, given)) for size in sizes]
        print("| " + " | ".join([f"{cache} MiB", *cells]) + " |", flush=True)


if __name__ == "__main__":
    main()
