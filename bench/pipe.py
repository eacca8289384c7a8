#!/usr/bin/env python3
"""Requests a second of the built peer_serve on standard input, beside `cat` moving the same bytes.

    (cd crates/peer_serve && rt run < stdin > /dev/null)    # builds it
    python3 bench/pipe.py [crates/peer_serve/out/peer_serve]

A connection has at most 10,000 replies, so each run is many connections, one after the other: the time of as many runs
on no input is taken off. Each number is the median of five runs, all runs interleaved. `cat` moves the requests and the
replies in one run, which is what the kernel does for the server at the least. System calls are counted by strace, where it is there.
"""
import os
import shutil
import statistics
import subprocess
import sys
import tempfile
import time

SERVER = sys.argv[1] if len(sys.argv) > 1 else "crates/peer_serve/out/peer_serve"
ROUNDS = 5


def request(path, fields=("Host: h",)):
    return ("GET " + path + " HTTP/1.1\r\n" + "".join(f + "\r\n" for f in fields) + "\r\n").encode()


GO = ("Host: 10.0.0.2:8000", "User-Agent: Go-http-client/1.1", "Accept-Encoding: gzip")
# name, one request, how many of them a connection, how many connections a run
LOADS = [
    ("echo, 45 bytes", request("/_groupcache/echo/k"), 9999, 40),
    ("echo, Go's head", request("/_groupcache/echo/k", GO), 9999, 40),
    ("fill/65536", request("/_groupcache/fill/65536"), 2000, 5),
    ("fill/1048576", request("/_groupcache/fill/1048576"), 200, 5),
]


def timed(command, source, runs):
    begin = time.perf_counter()
    for _ in range(runs):
        with open(source, "rb") as stdin:
            subprocess.run(command, stdin=stdin, stdout=subprocess.DEVNULL, check=True)
    return time.perf_counter() - begin


def calls(source):
    """Reads and writes of one run, by strace."""
    if not shutil.which("strace"):
        return None
    with open(source, "rb") as stdin:
        report = subprocess.run(["strace", "-c", "-f", SERVER], stdin=stdin, stdout=subprocess.DEVNULL, stderr=subprocess.PIPE).stderr.decode()
    counts = {"read": 0, "write": 0}
    for line in report.splitlines():
        words = line.split()
        if words and words[-1] in counts:
            counts[words[-1]] += int(words[3])
    return counts["read"], counts["write"]


def main():
    with tempfile.TemporaryDirectory() as folder:
        empty = os.path.join(folder, "empty")
        open(empty, "wb").close()
        rows = []
        for name, one, count, runs in LOADS:
            source, both = os.path.join(folder, "requests"), os.path.join(folder, "both")
            with open(source, "wb") as f:
                f.write(one * count)
            with open(source, "rb") as stdin:
                replies = subprocess.run([SERVER], stdin=stdin, stdout=subprocess.PIPE, check=True).stdout
            with open(both, "wb") as f:
                f.write(one * count + replies)
            serve, cat = [], []
            for _ in range(ROUNDS):
                start = timed([SERVER], empty, runs)
                serve.append(timed([SERVER], source, runs) - start)
                cat.append(timed(["cat"] + [both] * runs, empty, 1))
            rate = count * runs / statistics.median(serve)
            ratio = statistics.median(s / c for s, c in zip(serve, cat))
            done = calls(source)
            told = "" if done is None else f"  reads {done[0]} ({count * len(one) // max(done[0], 1)} bytes each), writes {done[1]} ({len(replies) // max(done[1], 1)} bytes each)"
            rows.append(f"{name:18} {rate:12,.0f} requests/s  {ratio:6.2f} times as long as cat{told}")
        print("\n".join(rows))


main()
