#!/usr/bin/env python3
"""The time and memory in which the built peer_serve reads a table of a million lines, beside `sort -u` of the same bytes.

    (cd crates/peer_serve && rt run < stdin > /dev/null)    # builds it
    python3 bench/table.py [crates/peer_serve/out/peer_serve]

The table has 1,000,000 lines of 16 bytes, whose keys are distinct and in no order. The server finds its address taken, so
that it ends behind the table. `sort -u` compares bytes (LC_ALL=C) and writes to /dev/null. Both run in turn, five rounds;
the ratio is the median of the ratios of each round. Memory is the most that a process held, over the bytes of the table;
where it is above the bound of 8, so is the status of this program 1.
"""
import os
import socket
import statistics
import subprocess
import sys
import tempfile
import time

PROGRAM = sys.argv[1] if len(sys.argv) > 1 else "crates/peer_serve/out/peer_serve"
LINES = 1_000_000
ROUNDS = 5
BOUND = 8


def lines():
    """They are written one by one: what this program ever held would count for the ones that it starts."""
    for i in range(LINES):
        key = i * 618_033 % LINES
        yield f"{'ab'[key % 2]}\t{key:07}\tv{key % 10000:04}\n"


def run(words, path, status):
    """The seconds that a command takes with this file as its input, and the bytes that it held at most."""
    with open(path, "rb") as file:
        begin = time.perf_counter()
        environment = dict(os.environ, LC_ALL="C")
        process = subprocess.Popen(words, stdin=file, stdout=subprocess.DEVNULL, stderr=subprocess.DEVNULL, env=environment)
        _, ended, usage = os.wait4(process.pid, 0)
        seconds = time.perf_counter() - begin
    process.returncode = os.waitstatus_to_exitcode(ended)
    if process.returncode != status:
        sys.exit(f"table.py: {words[0]} ended with status {process.returncode} and not {status}")
    return seconds, usage.ru_maxrss * 1024


def main():
    if not os.path.exists(PROGRAM):
        sys.exit(f"table.py: no program {PROGRAM}: run `rt run < stdin` in crates/peer_serve first")
    with tempfile.TemporaryDirectory() as folder, socket.socket() as taken:
        taken.bind(("127.0.0.1", 0))
        taken.listen()
        path = os.path.join(folder, "table")
        with open(path, "w") as file:
            file.writelines(lines())
        size = os.path.getsize(path)
        serve = [PROGRAM, "127.0.0.1:%d" % taken.getsockname()[1], "1", "1", "1", "-"]
        rounds = [(run(serve, path, 2), run(["sort", "-u", path], path, 0)) for _ in range(ROUNDS)]
    ratio = statistics.median(ours[0] / other[0] for ours, other in rounds)
    for name, side in (("peer_serve", 0), ("sort -u", 1)):
        seconds = statistics.median(both[side][0] for both in rounds)
        memory = max(both[side][1] for both in rounds)
        print(f"{name:10} {seconds:6.3f} s   {memory / 1048576:6.1f} MiB   {memory / size:5.2f} times the bytes of the table")
    held = max(ours[1] for ours, _ in rounds) / size
    print(f"{LINES:,} lines, {size:,} bytes: {ratio:.2f} of the time of sort -u; memory {held:.2f} times the bytes (bound: {BOUND})")
    sys.exit(held > BOUND)


main()
