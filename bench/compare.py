#!/usr/bin/env python3
"""Requests a second of two or more builds of the server, interleaved: what a change is worth.

    (cd crates/peer_serve && rt run < stdin > /dev/null) && cp crates/peer_serve/out/peer_serve before
    apt-get install gcc
    python3 bench/compare.py [--rounds 7] [--seconds 0.3] BEFORE AFTER ..

A build is a path, and may have flags behind it: "crates/peer_front/out/peer_front --workers 1". Where the name is not `peer_front`
it is a `peer_serve`. Each load runs against each build in turn, so many rounds. For each load the first build's rate is printed,
as the median of the rounds, and for each other build the medians of the ratios of rate and of processor time a request to the
first one's in the same round. Every reply is checked. c is the number of connections, d how many requests each has in flight.
"""
import os
import signal
import statistics

from common import given_words
from net import WORDS, built, program, ratios, run, started

GRID = [(1, 1), (4, 1), (4, 16), (16, 16), (1, 64), (16, 64)]
LOADS = [("echo", key, c, d) for key in ("hot:k", "unique") for c, d in GRID]


def command(build):
    """The words that start a build on the source for demonstrations."""
    path, *flags = build.split()
    words = WORDS.get(os.path.basename(path), WORDS["peer_serve"])
    return [program(path), *words, *flags]


def main():
    given = given_words("builds", "+", rounds=7, seconds=0.3)
    load = built("load", ["gcc", "-O2", "-o", "{out}/load", "load.c", "-lpthread"], ".")
    servers = []
    try:
        for build in given.builds:
            servers.append(started(command(build)))
        results = {cell: [[] for _ in servers] for cell in LOADS}
        for _ in range(given.rounds):
            for cell in LOADS:
                for kept, (address, process) in zip(results[cell], servers):
                    kept.append(run(load, "ours", address, process, cell, given.seconds))
    finally:
        for _, process in servers:
            process.send_signal(signal.SIGKILL)
    names = [" ".join([os.path.basename(path), *flags]) for path, *flags in map(str.split, given.builds)]
    print("| load | " + f"{names[0]}: req/s | " + " | ".join(f"{name}: rate, processor time" for name in names[1:]) + " |")
    print("|---" * (1 + len(names)) + "|")
    for cell, (first, *others) in results.items():
        rate = statistics.median(r[0] for r in first if r)
        shown = [f"{statistics.median(ratios(o, first, 0)):.2f}, {statistics.median(ratios(o, first, 4)):.2f}" for o in others]
        print(f"| {cell[1].split(':')[0]} c{cell[2]} d{cell[3]} | {rate:,.0f} | " + " | ".join(shown) + " |")


if __name__ == "__main__":
    main()
