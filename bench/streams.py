#!/usr/bin/env python3
"""Generated streams through connections as states, beside the plain model: with many seeds, and caches of three sizes.

    (cd crates/streams && rt run -- 1 1 0)    # builds the program
    python3 bench/streams.py [--checks 100000] [--each 1000] [--seed 1]

Each run of the program has a seed of its own and compares so many streams. The last line is `checks 100000 failures 0`, or
says how many streams were answered in another way than the model says; then the script fails too, and a line before it says
which seed's run that was, and the number of its first such stream.
"""
import argparse
import concurrent.futures
import os
import re
import subprocess
import sys

ROOT = os.path.dirname(os.path.dirname(os.path.abspath(__file__)))
PROGRAM = os.path.join(ROOT, "crates/streams/out/streams")
CACHES = [0, 100, 1_048_576]
PATIENCE = 600  # seconds for one run


def run(seed, count):
    """How many streams of a seed were compared, and how many were answered in another way."""
    words = [PROGRAM, str(seed), str(count), str(CACHES[seed % len(CACHES)])]
    ran = subprocess.run(words, capture_output=True, text=True, timeout=PATIENCE, check=False)
    found = re.fullmatch(r"checks (\d+) failures (\d+)\n", ran.stdout)
    if not found or (ran.returncode == 0) != (found[2] == "0") or int(found[1]) != count:
        sys.exit(f"streams.py: seed {seed}: status {ran.returncode}, {ran.stdout}{ran.stderr}")
    if ran.stderr:
        print(f"seed {seed}: {ran.stderr.strip()}", flush=True)
    return int(found[1]), int(found[2])


def main():
    parser = argparse.ArgumentParser()
    parser.add_argument("--checks", type=int, default=100_000)
    parser.add_argument("--each", type=int, default=1000)
    parser.add_argument("--seed", type=int, default=1)
    options = parser.parse_args()
    if not os.path.exists(PROGRAM):
        sys.exit(f"streams.py: no program {PROGRAM}: build it first")
    runs = [(options.seed + i, min(options.each, options.checks - at)) for i, at in enumerate(range(0, options.checks, options.each))]
    with concurrent.futures.ThreadPoolExecutor(os.cpu_count()) as pool:
        counts = list(pool.map(lambda words: run(*words), runs))
    checks, failures = (sum(column) for column in zip(*counts))
    print(f"checks {checks} failures {failures}")
    sys.exit(1 if failures else 0)


main()
