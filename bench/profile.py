#!/usr/bin/env python3
"""Where the built server's processor time goes under a load, and how often its threads are put to sleep and woken.

    ./build
    apt-get install gcc linux-perf
    python3 bench/profile.py [--seconds 3] [--words "--loops 4"] [--load uniform:100000,64,1] [SERVER]

For each load `perf record` samples the server, and the samples are summed by what their function is for; then `perf stat` counts
system calls and task switches of a second run. c is the number of connections, d how many requests each has in flight. With --words
the server has these too, and with --load there is that load alone: the keys as bench/net/load.c knows them, c and d.
"""
import os
import re
import subprocess
import tempfile

from common import given_words
from net import OUT, WORDS, built, program, run, started

LOADS = [("echo", key, c, d) for key in ("hot:k", "unique") for c, d in ((1, 1), (4, 16), (1, 64), (16, 64))]
# What a function is for, by the first pattern that its name has.
GROUPS = [
    ("sleeping and waking", r"futex|schedule|task_switch|try_to_wake|spin_unlock_irqrestore|wake_up|enqueue_task|dequeue|rq_|resched|irqentry|exit_to_user|sched"),
    ("sockets", r"\[k\]"),
    ("memory", r"malloc|\bfree\b|_int_free|rattle_alloc|Arc::drop|Vec::clear|unlink_chunk"),
    ("head and target", r"peer_head|httparse|memchr|peer_path|wish::"),
    ("hashes and caches", r"hash|lru|peer_source::entries|caches|MainCache"),
    ("replies", r"peer_reply|responses|write_buffer|writer_side|memmove|memcpy"),
    ("asks and flights", r"reader_side|peer_flight|peer_fill|HashMap|index_table|crossbeam"),
    ("locks and waits", r"Mutex|peer_wait|syscall|EventCount"),
]
EVENTS = ["context-switches", "syscalls:sys_enter_futex", "syscalls:sys_enter_sendto", "syscalls:sys_enter_recvfrom"]


def group_of(line):
    return next((name for name, pattern in GROUPS if re.search(pattern, line)), "the rest")


def sampled(load, address, process, cell, seconds):
    """The shares of the groups in the server's processor time."""
    with tempfile.TemporaryDirectory() as room:
        words = ["perf", "record", "-q", "-F", "1999", "-o", f"{room}/data", "-p", str(process.pid), "--", "sleep", str(seconds - 0.2)]
        recorder = subprocess.Popen(words, stdout=subprocess.DEVNULL, stderr=subprocess.DEVNULL)
        run(load, "ours", address, process, cell, seconds)
        recorder.wait()
        words = ["perf", "report", "-i", f"{room}/data", "--stdio", "--no-children", "-g", "none", "--sort", "symbol"]
        report = subprocess.run(words, capture_output=True, text=True).stdout
    shares = {}
    for line in report.splitlines():
        if found := re.match(r"\s*([\d.]+)%\s+(.*)", line):
            name = group_of(found[2])
            shares[name] = shares.get(name, 0) + float(found[1])
    return shares


def counted(load, address, process, cell, seconds):
    """How often each event came for one request."""
    with tempfile.NamedTemporaryFile("r") as told:
        words = ["perf", "stat", "-x", ",", "-e", ",".join(EVENTS), "-p", str(process.pid), "-o", told.name, "--", "sleep", str(seconds)]
        counter = subprocess.Popen(words)
        found = run(load, "ours", address, process, cell, seconds)
        counter.wait()
        lines = [line.split(",") for line in told.read().splitlines() if line and not line.startswith("#")]
    return [float(line[0]) / (found[0] * seconds) for line in lines], found


def main():
    given = given_words("server", "?", "crates/peer_front/out/peer_front", seconds=3.0, words="", load="")
    server = program(given.server)
    key, conns, depth = given.load.split(",") if given.load else ("", 0, 0)
    loads = [("echo", key, int(conns), int(depth))] if given.load else LOADS
    os.makedirs(OUT, exist_ok=True)
    load = built("load", ["gcc", "-O2", "-o", "{out}/load", "load.c", "-lpthread"], ".")
    address, process = started([server, *WORDS[os.path.basename(server)], *given.words.split()])
    names = [*(name for name, _ in GROUPS), "the rest"]
    print(f"| load | us for one | {' | '.join(names)} | task switches, futex, send, receive for one |\n{'|---' * (len(names) + 3)}|")
    try:
        for cell in loads:
            shares = sampled(load, address, process, cell, given.seconds)
            events, found = counted(load, address, process, cell, given.seconds)
            kind = "hot" if cell[1] == "hot:k" else cell[1]
            parts = " | ".join(f"{shares.get(name, 0):.0f}%" if shares else "-" for name in names)
            print(f"| {kind} c{cell[2]} d{cell[3]} | {found[4]:.2f} | {parts} | {', '.join(f'{n:.2f}' for n in events)} |")
    finally:
        process.kill()


if __name__ == "__main__":
    main()
