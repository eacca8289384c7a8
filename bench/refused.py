#!/usr/bin/env python3
"""Memory refused, one growth after another: what each call does that may run out of it.

    (cd crates/refused && rt run -- copy_of)                # builds the program that makes one call
    (cd crates/peer_serve && rt run < stdin > /dev/null)    # builds the server
    python3 bench/refused.py [--load SECONDS] [--only NAME]

bench/refuse.c stands in for the C library's malloc, calloc, realloc and aligned calls, and is built here by `cc`. Each call
is run with its n-th growth refused, for n from 1 until a run meets no refusal, and again with all growths from the n-th on
refused. Calls that promise to take no memory are run with all refused, and may not even ask. With --load a server is asked
for so many seconds while one allocation in 1,000 is refused at random. Threads are refused by a limit on processes, which
takes root. Its last line is `0 wrong`, or says how many were; then the program fails too.
"""
import mmap
import os
import random
import re
import resource
import shutil
import socket
import struct
import subprocess
import sys
import tempfile
import threading
import time

from common import free_port

HERE = os.path.dirname(os.path.abspath(__file__))
ROOT = os.path.dirname(HERE)
CALLS = os.path.join(ROOT, "crates/refused/out/refused")
SERVER = os.path.join(ROOT, "crates/peer_serve/out/peer_serve")
ALONE = 54322  # a user with no other processes, whose threads can be counted
ALWAYS = 2**63
MOST = 2000  # growths of one call, far more than any has
PATIENCE = 60  # seconds for one run
RUNS_AT_ALL = 3  # runs without a refusal in a row, where threads decide how many growths there are

# the calls of which growths are refused, and whether one may be refused and the answer be the usual one
CALLS_REFUSED = [
    ("copy_of", False),
    ("share", False),
    ("slice", False),
    ("slice_from", False),
    ("to_vec", False),
    ("to_text", False),
    ("alloc_sink_bytes", False),
    ("alloc_sink_str", False),
    ("alloc_sink_view", False),
    ("view_sink_bytes", False),
    ("view_sink_str", False),
    ("view_sink_view", False),
    ("fill_found", False),
    ("fill_failed", False),
    ("fill_letters", False),
    ("fill_share", False),
    ("cache_new", False),
    ("cache_get", False),
    ("cache_add", False),
    ("cache_grows", False),
    ("cache_bounded", False),
    ("cache_find", False),
    ("cache_make_room", False),
    ("head_buf", False),
    ("locate", False),
    ("wish_of", False),
    ("wish_of_no_group", False),
    ("lane", False),
    ("read_table", False),
    ("table_found", False),
    ("table_missing", False),
    ("want_led", False),
    ("want_joined", False),
    ("want_many", False),
    ("flight_share", False),
    ("pool_open", False),
    ("ask_led", False),
    ("ask_joined", False),
    ("ask_hit", False),
    ("run_worker", True),
    ("refill", False),
    ("talk_whole", True),
    ("talk_pieces", True),
    ("talk_many", True),
    ("talk_kept", True),
    ("talk_faults", True),
    ("talk_escaped", True),
    ("talk_long", True),
    ("talk_closing", False),
    ("serve_serial", False),
    ("serve_functional", False),
    ("serve_connection", True),
    ("peer_server", True),
]

CALLS_WITHOUT = ["without_views", "without_sinks", "without_devices", "without_sources", "without_caches", "without_heads",
                 "without_replies", "without_flights", "without_pool", "without_lane"]

# the other names that --only takes
OTHERS = ["peer_server_first", "peer_pipe", "peer_serve", "threads"]
NAMES = {name for name, _ in CALLS_REFUSED} | set(CALLS_WITHOUT) | set(OTHERS)

THREE = b"".join(b"GET /_groupcache/echo/%c HTTP/1.1\r\nHost: h\r\n\r\n" % key for key in b"abc")
REPLIES = [b"HTTP/1.1 200 OK\r\nContent-Type: application/x-protobuf\r\nContent-Length: 3\r\n\r\n\n\x01%c" % key for key in b"abc"]
wrong = []
started = []


class Page:
    """What the library and this script share, as bench/refuse.c has it."""

    NAMES = ["from", "upto", "one_in", "armed", "counted", "refused", "marks", "state"]

    def __init__(self, folder):
        self.path = os.path.join(folder, "page")
        with open(self.path, "wb") as f:
            f.write(bytes(4096))
        os.chmod(self.path, 0o666)
        self.file = open(self.path, "r+b")
        self.map = mmap.mmap(self.file.fileno(), 4096)

    def set(self, name, value):
        struct.pack_into("<Q", self.map, 8 * self.NAMES.index(name), value)

    def get(self, name):
        return struct.unpack_from("<Q", self.map, 8 * self.NAMES.index(name))[0]

    def functions(self):
        return struct.unpack_from("<5Q", self.map, 64)

    def clear(self, first, last, armed=0):
        self.map[:104] = bytes(104)
        self.set("from", first)
        self.set("upto", last)
        self.set("armed", armed)


def note(name, what):
    wrong.append(name)
    print(f"WRONG {name}: {what}", flush=True)


class Tools:
    """The library, the page, and the environment of a program that has both."""

    def __init__(self, folder):
        self.page = Page(folder)
        self.library = os.path.join(folder, "refuse.so")
        compiler = os.environ.get("CC", "cc")
        source = os.path.join(HERE, "refuse.c")
        subprocess.run([compiler, "-O2", "-Wall", "-shared", "-fPIC", "-o", self.library, source], check=True)
        self.environment = dict(os.environ, LD_PRELOAD=self.library, REFUSE_PAGE=self.page.path)

    def call(self, name, first, last, limit=None, program=CALLS):
        """The word of one call, with the growths from the first to the last refused."""
        self.page.clear(first, last)
        try:
            run = subprocess.run([program, name], env=self.environment, capture_output=True, timeout=PATIENCE, preexec_fn=limit)
        except subprocess.TimeoutExpired:
            return "it hangs"
        word = run.stdout.decode(errors="replace").strip()
        if run.returncode != 0:
            return f"status {run.returncode}, {word} {run.stderr.decode(errors='replace').strip()}"
        return word


def judge(name, word, refused, may_answer, at):
    """Whether a word fits to whether a growth was refused."""
    allowed = {"refused"} if refused else {"answered"}
    if refused and may_answer:
        allowed.add("answered")
    if word not in allowed:
        note(name, f"{at}: {word}")


def sweep(tools, name, may_answer, last_of, title):
    """Refuses growth after growth until runs meet no refusal. Gives how many runs met one, and the words."""
    met, words, free, n = 0, {}, 0, 1
    while n < MOST:
        word = tools.call(name, n, last_of(n))
        refused = tools.page.get("refused")
        if tools.page.get("marks") != 2:
            note(name, f"{title} {n}: {tools.page.get('marks')} marks, {word}")
            return met, words
        judge(name, word, refused, may_answer, f"{title} {n}")
        words[word] = words.get(word, 0) + 1
        if refused:
            met, free = met + 1, 0
        else:
            free += 1
            if free == (RUNS_AT_ALL if may_answer else 1):
                return met, words
        n += 1
    note(name, f"{title}: no end after {MOST} growths")
    return met, words


def refused_calls(tools, only):
    for name, may_answer in CALLS_REFUSED:
        if only and only != name:
            continue
        one, words = sweep(tools, name, may_answer, lambda n: n, "growth")
        rest, more = sweep(tools, name, may_answer, lambda n: ALWAYS, "all growths from")
        shown = ", ".join(f"{word} {words.get(word, 0) + more.get(word, 0)}" for word in sorted({**words, **more}))
        print(f"{name}: {one} growths refused one by one, {rest} with all behind them ({shown})", flush=True)


def without_memory(tools, only):
    for name in CALLS_WITHOUT:
        if only and only != name:
            continue
        word = tools.call(name, 1, ALWAYS)
        if word != "answered" or tools.page.get("counted") or tools.page.get("marks") != 2:
            note(name, f"{word}, {tools.page.get('counted')} growths, {tools.page.get('marks')} marks")
        print(f"{name}: {word}, with no growth asked for", flush=True)


def one_by_itself(tools, only):
    """A call of which not every growth is tried: the pool's first."""
    if not only or only == "peer_server_first":
        word = tools.call("peer_server_first", 1, 1)
        judge("peer_server_first", word, tools.page.get("refused"), False, "growth 1")
        print(f"peer_server_first: {word} by the pool", flush=True)


def is_whole(output):
    """Whether these are the first replies, each of them whole."""
    return any(output == b"".join(REPLIES[:n]) for n in range(4))


def pipe_run(tools, first, last):
    """What is wrong with one run of the server's program on standard input and output."""
    tools.page.clear(first, last, armed=1)
    run = subprocess.run([SERVER], env=tools.environment, input=THREE, capture_output=True, timeout=PATIENCE)
    refused = tools.page.get("refused")
    line = run.stderr.decode(errors="replace")
    if run.returncode == 0 and run.stdout == b"".join(REPLIES) and not line:
        return None if not refused else "answered where a growth was refused"
    if run.returncode == 5 and is_whole(run.stdout) and line == "peer_serve: out of memory\n" and refused:
        return None
    return f"status {run.returncode}, {len(run.stdout)} bytes, {line}"


def refused_pipe(tools, only):
    if only and only != "peer_pipe":
        return
    counts = []
    for title, last_of in (("growth", lambda n: n), ("all growths from", lambda n: ALWAYS)):
        for n in range(1, MOST):
            fault = pipe_run(tools, n, last_of(n))
            if fault:
                note("peer_pipe", f"{title} {n}: {fault}")
            if not tools.page.get("refused"):
                counts.append(n - 1)
                break
    print(f"peer_pipe, by the program: {counts[0]} growths refused one by one, {counts[1]} with all behind them", flush=True)


def connect(port):
    return socket.create_connection(("127.0.0.1", port), PATIENCE)


def exchange(port, text):
    """What comes for a text whose sender then ends its side, and whether a reset ended it."""
    got = b""
    try:
        with connect(port) as client:
            client.sendall(text)
            client.shutdown(socket.SHUT_WR)
            while part := client.recv(65536):
                got += part
    except ConnectionError:
        return got, True
    except OSError as fault:
        if fault.errno in (107, 32):  # not connected any more, broken pipe
            return got, True
        raise
    return got, False


def adds_up(line):
    """Whether a line of totals adds up, and how many were asked."""
    found = re.fullmatch(r"asked (\d+) hits (\d+) led (\d+) joined (\d+) calls (\d+) rehits (\d+) left (\d+)\n", line)
    if not found:
        return False, 0
    asked, hits, led, joined, calls, rehits, left = map(int, found.groups())
    return asked == hits + led + joined and led == calls + rehits + left, asked


def ended(process):
    """The status of a server, its totals and its lines on standard error, once it has ended."""
    try:
        out, err = process.communicate(timeout=PATIENCE)
    except subprocess.TimeoutExpired:
        process.kill()
        process.communicate()
        return None, "", "it hangs"
    return process.returncode, out.decode(), err.decode()


class Server:
    """A server of the program, under the library."""

    def __init__(self, tools, workers, conns, rounds, limit=None, program=SERVER):
        self.port = free_port()
        words = [program, f"127.0.0.1:{self.port}", str(workers), str(conns), str(rounds)]
        self.process = subprocess.Popen(words, env=tools.environment, stdout=subprocess.PIPE, stderr=subprocess.PIPE, preexec_fn=limit)
        started.append(self.process)
        self.first = self.process.stdout.readline()


# the lines of a server that ends since a growth was refused, by its status
ENDS = {2: "peer_serve: cannot bind\n", 4: "peer_serve: write failed\n", 5: "peer_serve: out of memory\n"}


def server_run(tools, first, last):
    """What one run of the server's program did, and whether that is wrong."""
    tools.page.clear(first, last, armed=1)
    server = Server(tools, 1, 1, 1)
    got, reset = exchange(server.port, THREE) if server.first else (b"", False)
    status, totals, line = ended(server.process)
    refused = tools.page.get("refused")
    whole = b"".join(REPLIES)
    if status == 0 and not line and server.first == b"listening\n" and adds_up(totals)[0]:
        fits = got == whole or (refused and (is_whole(got) or (reset and whole.startswith(got))))
        return "answered whole" if got == whole else "ended a connection", not fits
    fits = refused and not got and not totals and line == ENDS.get(status)
    return line.strip() if fits else f"status {status}, {len(got)} bytes, {totals}{line}", not fits


def refused_server(tools, only):
    """The growths of the whole program: its words, the address that it binds, and the server.

    A name for an address is not tried: the C library's look-up ends the process at some refused growths."""
    if only and only != "peer_serve":
        return
    counts, words = [], {}
    for title, last_of in (("growth", lambda n: n), ("all growths from", lambda n: ALWAYS)):
        met = free = 0
        for n in range(1, MOST):
            word, is_wrong = server_run(tools, n, last_of(n))
            if is_wrong:
                note("peer_serve", f"{title} {n}: {word}")
            words[word] = words.get(word, 0) + 1
            if tools.page.get("refused"):
                met, free = met + 1, 0
            else:
                free += 1
            if free == RUNS_AT_ALL:
                break
        counts.append(met)
    shown = ", ".join(f"{word} {words[word]}" for word in sorted(words))
    print(f"peer_serve, by the program: {counts[0]} growths refused one by one, {counts[1]} with all behind them ({shown})", flush=True)


def alone(count, user=ALONE):
    """A limit on threads, for a user whom they are counted for."""

    def limit():
        resource.setrlimit(resource.RLIMIT_NPROC, (count, count))
        os.setgroups([])
        os.setgid(user)
        os.setuid(user)

    return limit


def refused_threads(tools, folder, only):
    """A worker, a seat and a reader are three threads beside the first."""
    if only and only != "threads":
        return
    if os.getuid() != 0:
        print("     no row on threads: it takes root to count those of another user")
        return
    calls, server = (shutil.copy(program, folder) for program in (CALLS, SERVER))
    words = [tools.call("peer_server", ALWAYS, ALWAYS, alone(count), calls) for count in range(1, 7)]
    if words != ["refused"] * 3 + ["answered"] * 3:
        note("threads", f"with 1 to 6 threads: {words}")
    print(f"peer_server with 1 to 6 threads: {', '.join(words)}", flush=True)
    tools.page.clear(ALWAYS, ALWAYS)
    sleeper = subprocess.Popen(["sleep", "600"], preexec_fn=alone(64))  # has the thread that the reader would have
    started.append(sleeper)
    one_seat = Server(tools, 1, 1, 2, alone(4), server)
    nothing, _ = exchange(one_seat.port, THREE)
    sleeper.kill()
    sleeper.wait()
    replies, _ = exchange(one_seat.port, THREE)
    status, totals, _ = ended(one_seat.process)
    if nothing or replies != b"".join(REPLIES) or status != 0 or adds_up(totals) != (True, 3):
        note("threads", f"{len(nothing)} bytes without a reader, then {len(replies)}, status {status}, {totals}")
    print(f"a seat whose reader gets no thread: {len(nothing)} bytes, and {len(replies)} for its next client; {totals.strip()}", flush=True)


def request(target):
    return b"GET /_groupcache/" + target.encode() + b" HTTP/1.1\r\nHost: h\r\n\r\n"


def varint(number):
    out = bytearray()
    while number > 127:
        out.append(number & 127 | 128)
        number >>= 7
    out.append(number)
    return bytes(out)


def found(value):
    body = b"\n" + varint(len(value)) + value
    return b"HTTP/1.1 200 OK\r\nContent-Type: application/x-protobuf\r\nContent-Length: %d\r\n\r\n" % len(body) + body


def told(status, text):
    return (b"HTTP/1.1 " + status + b"\r\nContent-Type: text/plain; charset=utf-8\r\nX-Content-Type-Options: nosniff\r\n"
            b"Content-Length: %d\r\n\r\n" % (len(text) + 1) + text + b"\n")


def asked_for(chance):
    """One request and its reply."""
    kind = chance.randrange(8)
    number = chance.randrange(2000)
    if kind < 3:
        return request(f"echo/key{number}"), found(b"key%d" % number)
    if kind == 3:
        return request(f"echo/%6B%65y{number}"), found(b"key%d" % number)
    if kind == 4:
        return request(f"square/{number}"), found(b"%d" % (number * number))
    if kind == 5:
        return request("square/x"), told(b"500 Internal Server Error", b"not a number")
    if kind == 6:
        return request(f"fill/{10 * number}"), found(b"x" * (10 * number))
    return request("nope/k"), told(b"404 Not Found", b"no such group: nope")


class Load:
    """Clients that ask a server and compare what comes."""

    def __init__(self, port, most):
        self.port, self.most = port, most
        self.lock = threading.Lock()
        self.made = self.whole = self.early = self.resets = self.replies = 0
        self.faults = []

    def one(self, chance):
        pairs = [asked_for(chance) for _ in range(chance.randrange(1, 600))]
        got, reset = exchange(self.port, b"".join(text for text, _ in pairs))
        at = count = 0
        while count < len(pairs) and got[at:].startswith(pairs[count][1]):
            at += len(pairs[count][1])
            count += 1
        rest = got[at:]
        cut = reset and count < len(pairs) and pairs[count][1].startswith(rest)
        with self.lock:
            self.replies += count
            self.whole += count == len(pairs)
            self.early += count < len(pairs)
            self.resets += reset
            if rest and not cut:
                self.faults.append(f"behind {count} of {len(pairs)} replies, {'reset' if reset else 'ended'}: {rest[:80]}")

    def run(self, seed, until):
        chance = random.Random(seed)
        while time.monotonic() < until:
            with self.lock:
                if self.made >= self.most:
                    return
                self.made += 1
            try:
                self.one(chance)
            except OSError as fault:
                with self.lock:
                    self.faults.append(repr(fault))


    def use_up(self):
        """Connects until the server has ended."""
        try:
            while True:
                connect(self.port).close()
        except OSError:
            pass


def together(works):
    """Does all of this in threads of its own."""
    threads = [threading.Thread(target=work, args=words) for work, *words in works]
    for thread in threads:
        thread.start()
    for thread in threads:
        thread.join()


def under_load(tools, seconds):
    """One allocation in 1,000 refused at random, while eight clients ask."""
    conns, rounds, clients = 8, max(100, int(60 * seconds)), 8
    tools.page.clear(ALWAYS, ALWAYS)
    server = Server(tools, 2, conns, rounds)
    load = Load(server.port, conns * rounds - clients)
    tools.page.set("state", 1)
    tools.page.set("one_in", 1000)
    tools.page.set("armed", 1)
    begin = time.monotonic()
    together((load.run, seed, begin + seconds) for seed in range(clients))
    taken = time.monotonic() - begin
    tools.page.set("armed", 0)
    together([(load.use_up,)] * clients)
    status, totals, line = ended(server.process)
    fits, asked = adds_up(totals)
    for fault in load.faults[:10]:
        note("load", fault)
    if status != 0 or not fits or not tools.page.get("refused") or not load.early:
        note("load", f"status {status}, {totals}{line}, {tools.page.get('refused')} refused, {load.early} ended early")
    print(f"load of {taken:.0f} s: {load.made} connections, {load.whole} answered whole, {load.early} ended early ({load.resets} resets), "
          f"{load.replies} replies, all right; {tools.page.get('refused')} of {tools.page.get('counted')} growths refused; {totals.strip()}"
          if not load.faults else f"load: {len(load.faults)} faults", flush=True)


def main():
    words = sys.argv[1:]
    only = words[words.index("--only") + 1] if "--only" in words else None
    if only and only not in NAMES:
        sys.exit(f"refused.py: no call {only}")
    load = float(words[words.index("--load") + 1]) if "--load" in words else 0
    for program in (CALLS, SERVER):
        if not os.path.exists(program):
            sys.exit(f"refused.py: no program {program}: build it first")
    with tempfile.TemporaryDirectory() as folder:
        os.chmod(folder, 0o755)
        tools = Tools(folder)
        try:
            refused_calls(tools, only)
            without_memory(tools, only)
            one_by_itself(tools, only)
            refused_pipe(tools, only)
            refused_server(tools, only)
            refused_threads(tools, folder, only)
            if load:
                under_load(tools, load)
        finally:
            for process in started:
                process.kill()
    print(f"{len(wrong)} wrong")
    sys.exit(1 if wrong else 0)


if __name__ == "__main__":
    main()
