#!/usr/bin/env python3
"""What the page of counters of the built peer_front says, and what its flags come to.

    ./build
    python3 bench/front_serves.py [crates/peer_front/out/peer_front]

The first who asks for a key leads, those who ask while it is looked up join, and those who ask once a cache has it hit;
connections are counted as they come and go, and by why they ended; each failure of a service is counted as what it is, also where
a reply of another status than 200 begins and its rest is late, and is told on standard error, none twice: with its time, group,
service and last key, as text or as JSON. So is a value that took longer than `--slow`, with how long each part of it took; a service that is well again, a group that is not there, that all connections are
taken, and what an end waits for; and where there are too many lines, how many were left out. What is counted of each
group adds up to what is counted of all, also where a name has quotes, newlines or bytes above 7F; how long values are under way, wait
until they are, have clients wait, and turns of loops take, is told by histograms that add up; so is of each service what it replies, connections, addresses, look-ups and keys that
wait, and bytes of clients are counted; each reply is counted by its status; limits are those of the flags, and what is told of the process is so; and `/readyz` says how far the server is. `--loops`,
`--workers` and `--fetchers` are as many threads, and each fetcher has `--under-way` values; who has nothing to do takes no
processor. No more connections are open than by `--connections`, and where all are taken, silent clients are let go until a
sixteenth is free, and those who came last are not the next to go; where the system gives no more files, silent clients are let go
too, and accepts that failed are counted. `--timeout` is how long a value may take; a service sees the fields
of the group that is asked for, and of no other, and nothing says their values; a value above `--cache` is not kept, and one
below it is; a group of a file keeps what its own cache may have; which keys share a shard goes by a seed of each server's own; and above `--memory` a client is asked for one value at a
time, until who holds so much has left.

Its last line is `rows N failures 0`; where a row fails, so does the program.
"""
import calendar
import hashlib
import json
import os
import re
import resource
import socket
import struct
import subprocess
import sys
import tempfile
import threading
import time
import urllib.error
import urllib.parse
import urllib.request
from concurrent.futures import ThreadPoolExecutor
from contextlib import ExitStack
from datetime import datetime

from common import Listening, Service, ask, free_port, hangs, run_rows

PROGRAM = sys.argv[1] if len(sys.argv) > 1 else "crates/peer_front/out/peer_front"
PATIENCE = 10  # seconds until what is waited for is so
HEAD = b"HTTP/1.1 200 OK\r\nContent-Length: "


def comes_to(is_so):
    """Whether this is so before long."""
    until = time.monotonic() + PATIENCE
    while not is_so():
        if time.monotonic() > until:
            return False
        time.sleep(0.02)
    return True


def replies(reply):
    """Answers each request by these bytes, and ends the connection behind them."""

    def serve(stream):
        stream.recv(10000)
        stream.sendall(reply)

    return serve


def get(*paths):
    return b"".join(f"GET /_groupcache/{path} HTTP/1.1\r\nHost: h\r\n\r\n".encode() for path in paths)


# A line that is told while it serves: its time, how bad it is, what happened, and its fields.
LINE = re.compile(r"^\d{4}-\d\d-\d\dT\d\d:\d\d:\d\d\.\d{3}Z (info|warn) ([^:\n]+)(?:: (.*))?$", re.MULTILINE)


def lines_in(said):
    """What was told while it served: how bad, what, and the fields by their names."""
    return [(level, what, dict(field.split("=", 1) for field in fields.split())) for level, what, fields in LINE.findall(said)]


class Counted(Listening):
    """A server with a page of counters."""

    def __init__(self, *words):
        self.file = tempfile.TemporaryFile()
        super().__init__(PROGRAM, "--stats", "127.0.0.1:0", *words, said=self.file)
        self.page = int(re.findall(r"healthz at 127\.0\.0\.1:(\d+)", self.said())[-1])

    def said(self):
        """What it has written on standard error."""
        # A read of its own place: the program writes at the one that it shares with this script.
        return os.pread(self.file.fileno(), 100000, 0).decode()

    def lines(self, what):
        """The fields of its lines on this, with how bad it is."""
        return [{**fields, "level": level} for level, told, fields in lines_in(self.said()) if told == what]

    def tells(self, what, **fields):
        """Whether it comes to tell a line on this with these fields."""
        if comes_to(lambda: any(fields.items() <= line.items() for line in self.lines(what))):
            return True
        print(self.said(), "has no", what, fields)
        return False

    def ask(self, path):
        return ask(self.address, path)

    def get(self, path):
        """The status and the text of a page."""
        try:
            with urllib.request.urlopen(f"http://127.0.0.1:{self.page}{path}", timeout=5) as page:
                return page.status, page.read().decode()
        except urllib.error.HTTPError as error:
            return error.code, error.read().decode()

    def counts(self):
        """The numbers of the page by their names."""
        _, text = self.get("/metrics")
        pairs = [line.rsplit(" ", 1) for line in text.split("\n") if line and not line.startswith("#")]
        return {name.removeprefix("peer_front_"): float(number) for name, number in pairs}

    def threads(self):
        return len(os.listdir(f"/proc/{self.process.pid}/task"))

    def calls(self, number):
        """Waits until the source was called so often."""
        comes_to(lambda: self.counts()["calls_total"] >= number)

    def says(self, **numbers):
        """Whether the page comes to have these numbers."""
        if comes_to(lambda: numbers.items() <= self.counts().items()):
            return True
        counts = self.counts()
        print({name: counts[name] for name in numbers}, "and not", numbers)
        return False


def asks_are_told_apart():
    found = threading.Event()

    def serve(stream):
        found.wait(PATIENCE)
        replies(HEAD + b"1\r\n\r\nv")(stream)

    service = Service(serve)
    with Counted("g=" + service.url) as server, ThreadPoolExecutor(4) as threads:
        waiting = [threads.submit(server.ask, "g/k") for _ in range(4)]
        joined = server.says(asked_total=4, led_total=1, joined_total=3, hits_total=0, calls_total=1)
        found.set()
        right = [future.result().endswith(b"\x0a\x01v") for future in waiting]
        right += [server.ask("g/" + key).endswith(b"\x0a\x01v") for key in ("k", "k", "k", "k", "k", "other")]
        return (
            joined
            and all(right)
            and server.says(
                asked_total=10, led_total=2, joined_total=3, hits_total=5, calls_total=2, rehits_total=0, strangers_total=0
            )
            and server.says(
                **{f'group_asks_total{{group="g",found="{found}"}}': number for found, number in (("hit", 5), ("led", 2), ("joined", 3))},
                **{'group_calls_total{group="g"}': 2, 'group_rehits_total{group="g"}': 0, "jobs_queued": 0},
            )
        )


# Groups whose names have what a label escapes, and bytes above 7F.
NAMES = ['"\\', "a\nb", "\xe9\u4e00", "plain"]


def escaped(name):
    """A name as the value of a label."""
    return name.replace("\\", "\\\\").replace('"', '\\"').replace("\n", "\\n")


def sums(counts, name):
    """What is counted of groups under this name, added up."""
    return sum(number for key, number in counts.items() if key.startswith(name + "{group="))


def all_are_called(counts, asked):
    """Whether so many were asked for, and the source was called for each that was led."""
    return counts["asked_total"] == asked and counts["calls_total"] == counts["led_total"]


def groups_add_up():
    good, bad = Service(replies(HEAD + b"1\r\n\r\nv")), Service(replies(b"HTTP/1.1 500 Oh\r\nContent-Length: 0\r\n\r\n"))
    words = [f"{name}={(bad if name == 'plain' else good).url}" for name in NAMES]
    with Counted(*words) as server:
        for number, name in enumerate(NAMES):
            for key in range(number + 1):
                for _ in range(2):
                    server.ask(f"{urllib.parse.quote(name)}/{key}")
        # Each key twice; those of the last group have no value, and are led again, or joined if the flight before has not landed yet.
        comes_to(lambda: all_are_called(server.counts(), 20))
        counts = server.counts()
        own = [counts[f'group_asks_total{{group="{escaped(name)}",found="led"}}'] for name in NAMES]
        joined = counts[f'group_asks_total{{group="{NAMES[-1]}",found="joined"}}']
        pairs = [("asks_total", "asked_total"), ("calls_total", "calls_total"), ("rehits_total", "rehits_total")]
        equal = all(sums(counts, "group_" + one) == counts[all_] for one, all_ in pairs)
        equal &= sums(counts, "fetch_duration_seconds_count") == counts["calls_total"] == counts["queue_duration_seconds_count"]
        status = counts['origin_failures_total{kind="status"}']
        failed = sums(counts, "group_origin_failures_total") == status == own[-1]
        right = own[:-1] == [1, 2, 3] and own[-1] + joined == 8 and counts["hits_total"] == 6
        return right and equal and failed and sums(counts, "group_cache_entries") == 6


def in_seconds(counts, name, labels=""):
    """What a histogram of the page says: how many there are, all their seconds, and how many are within each bound."""
    alone, before = (f"{{{labels}}}", labels + ",") if labels else ("", "")
    begin = f'{name}_bucket{{{before}le="'
    within = {float(key.removeprefix(begin)[:-2]): number for key, number in counts.items() if key.startswith(begin)}
    return counts[f"{name}_count{alone}"], counts[f"{name}_sum{alone}"], within


def adds_up(count, seconds, within):
    """Whether each bound has those of the lower ones too, the last one has all, and the sum is within what the bounds say."""
    bounds = sorted(within)
    numbers = [within[bound] for bound in bounds]
    own = [number - before for number, before in zip(numbers, [0] + numbers)]
    least = sum(number * bound for number, bound in zip(own, [0] + bounds))
    most = sum(number * bound for number, bound in zip(own, bounds) if number)
    return numbers == sorted(numbers) and bounds[-1] == float("inf") and numbers[-1] == count and least <= seconds <= most


def serves_late(seconds):
    """A service that answers so many seconds late."""

    def serve(stream):
        stream.recv(10000)
        time.sleep(seconds)
        stream.sendall(HEAD + b"1\r\n\r\nv")

    return Service(serve)


def times_are_told():
    group = 'group="slow"'
    # Of two values that may be under way one is left to the other service.
    words = ("--fetchers", "1", "--under-way", "2", "--loops", "1", "slow=" + serves_late(0.3).url, "other=" + Service(hangs).url)
    with Counted(*words) as server, ThreadPoolExecutor(3) as threads:
        none = [in_seconds(server.counts(), *one)[0] for one in (("queue_duration_seconds",), ("wait_duration_seconds", group))]
        right = list(threads.map(lambda key: server.ask(f"slow/{key}").endswith(b"v"), "aab"))
        again = server.ask("slow/a").endswith(b"v")
        counts = server.counts()
        fetch, wait = (in_seconds(counts, f"{what}_duration_seconds", group) for what in ("fetch", "wait"))
        queue = in_seconds(counts, "queue_duration_seconds")
        # Two values one after the other, the second of which waits for the first; three clients, two of which wait for one value.
        fetched = fetch[0] == 2 and 0.6 <= fetch[1] < 2 and fetch[2][0.25] == 0 and fetch[2][2.5] == 2
        waited = wait[0] == 3 and 0.9 <= wait[1] < 4 and wait[2][0.25] == 0
        queued = queue[0] == 2 and 0.25 <= queue[1] < 2 and queue[2][0.1] == 1
        return none == [0, 0] and all(right) and again and fetched and waited and queued and all(adds_up(*one) for one in (fetch, wait, queue))


def a_value_that_is_given_up_is_told():
    with Counted("--timeout", "0.3", "late=" + Service(hangs).url) as server:
        server.ask("late/k")
        fetch = in_seconds(server.counts(), "fetch_duration_seconds", 'group="late"')
        return fetch[0] == 1 and 0.3 <= fetch[1] < 2 and adds_up(*fetch)


def turns_are_told():
    with Counted("--demo", "--loops", "2") as server:
        request = get("echo/k")
        with socket.create_connection(server.address, PATIENCE) as stream:
            # More than a client is given in one turn, so that the loop does not wait behind it.
            threading.Thread(target=stream.sendall, args=(request * 5000,)).start()
            came = 0
            while came < 5000 * len(b"HTTP/1.1 200 OK\r\nContent-Type: application/x-protobuf\r\nContent-Length: 3\r\n\r\nxxx"):
                more = len(stream.recv(1 << 20))
                if not more:
                    return False
                came += more
        turns = [in_seconds(server.counts(), "loop_turn_duration_seconds", f'loop="{loop}"') for loop in (0, 1)]
        return sum(one[0] for one in turns) > 0 and all(adds_up(*one) for one in turns)


def keeps(stream):
    """What a service does that keeps its connections: 404 for the key none, 503 for the key bad, and else a value."""
    replies_of = {b"/none": b"HTTP/1.1 404 No\r\nContent-Length: 0\r\n\r\n", b"/bad": b"HTTP/1.1 503 Oh\r\nContent-Length: 0\r\n\r\n"}
    while request := stream.recv(10000):
        stream.sendall(replies_of.get(request.split()[1], HEAD + b"1\r\n\r\nv"))


def gives_once(stream):
    """What a service does that ends a connection behind the second request on it."""
    stream.recv(10000)
    stream.sendall(HEAD + b"1\r\n\r\nv")
    stream.recv(10000)


def services_are_told():
    urls = {"good": Service(keeps).url, "once": Service(gives_once).url, "slow": Service(hangs).url, "down": f"http://127.0.0.1:{free_port()}/"}

    def of(group, name, **labels):
        told = "".join(f',{label}="{value}"' for label, value in labels.items())
        return f'{name}{{service="{urls[group][7:-1]}"{told}}}'

    words = [f"{name}={url}" for name, url in urls.items()] + ["again=" + urls["good"]]
    with Counted("--fetchers", "1", "--under-way", "4", *words) as server, ThreadPoolExecutor(3) as threads:
        for path in ("good/a", "again/b", "good/none", "good/bad", "once/a", "once/b", "down/k"):
            server.ask(path)
        # Of four values that may be under way two of one service are, where others are served too.
        late = [threads.submit(server.ask, f"slow/{number}") for number in range(3)]
        right = server.says(
            **{
                of("good", "origin_replies_total", code="200"): 2,
                of("good", "origin_replies_total", code="404"): 1,
                of("good", "origin_replies_total", code="5xx"): 1,
                of("good", "origin_connections", state="busy"): 0,
                of("good", "origin_addresses", state="used"): 1,
                of("once", "origin_second_requests_total"): 1,
                of("once", "origin_connects_total", result="ok"): 2,
                of("down", "origin_connects_total", result="refused"): 1,
                of("down", "origin_addresses", state="used"): 0,
                of("down", "origin_addresses", state="resting"): 1,
                of("slow", "origin_connections", state="busy"): 2,
                of("slow", "origin_waiting"): 1,
            }
        )
        counts = server.counts()
        # A group of its own has connections of its own, since its URL may differ.
        kept = counts[of("good", "origin_connections", state="kept")] == counts[of("good", "origin_connects_total", result="ok")] > 0
        server.process.kill()
        return right and kept and len([future.exception() for future in late]) == 3


def look_ups_are_told():
    port = Service(keeps).port
    with Counted(f"g=http://localhost:{port}/") as server:
        name = f'lookups_total{{service="localhost:{port}",result="ok"}}'
        return comes_to(lambda: server.counts()[name] > 0) and server.says(**{name.replace('"ok"', '"failed"'): 0})


def bytes_of_clients_are_counted():
    request = get("echo/k", "echo/k", "none/k")
    with Counted("--demo") as server, socket.create_connection(server.address, PATIENCE) as stream:
        stream.sendall(request)
        came = b""
        while came.count(b"HTTP/1.1 ") < 3 or not came.endswith((b"k", b"\n")):
            came += stream.recv(10000)
        return server.says(received_bytes_total=len(request), sent_bytes_total=len(came))


def send(address, head):
    with socket.create_connection(address, PATIENCE) as stream:
        stream.sendall(head)
        return stream.recv(10000)


def replies_are_counted_by_their_status():
    heads = {
        200: b"GET /_groupcache/echo/k HTTP/1.1\r\nHost: h\r\n\r\n",
        400: b"GET /_groupcache/echo HTTP/1.1\r\nHost: h\r\n\r\n",
        404: b"GET /_groupcache/none/k HTTP/1.1\r\nHost: h\r\n\r\n",
        405: b"PUT /_groupcache/echo/k HTTP/1.1\r\nHost: h\r\n\r\n",
        413: b"GET /_groupcache/echo/k HTTP/1.1\r\nHost: h\r\nContent-Length: 1\r\n\r\nx",
        431: b"GET /" + 17000 * b"x",
        500: b"GET /_groupcache/square/x HTTP/1.1\r\nHost: h\r\n\r\n",
        501: b"GET /_groupcache/echo/k HTTP/1.1\r\nHost: h\r\nTransfer-Encoding: chunked\r\n\r\n",
    }
    with Counted("--demo") as server:
        right = [send(server.address, head).startswith(f"HTTP/1.1 {code} ".encode()) for code, head in heads.items()]
        send(server.address, b"GET /elsewhere HTTP/1.1\r\nHost: h\r\n\r\n")
        counted = {f'replies_total{{code="{code}"}}': 1 + (code == 404) for code in heads}
        return all(right) and server.says(**counted, unknown_groups_total=1)


def ends_are_counted_by_why():
    closing = b"GET /_groupcache/echo/k HTTP/1.1\r\nHost: h\r\nConnection: close\r\n\r\n"
    with Counted("--demo", "--connections", "4", "--loops", "1") as server, ExitStack() as streams:
        server.ask("echo/k")  # one that closes itself, or is closed behind its reply
        with socket.create_connection(server.address, PATIENCE) as stream:
            stream.sendall(closing)
            while stream.recv(10000):
                pass
        with socket.create_connection(server.address, PATIENCE):
            pass

        def closed():
            counts = server.counts()
            return {why: counts[f'connections_closed_total{{reason="{why}"}}'] for why in ("client", "reply", "crowded", "end")}

        before = comes_to(lambda: sum(closed().values()) == 3) and closed()
        for _ in range(4):
            streams.enter_context(socket.create_connection(server.address))
        crowded = comes_to(lambda: closed()["crowded"] >= 1)
        return before and before["client"] >= 1 and before["reply"] >= 1 and before["crowded"] == 0 and crowded


def limits_are_those_of_the_flags():
    group = "g=" + Service(hangs).url
    words = ("--connections", "77", "--fetchers", "2", "--under-way", "5", "--memory", "3MiB", "--cache", "1MiB", "--cache-keys", "9")
    with Counted(*words, group) as server:
        bounds = {'group_cache_limit_bytes{group="g"}': 1 << 20, 'group_cache_limit_entries{group="g"}': 9}
        limited = server.says(connections_limit=77, under_way_limit=10, untaken_limit_bytes=3 << 20, **bounds)
    with Counted("--demo") as server:
        free = server.says(under_way_limit=0, **{'group_cache_limit_entries{group="echo"}': float("inf")})
    return limited and free


def the_process_is_told_as_the_system_has_it():
    version = subprocess.run([PROGRAM, "--version"], capture_output=True, check=True, text=True).stdout.split()[-1]
    with Counted("--demo") as server:
        server.ask("echo/k")
        counts, own = server.counts(), f"/proc/{server.process.pid}"
        threads, files = server.threads(), len(os.listdir(own + "/fd"))
        age = time.time() - counts["process_start_time_seconds"]
        soft, _ = resource.prlimit(server.process.pid, resource.RLIMIT_NOFILE)
        return (
            any(name.startswith(f'build_info{{version="{version}",') for name in counts)
            and counts["process_threads"] == threads
            and abs(counts["process_open_fds"] - files) <= 2
            and counts["process_max_fds"] == soft
            and -2 < age < 60
            and 0 <= counts["uptime_seconds"] < 60
            and 0 <= counts["process_cpu_seconds_total"] < 60
            and 1 << 20 < counts["process_resident_memory_bytes"] <= counts["process_virtual_memory_bytes"]
        )


def readiness_is_told():
    with Counted("--demo") as server:
        ready = comes_to(lambda: server.get("/readyz") == (200, "ready\n"))
        return ready and server.get("/healthz") == (200, "ok\n") and server.says(ready=1)


def connections_come_and_go():
    with Counted("--demo") as server:
        ask(server.address, "echo/k")
        first, second = (socket.create_connection(server.address) for _ in range(2))
        came = server.says(connections=2, connections_accepted_total=3)
        first.close()
        went = server.says(connections=1, connections_accepted_total=3)
        second.close()
        return came and went and server.says(connections=0, accept_failures_total=0)


def is_open(stream):
    """Whether the other end has not ended this connection."""
    stream.setblocking(False)
    try:
        return stream.recv(1) != b""
    except BlockingIOError:
        return True
    except OSError:
        return False


def silent_clients_go_in_turn():
    with Counted("--demo", "--loops", "1", "--connections", "32") as server, ExitStack() as streams:

        def connect(count):
            return [streams.enter_context(socket.create_connection(server.address)) for _ in range(count)]

        def stay(clients, number):
            return sum(map(is_open, clients)) == number

        # Who goes has been silent for a second, and is looked at once in a second. All but the one that takes the last place have
        # been silent for longer by then. They are asked, and not the page: a connection counts there once its loop has taken it in.
        silence = 1.5
        first = connect(31)
        time.sleep(silence)
        first += connect(1)
        went = comes_to(lambda: stay(first, 30))
        last = connect(1)
        time.sleep(silence)
        stayed = stay(first, 30)
        last += connect(1)
        went_again = comes_to(lambda: stay(first, 28))
        said = server.says(connections_accepted_total=34, connections=30)
        return went and stayed and went_again and said and stay(last, 2) and stay(first, 28)


def silent_clients_go_where_the_system_gives_no_more_files():
    with Counted("--demo", "--loops", "1") as server, ExitStack() as streams:
        silent = [streams.enter_context(socket.create_connection(server.address)) for _ in range(20)]
        # Until all are accepted. The page is not asked for it: its client would leave the number of a file free.
        time.sleep(0.5)
        files = len(os.listdir(f"/proc/{server.process.pid}/fd"))
        _, most = resource.prlimit(server.process.pid, resource.RLIMIT_NOFILE)
        resource.prlimit(server.process.pid, resource.RLIMIT_NOFILE, (files, most))
        right = server.ask("echo/k").endswith(b"k") and 18 <= sum(map(is_open, silent)) < 20
        right = right and server.tells("accepts failed", level="warn")
        resource.prlimit(server.process.pid, resource.RLIMIT_NOFILE, (most, most))
        return right and server.counts()["accept_failures_total"] > 0


# What a service does, and the kind of failure that it is.
KINDS = [
    (replies(b"HTTP/1.1 404 Not Found\r\nContent-Length: 0\r\n\r\n"), "no_such_key"),
    (replies(b"HTTP/1.1 500 Oh\r\nContent-Length: 0\r\n\r\n"), "status"),
    (None, "unreached"),
    (hangs, "late"),
    (replies(HEAD + b"2\r\n\r\nv"), "lost"),
    (replies(b"220 ready\r\n\r\n"), "malformed"),
    (replies(HEAD + b"1048577\r\n\r\n"), "too_long"),
]


# What is said of them, from the second kind on. A key that is missing is no trouble.
TROUBLES = [
    "origin answered 500",
    "origin not reached",
    "origin too late",
    "origin closed the connection",
    "origin sent a bad reply",
    "origin sent a value over the limit",
]


def each_failure_is_of_its_kind():
    # Bound, so that nobody else listens there.
    nobody = socket.socket()
    nobody.bind(("127.0.0.1", 0))
    urls = [Service(serve).url if serve else f"http://127.0.0.1:{nobody.getsockname()[1]}/" for serve, _ in KINDS]
    words = [f"g{number}={url}" for number, url in enumerate(urls)]
    with Counted("--timeout", "1", "--rest-after", "1000", *words) as server, ThreadPoolExecutor(8) as threads:
        # Of the first kind one, of the next two, and so on.
        paths = [f"g{number}/{number}/{key}" for number in range(len(KINDS)) for key in range(number + 1)]
        list(threads.map(server.ask, paths))
        counted = server.says(**{f'origin_failures_total{{kind="{kind}"}}': number + 1 for number, (_, kind) in enumerate(KINDS)})

        def is_told(number, what):
            told, service = server.lines(what), urls[number].split("/")[2]
            keys = {f"{number}%2F{key}" for key in range(number + 1)}
            which = all((line["level"], line["group"], line["service"]) == ("warn", f"g{number}", service) for line in told)
            return (
                which
                and all(line["last_key"] in keys for line in told)
                and sum(int(line["more"]) for line in told) == number + 1
                and int(told[-1]["total"]) == number + 1
            )

        def are_told():
            told = [what for level, what, _ in lines_in(server.said()) if level == "warn"]
            return set(told) == set(TROUBLES) and all(is_told(number, what) for number, what in enumerate(TROUBLES, 1))

        # The program looks once a second what there was more of: each is told, and none again.
        told = comes_to(are_told)
        time.sleep(2)
        return counted and told and are_told()


def names_stay_in_their_line():
    bad = Service(replies(b"HTTP/1.1 503 Oh\r\nContent-Length: 0\r\n\r\n"))
    with Counted(*(f"{name}={bad.url}" for name in NAMES)) as server:
        for name in NAMES:
            server.ask(f"{urllib.parse.quote(name)}/{70 * 'k'}")
        key = 64 * "k"  # a key is cut
        told = [server.tells("origin answered 503", group=name, last_key=key) for name in ("%22%5C", "a%0Ab", "%C3%A9%E4%B8%80", "plain")]
        return all(told)


def json_has_what_text_has():
    bad = Service(replies(b"HTTP/1.1 503 Oh\r\nContent-Length: 0\r\n\r\n"))
    with Counted("--log", "json", f"{NAMES[0]}={bad.url}") as server:
        server.ask(urllib.parse.quote(NAMES[0]) + "/red/7")
        server.ask("none/k")

        def objects():
            return [json.loads(line) for line in server.said().split("\n") if line.startswith("{")]

        if not comes_to(lambda: len(objects()) >= 2):
            return False
        told = {line["what"]: line for line in objects()}
        failed = told["origin answered 503"]
        time_of = failed.pop("time")
        fields = {"group": "%22%5C", "service": bad.url.split("/")[2], "more": 1, "total": 1, "last_key": "red%2F7"}
        unknown = told["requests for groups that are not served here"]
        return (
            re.fullmatch(r"\d{4}-\d\d-\d\dT\d\d:\d\d:\d\d\.\d{3}Z", time_of) is not None
            and failed == {"level": "warn", "what": "origin answered 503", **fields}
            and (unknown["more"], unknown["total"]) == (1, 1)
        )


def times_are_those_of_the_clock():
    with Counted("--demo") as server:
        before = time.time()
        server.ask("none/k")
        server.tells("requests for groups that are not served here", more="1", total="1", level="warn")
        told = re.search(r"^(\S+)Z warn requests", server.said(), re.MULTILINE)[1]
        seconds = calendar.timegm(time.strptime(told.split(".")[0], "%Y-%m-%dT%H:%M:%S")) + float("0." + told.split(".")[1])
        return before - 0.01 <= seconds <= time.time() + 0.01


def a_service_is_well_again():
    is_well = threading.Event()

    def serve(stream):
        replies(HEAD + b"1\r\n\r\nv" if is_well.is_set() else b"HTTP/1.1 503 Oh\r\nContent-Length: 0\r\n\r\n")(stream)

    service = Service(serve)
    with Counted("g=" + service.url) as server:
        for key in range(3):
            server.ask(f"g/{key}")
        failed = server.tells("origin answered 503", group="g", total="3")
        is_well.set()
        server.ask("g/last")
        well = server.tells("origin well again", level="info", group="g", service=service.url.split("/")[2], failures="3")
        return failed and well and len(server.lines("origin well again")) == 1


def dribbles(stream):
    """What a service does that sends the rest of each reply late, and keeps its connections."""
    while stream.recv(10000):
        stream.sendall(HEAD + b"2\r\n\r\nv")
        time.sleep(0.4)
        stream.sendall(b"v")


def slow_values_are_told():
    late, rest, hung = serves_late(0.4), Service(dribbles), Service(hangs)
    words = ["late=" + late.url, "rest=" + rest.url, "hung=" + hung.url, "fast=" + Service(keeps).url]
    flags = ("--slow", "200ms", "--timeout", "1", "--fetchers", "1", "--under-way", "4", "--loops", "1")
    with Counted(*flags, *words) as server, ThreadPoolExecutor(8) as threads:
        # Of four values that may be under way two of one service are.
        keys = ["a", "b", "c/" + 70 * "k"]
        asked = [f"late/{key}" for key in keys] + ["hung/k", "fast/k"]
        list(threads.map(server.ask, asked))
        for key in ("a", "b"):
            server.ask(f"rest/{key}")

        def told(group):
            return [line for line in server.lines("value was slow") if line["group"] == group]

        if not comes_to(lambda: len(server.lines("value was slow")) >= 6):
            return False
        lines = server.lines("value was slow")
        times = {
            (line["group"], line["key"]): [int(line[name + "_ms"]) for name in ("queue", "connect", "first_byte", "whole")] for line in lines
        }
        waited = sorted(times[line["group"], line["key"]] for line in told("late"))
        right = len(lines) == 6 and all(line["level"] == "warn" for line in lines) and not told("fast")
        right &= {line["key"] for line in told("late")} == {"a", "b", "c%2F" + 62 * "k"}
        right &= {line["service"] for line in told("late")} == {late.url.split("/")[2]}
        right &= all(queue + connect + first <= whole and whole > 200 for queue, connect, first, whole in times.values())
        # Each reply comes at once, and the third value waits for one of the others.
        right &= [one[0] >= 300 for one in waited] == [False, False, True] and all(one[2] >= 300 for one in waited)
        # The rest of a reply is late; the second value has the connection of the first.
        right &= all(times["rest", key][2] < 200 and times["rest", key][3] >= 400 for key in "ab") and times["rest", "b"][1] == 0
        # None of its reply came until it was given up.
        right &= 900 <= times["hung", "k"][2] <= times["hung", "k"][3]
        if not right:
            print(lines)
        return right


def no_slow_value_is_told_without_the_flag():
    with Counted("--log", "json", "late=" + serves_late(0.3).url) as plain, Counted("--log", "json", "--slow", "0.2", "late=" + serves_late(0.3).url) as told:
        for server in (plain, told):
            server.ask("late/k")
        is_told = comes_to(lambda: '"what":"value was slow","group":"late"' in told.said() and '"queue_ms":0,"connect_ms":' in told.said())
        time.sleep(1.2)
        return is_told and "value was slow" not in plain.said()


class Accessed(Counted):
    """A server with an access log."""

    def __init__(self, path, *words):
        self.path = path
        super().__init__("--access-log", path, *words)

    def accesses(self, path=None):
        """The fields of the lines of its access log."""
        try:
            with open(path or self.path, encoding="ascii") as file:
                text = file.read()
        except FileNotFoundError:
            return []
        told = lines_in(text)
        assert all((level, what) == ("info", "reply") for level, what, _ in told) and len(told) == text.count("\n")
        return [fields for _, _, fields in told]

    def has(self, number, path=None):
        """Whether it comes to have so many lines."""
        return comes_to(lambda: len(self.accesses(path)) == number)


def each_reply_has_a_line():
    found = threading.Event()

    def serve(stream):
        stream.recv(10000)
        found.wait(PATIENCE)
        stream.sendall(HEAD + b"5\r\n\r\nvalue")

    name = 'a"b'
    with tempfile.TemporaryDirectory() as folder, ThreadPoolExecutor(2) as threads:
        with Accessed(os.path.join(folder, "log"), "--loops", "1", f"{name}={Service(serve).url}") as server:
            key = "x/" + 300 * "k"
            path = urllib.parse.quote(name) + "/" + key
            # On two connections, whose ports are told.
            streams = [socket.create_connection(server.address, PATIENCE) for _ in range(2)]
            ports = [str(stream.getsockname()[1]) for stream in streams]
            for number, stream in enumerate(streams, 1):
                stream.sendall(get(path))
                server.says(asked_total=number)
            time.sleep(0.3)
            found.set()
            for stream in streams:
                stream.recv(10000)
            time.sleep(0.3)  # so that the flight has landed
            streams[0].sendall(get(path, "none/k") + b"HEAD /_groupcache/" + path.encode() + b" HTTP/1.1\r\nHost: h\r\n\r\n")
            came = b""
            while came.count(b"HTTP/1.1 ") < 3:
                came += streams[0].recv(10000)
            streams[1].sendall(get(urllib.parse.quote(name)))  # no key
            streams[1].recv(10000)
            if not server.has(6):
                print(server.accesses())
                return False
            lines = server.accesses()
    own = {"group": "a%22b", "key": "x%2F" + 254 * "k", "status": "200"}
    value, port = {**own, "bytes": "7"}, [f"127.0.0.1:{port}" for port in ports]
    wanted = [
        {**value, "client": port[0], "found": "led"},
        {**value, "client": port[1], "found": "joined"},
        {**value, "client": port[0], "found": "hit"},
        {"group": "none", "key": "-", "status": "404", "bytes": str(len(b"no such group: none\n")), "client": port[0], "found": "-"},
        {**own, "bytes": "0", "client": port[0], "found": "hit"},
        {"group": "-", "key": "-", "status": "400", "bytes": "12", "client": port[1], "found": "-"},
    ]
    micros = [int(line.pop("micros")) for line in lines]
    waited = 250_000 <= micros[0] < 10_000_000 and 250_000 <= micros[1] < 10_000_000 and max(micros[2:]) < 250_000
    if lines != wanted or not waited:
        print(lines, micros)
    return lines == wanted and waited


def an_access_log_is_json_and_has_the_time_of_the_clock():
    with tempfile.TemporaryDirectory() as folder:
        path = os.path.join(folder, "log")
        with Accessed(path, "--demo", "--log", "json") as server:
            before = time.time()
            server.ask("echo/k")
            comes_to(lambda: os.path.getsize(path) > 0)
            after = time.time()
            with open(path, encoding="ascii") as file:
                line = json.loads(file.read())
    client, at = line.pop("client"), datetime.fromisoformat(line.pop("time").removesuffix("Z") + "+00:00").timestamp()
    wanted = {"level": "info", "what": "reply", "group": "echo", "key": "k", "status": 200, "bytes": 3, "found": "led", "micros": line["micros"]}
    return line == wanted and client.startswith("127.0.0.1:") and before - 0.05 <= at <= after + 0.05


def an_access_log_that_is_moved_away_is_opened_anew():
    with tempfile.TemporaryDirectory() as folder:
        path, old = os.path.join(folder, "log"), os.path.join(folder, "old")
        with open(path, "w", encoding="ascii") as file:
            file.write("2026-11-30T05:43:07.123Z info reply: was=there\n")
        with Accessed(path, "--demo") as server:
            server.ask("echo/one")
            first = server.has(2)  # what was there stays
            os.rename(path, old)

            def is_new():
                server.ask("echo/two")
                return server.accesses()

            anew = comes_to(is_new)
            kept = len(server.accesses(old)) >= 2
            os.remove(path)
            removed = comes_to(is_new)
            asked = server.counts()["asked_total"]
            return first and anew and kept and removed and asked >= 3


def a_full_disk_is_told_and_serves_on():
    with Accessed("/dev/full", "--demo") as server:
        served = [server.ask(f"echo/{key}").endswith(b"k") for key in ("1k", "2k", "3k")]
        failed = comes_to(lambda: "warn access log not written, " in server.said())
        told = server.tells("replies without a line in the access log", level="warn", total="3")
        counted = server.says(access_log_dropped_total=3)
        served.append(server.ask("echo/4k").endswith(b"k"))
        again = server.says(access_log_dropped_total=4)
        return all(served) and failed and told and counted and again and server.said().count("access log not written") == 1


def all_replies_are_written_or_counted():
    with tempfile.TemporaryDirectory() as folder, tempfile.TemporaryFile() as said:
        path, number = os.path.join(folder, "log"), 20000
        words = [PROGRAM, "--listen", "127.0.0.1:0", "--until-eof", "--demo", "--loops", "1", "--access-log", path, "--stats", "127.0.0.1:0"]
        process = subprocess.Popen(words, stdin=subprocess.PIPE, stdout=subprocess.PIPE, stderr=said)
        process.stdout.readline()
        told = os.pread(said.fileno(), 100000, 0).decode()
        address = ("127.0.0.1", int(re.search(r"at 127\.0\.0\.1:(\d+), 10000", told)[1]))
        replies_of = 0
        for _ in range(number // 5000):
            with socket.create_connection(address, PATIENCE) as stream:
                threading.Thread(target=stream.sendall, args=(get("echo/k") * 5000,)).start()
                came = 0
                while came < 5000 * len(b"HTTP/1.1 200 OK\r\nContent-Type: application/x-protobuf\r\nContent-Length: 3\r\n\r\nxxx"):
                    came += len(stream.recv(1 << 20))
                replies_of += 5000
        process.stdin.close()
        process.wait(PATIENCE)
        process.stdout.close()
        left_out = re.findall(r"replies without a line in the access log: more=\d+ total=(\d+)", os.pread(said.fileno(), 100000, 0).decode())
        with open(path, encoding="ascii") as file:
            lines = file.read()
        right = lines.count("\n") + int(([0] + left_out)[-1]) == replies_of == number
        return right and all(LINE.match(line) for line in lines.splitlines()[::997])


def an_access_log_is_on_standard_output():
    with tempfile.TemporaryFile() as said:
        words = [PROGRAM, "--listen", "127.0.0.1:0", "--until-eof", "--demo", "--access-log", "-"]
        process = subprocess.Popen(words, stdin=subprocess.PIPE, stdout=subprocess.PIPE, stderr=said)
        process.stdout.readline()
        told = os.pread(said.fileno(), 100000, 0).decode()
        ask(("127.0.0.1", int(re.search(r"at 127\.0\.0\.1:(\d+),", told)[1])), "echo/k")
        out, _ = process.communicate(timeout=PATIENCE)
        lines = lines_in(out.decode())
        return len(lines) == 1 and lines[0][2]["key"] == "k" and out.decode().splitlines()[-1].startswith("asked 1 ")


def slow_values_beyond_the_lines_are_counted():
    with Counted("--slow", "100ms", "late=" + serves_late(0.3).url, "other=" + Service(hangs).url) as server, ThreadPoolExecutor(60) as threads:
        list(threads.map(server.ask, (f"late/{key}" for key in range(60))))

        def all_are():
            left_out = sum(int(line["more"]) for line in server.lines("lines left out"))
            return len(server.lines("value was slow")) + left_out == 60 and left_out > 0

        return comes_to(all_are) and most_at_once(server.said()) <= 20 + 1


def most_at_once(said):
    """The most lines of one look at the counters, which are a second apart."""
    times = [datetime.fromisoformat(time) for time in re.findall(r"^([0-9T:.-]+)Z (?:info|warn) ", said, re.MULTILINE)]
    most = count = 0
    for before, time in zip([times[0], *times], times):
        count = count + 1 if (time - before).total_seconds() < 0.5 else 1
        most = max(most, count)
    return most


def lines_are_few():
    nobody = socket.socket()
    nobody.bind(("127.0.0.1", 0))
    url = f"http://127.0.0.1:{nobody.getsockname()[1]}/"
    with Counted(*(f"g{number}={url}" for number in range(60))) as server:

        def are_left_out():
            for number in range(60):
                server.ask(f"g{number}/k")
            return server.lines("lines left out")

        told = comes_to(are_left_out) and int(server.lines("lines left out")[0]["more"]) >= 1
        # The one that says how many were left out comes beside them.
        return told and most_at_once(server.said()) <= 20 + 1


def what_is_taken_is_told():
    with Counted("--demo", "--connections", "3", "--loops", "1") as server, ExitStack() as streams:

        def one_more(*whats):
            """Connects once more, since silent clients are let go to make room. Whether all of this is told by now."""
            streams.enter_context(socket.create_connection(server.address))
            time.sleep(0.2)
            return all(server.lines(what) for what in whats)

        told = comes_to(lambda: one_more("all connections are taken", "clients closed for want of connections"))
        streams.close()
        taken = server.lines("all connections are taken")[0] == {"level": "warn", "open": "3", "limit": "3"}
        return told and taken and server.tells("connections are free again", level="info", limit="3")


def an_end_tells_what_it_waits_for():
    with tempfile.TemporaryFile() as said:
        words = [PROGRAM, "--listen", "127.0.0.1:0", "--until-eof", "--timeout", "4", "g=" + Service(hangs).url]
        process = subprocess.Popen(words, stdin=subprocess.PIPE, stdout=subprocess.PIPE, stderr=said)
        process.stdout.readline()

        def told():
            return os.pread(said.fileno(), 100000, 0).decode()

        address = ("127.0.0.1", int(re.search(r"at 127\.0\.0\.1:(\d+),", told())[1]))
        with socket.create_connection(address) as client:
            client.sendall(get("g/k"))
            time.sleep(0.5)  # so that it has come
            process.stdin.close()
            client.recv(10000)
        process.wait(PATIENCE)
        process.stdout.close()
        whats = ("info", "ending, once clients have their replies")
        return [fields["open"] for level, what, fields in lines_in(told()) if (level, what) == whats] == ["1"]


def a_status_is_told_where_its_rest_is_late():
    def hangs_behind(status):
        def serve(stream):
            stream.recv(10000)
            stream.sendall(b"HTTP/1.1 " + status + b"\r\nContent-Length: 10\r\n\r\n")
            time.sleep(PATIENCE)

        return Service(serve).url

    groups = ["g=" + hangs_behind(b"404 Not Found"), "h=" + hangs_behind(b"503 Oh")]
    with Counted("--timeout", "1", *groups) as server, ThreadPoolExecutor(2) as threads:
        missing, broken = threads.map(server.ask, ("g/k", "h/k"))
        counted = server.says(
            **{f'origin_failures_total{{kind="{kind}"}}': number for kind, number in (("no_such_key", 1), ("status", 1), ("late", 0))}
        )
        return b"no such key" in missing and b"origin answered 503" in broken and counted


def threads_of(path, *words):
    """How many threads there are once a key was answered: no client is accepted before all are there."""
    with Counted(*words) as server:
        server.ask(path)
        return server.threads()


def each_thread_is_asked_for():
    group = "g=" + Service(replies(HEAD + b"1\r\n\r\nv")).url
    one = threads_of("echo/k", "--demo", "--loops", "1")
    fetching = threads_of("g/k", "--fetchers", "1", group)
    return (
        threads_of("echo/k", "--demo", "--loops", "4") == one + 3
        and threads_of("echo/k", "--demo", "--loops", "1", "--workers", "5") == one + 5
        and threads_of("g/k", "--fetchers", "3", group) == fetching + 2
    )


def each_fetcher_has_its_values_under_way():
    service = Service(hangs)
    words = ("--fetchers", "2", "--under-way", "2", "--timeout", "60", "g=" + service.url)
    with Counted(*words) as server, ExitStack() as streams:
        for number in range(5):
            streams.enter_context(socket.create_connection(server.address)).sendall(get(f"g/{number}"))
        comes_to(lambda: service.connections >= 4)
        time.sleep(0.3)
        return service.connections == 4


def who_has_nothing_to_do_takes_no_processor():
    def seconds():
        with open(f"/proc/{server.process.pid}/stat", encoding="ascii") as stat:
            words = stat.read().rsplit(")", 1)[1].split()
        return (int(words[11]) + int(words[12])) / os.sysconf("SC_CLK_TCK")

    with Counted("--demo", "--timeout", "60", "g=" + Service(hangs).url) as server, ExitStack() as streams:
        clients = [streams.enter_context(socket.create_connection(server.address)) for _ in range(10)]
        for client in clients:
            client.sendall(get("echo/k"))
            client.recv(10000)
        clients[0].sendall(get("g/k"))
        server.calls(2)
        before = seconds()
        time.sleep(3)
        return seconds() - before < 0.5


def no_more_connections_than_by_the_flag():
    with Counted("--connections", "1", "g=" + Service(hangs).url) as server:
        with socket.create_connection(server.address) as first:
            first.sendall(get("g/k"))
            server.calls(1)
            others = [socket.create_connection(server.address) for _ in range(2)]
            time.sleep(0.5)
            accepted = server.counts()["connections_accepted_total"]
    for other in others:
        other.close()
    return accepted == 1


def a_value_is_late_by_the_flag():
    def ends_late(stream):
        stream.recv(10000)
        time.sleep(5)  # longer than by the flag, and not as long as without it

    with Counted("--timeout", "1", "g=" + Service(ends_late).url) as server:
        return b"origin timed out" in server.ask("g/k")


# A value of 100,000 bytes, its key of 6, and what an entry and a block take beside them.
ENTRY = 100222


def hits_of(*words):
    """How many hits there are if a value of 100,000 bytes is asked for twice. None if the page says that its cache holds anything
    else than its entry."""
    with Counted("--demo", *words) as server:
        for _ in range(2):
            server.ask("fill/100000")
        server.says(asked_total=2)
        hits = server.counts()["hits_total"]
        return hits if server.says(cache_bytes=hits * ENTRY) else None


def requests_have_the_fields_of_their_group():
    heads = []

    def keeps(stream):
        while head := stream.recv(10000):
            heads.append(head)
            stream.sendall(HEAD + b"1\r\n\r\nv")

    service = Service(keeps)
    with tempfile.TemporaryDirectory() as folder:
        token, config = os.path.join(folder, "token"), os.path.join(folder, "front.toml")
        with open(token, "w", encoding="utf-8") as file:
            file.write("hush hush\n")
        with open(config, "w", encoding="utf-8") as file:
            file.write(f"""[groups.a]\nurl = "{service.url}a/"\nheader = ["Authorization:  Bearer @{token} ", "x-team: red"]\n"""
                       f"""[groups.b]\nurl = "{service.url}b/"\n[groups.c]\nurl = "{service.url}c/"\nheader = ["x-team: blue"]\n""")
        with Counted("--config", config) as server:
            os.remove(token)
            fields = {"a": "Authorization: Bearer hush hush\r\nx-team: red\r\n", "b": "", "c": "x-team: blue\r\n"}
            for key in range(3):
                for group in fields:
                    server.ask(f"{group}/{key}")
            told = server.said() + server.get("/metrics")[1]
    asked = f"HTTP/1.1\r\nhost: 127.0.0.1:{service.port}\r\nuser-agent: peer_front\r\n"
    wanted = [f"GET /{group}/{key} {asked}{fields[group]}\r\n".encode() for key in range(3) for group in fields]
    return heads == wanted and service.connections < 9 and "hush" not in told


def took(server, path, reply):
    """How many seconds a reply took that ends so. None if it does not."""
    began = time.monotonic()
    return time.monotonic() - began if server.ask(path).endswith(reply) else None


def each_group_has_its_times():
    with ExitStack() as stack:
        # A listener that is full: whoever connects to it hears nothing.
        full = stack.enter_context(socket.create_server(("127.0.0.1", 0), backlog=0))
        at = "%s:%d" % full.getsockname()
        for _ in range(4):
            stream = stack.enter_context(socket.socket())
            stream.setblocking(False)
            stream.connect_ex(full.getsockname())
        config = stack.enter_context(tempfile.NamedTemporaryFile("w"))
        config.write(f"""[groups.a]\nurl = "{Service(hangs).url}"\ntimeout = "300ms"\n[groups.b]\nurl = "{Service(hangs).url}"\n"""
                     f"""[groups.c]\nurl = "http://{at}/"\nconnect_timeout = "300ms"\n""")
        config.flush()
        server = stack.enter_context(Counted("--timeout", "3", "--config", config.name))
        late, unreached = b"origin timed out\n", b"origin cannot be reached\n"
        times = [took(server, path, reply) for path, reply in (("a/k", late), ("b/k", late), ("c/k", unreached))]
    return None not in times and times[0] < 2 < 3 <= times[1] and times[2] < 1.5


def a_group_has_its_values_under_way():
    most, now, lock = 0, 0, threading.Lock()

    def counts(stream):
        nonlocal most, now
        while head := stream.recv(10000):
            if head.startswith(b"GET /a/"):
                with lock:
                    now += 1
                    most = max(most, now)
                time.sleep(0.3)
                with lock:
                    now -= 1
            stream.sendall(HEAD + b"1\r\n\r\nv")

    service = Service(counts)
    with tempfile.NamedTemporaryFile("w") as config:
        config.write(f"""[groups.a]\nurl = "{service.url}a/"\nunder_way = 2\n[groups.b]\nurl = "{service.url}b/"\n""")
        config.flush()
        with Counted("--config", config.name) as server, ThreadPoolExecutor(6) as clients:
            waited = [clients.submit(server.ask, f"a/{key}") for key in range(6)]
            comes_to(lambda: now == 2)
            apart = took(server, "b/k", b"v")
            served = all(reply.result().endswith(b"v") for reply in waited)
    return served and most == 2 and apart is not None and apart < 0.6


def each_group_has_its_cache():
    def gives(stream):
        while stream.recv(10000):
            stream.sendall(HEAD + b"1000\r\n\r\n" + 1000 * b"v")

    url = Service(gives).url
    # Two entries, each of a key of one byte and a value of 1,000, and what an entry and a block take beside them.
    groups = {"few": "cache_keys = 1", "large": "", "small": f"cache = {2 * (1 + 1000 + 144 + 72)}"}
    with tempfile.NamedTemporaryFile("w") as config:
        config.write("".join(f'[groups.{name}]\nurl = "{url}"\n{own}\n' for name, own in groups.items()))
        config.flush()
        with Counted("--cache", "1MiB", "--config", config.name) as server:
            for key in "abca":
                for name in groups:
                    server.ask(f"{name}/{key}")

            def of(name, numbers, more=""):
                return {f'group_{name}{{group="{group}"{more}}}': number for group, number in zip(groups, numbers)}

            return server.says(
                **of("cache_limit_bytes", (1 << 20, 1 << 20, 2434)),
                **of("cache_limit_entries", (1, float("inf"), float("inf"))),
                **of("cache_entries", (1, 3, 2)),
                **of("cache_evictions_total", (0, 0, 2), ',reason="bytes"'),
                **of("cache_evictions_total", (3, 0, 0), ',reason="keys"'),
                **of("asks_total", (0, 1, 0), ',found="hit"'),
            )


def values_within_the_cache_are_kept():
    caches = [str(ENTRY), str(ENTRY - 1), "0"]
    return [hits_of(), *(hits_of("--cache", cache) for cache in caches)] == [1, 1, 0, 0]


def asked_again():
    """Which of 60 values of 1,000,000 bytes a service is asked for once more, of 20 in the middle, the last one first, after all were
    asked for. Two shards keep 16 of them each, those that came last."""
    asked = []

    def serve(stream):
        asked.append(stream.recv(10000).split()[1])
        stream.sendall(HEAD + b"1000000\r\n\r\n" + 1000000 * b"v")

    with Counted("--cache", "32MiB", "g=" + Service(serve).url) as server:
        for number in [*range(60), *reversed(range(20, 40))]:
            server.ask("g/" + hashlib.sha256(bytes([number])).hexdigest())
    return tuple(asked[60:])


def each_server_deals_keys_out_by_a_seed_of_its_own():
    return len({asked_again() for _ in range(4)}) > 1


def leave_at_once(stream):
    """Ends a connection by a reset, so that nobody answers what was asked on it."""
    stream.setsockopt(socket.SOL_SOCKET, socket.SO_LINGER, struct.pack("ii", 1, 0))
    stream.close()


def asked_at_once(wait, *words, leaves=False):
    """How many of two values of a service are asked for at once for a client, beside another one that waits for a first value, while
    two more of 1 MiB each are there for it; or after that one has left. So many seconds later the first one's bytes are counted."""
    asked, may_answer = [], threading.Event()

    def serve(stream):
        asked.append(stream.recv(10000).split()[1])
        may_answer.wait(PATIENCE)

    service = Service(serve)
    with Counted("--demo", *words, "g=" + service.url) as server:
        other, client = (socket.create_connection(server.address, PATIENCE) for _ in range(2))
        for stream in (other, client):
            for number in range(6):
                stream.sendall(get(f"echo/{number}"))
                stream.recv(10000)
        other.sendall(get("g/first", "fill/1048576", "fill/1048575"))
        server.calls(9)
        time.sleep(wait)  # what clients hold is counted once a second
        if leaves:
            leave_at_once(other)
            server.says(connections=1)
        client.sendall(get("g/one", "g/two"))
        server.calls(10)
        time.sleep(wait / 5)
        may_answer.set()
        return len({b"/one", b"/two"} & set(asked))


def asks_at_once_for(number, *words, leaves=False):
    """Whether so many are asked for. A busy machine counts later, so it is asked again with more time."""
    return any(asked_at_once(wait, *words, leaves=leaves) == number for wait in (2.5, 5, 10))


def above_the_memory_one_value_is_asked_for():
    return asks_at_once_for(1, "--memory", "64KiB") and asks_at_once_for(2)


def who_leaves_holds_nothing():
    return asks_at_once_for(2, "--memory", "64KiB", leaves=True)


run_rows(
    [
        asks_are_told_apart,
        groups_add_up,
        times_are_told,
        a_value_that_is_given_up_is_told,
        turns_are_told,
        services_are_told,
        look_ups_are_told,
        bytes_of_clients_are_counted,
        replies_are_counted_by_their_status,
        connections_come_and_go,
        ends_are_counted_by_why,
        limits_are_those_of_the_flags,
        the_process_is_told_as_the_system_has_it,
        readiness_is_told,
        silent_clients_go_in_turn,
        silent_clients_go_where_the_system_gives_no_more_files,
        each_failure_is_of_its_kind,
        names_stay_in_their_line,
        json_has_what_text_has,
        times_are_those_of_the_clock,
        a_service_is_well_again,
        slow_values_are_told,
        no_slow_value_is_told_without_the_flag,
        slow_values_beyond_the_lines_are_counted,
        each_reply_has_a_line,
        an_access_log_is_json_and_has_the_time_of_the_clock,
        an_access_log_that_is_moved_away_is_opened_anew,
        a_full_disk_is_told_and_serves_on,
        all_replies_are_written_or_counted,
        an_access_log_is_on_standard_output,
        lines_are_few,
        what_is_taken_is_told,
        an_end_tells_what_it_waits_for,
        a_status_is_told_where_its_rest_is_late,
        each_thread_is_asked_for,
        each_fetcher_has_its_values_under_way,
        who_has_nothing_to_do_takes_no_processor,
        no_more_connections_than_by_the_flag,
        a_value_is_late_by_the_flag,
        requests_have_the_fields_of_their_group,
        each_group_has_its_times,
        a_group_has_its_values_under_way,
        each_group_has_its_cache,
        values_within_the_cache_are_kept,
        each_server_deals_keys_out_by_a_seed_of_its_own,
        above_the_memory_one_value_is_asked_for,
        who_leaves_holds_nothing,
    ]
)
