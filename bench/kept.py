#!/usr/bin/env python3
"""What the built peer_front keeps of its services: connections, and of replies that never come nothing.

    ./build
    python3 bench/kept.py [crates/peer_front/out/peer_front]

Connections are kept for a service that is asked now, also where others, asked before, leave as many as are kept, and no more; none
is kept that a service has ended, nor any with `--connection-for-each`; where a host is gone without a word one value is late, and
the next ones ask anew; of two services each value comes from its own, also where one ends its connections now and then, and in its
time where the other one hangs, as a table's do beside a service that hangs; a value that waited has its whole time, and one that waits
is late in its time, whatever those under way do; what comes on a
kept connection without a request is no value; a reply that runs until its connection ends is no value where that is reset; and
interim replies without end fill no memory.

Its last line is `rows N failures 0`; where a row fails, so does the program.
"""
import socket
import struct
import sys
import tempfile
import threading
import time
from concurrent.futures import ThreadPoolExecutor

from common import Listening, Service, ask, hangs, run_rows

PROGRAM = sys.argv[1] if len(sys.argv) > 1 else "crates/peer_front/out/peer_front"
VALUE = b"HTTP/1.1 200 OK\r\nContent-Length: 1\r\n\r\nv"
INTERIM = b"HTTP/1.1 103 Early Hints\r\nLink: " + b"x" * 10000 + b"\r\n\r\n"
MOST_MEMORY = 64 << 20


def closes(stream):
    stream.recv(10000)
    stream.sendall(VALUE)


def gives(value, most=None):
    """Answers each request with this value, on each connection so many at most, and ends it behind the last."""
    reply = VALUE[:-1] + value

    def serve(stream):
        served = 0
        while served != most and stream.recv(10000):
            stream.sendall(reply)
            served += 1

    return serve


SPOKE = threading.Event()


def speaks_unasked(stream):
    """Answers each request, and once again soon behind it, where nobody asks."""
    while stream.recv(10000):
        stream.sendall(VALUE)
        time.sleep(0.1)
        stream.sendall(VALUE[:-1] + b"x")
        SPOKE.set()


def resets_within(stream):
    """Answers by a reply that runs until the connection ends, and resets that within it."""
    stream.recv(10000)
    stream.sendall(b"HTTP/1.1 200 OK\r\n\r\nv")
    time.sleep(0.2)
    stream.setsockopt(socket.SOL_SOCKET, socket.SO_LINGER, struct.pack("ii", 1, 0))


def never_replies(stream):
    stream.recv(10000)
    while True:
        stream.sendall(INTERIM * 100)


class Server(Listening):
    """A server without caches."""

    def __init__(self, *words):
        super().__init__(PROGRAM, "--cache", "0", *words)

    def ask(self, path):
        return ask(self.address, path)

    def ask_together(self, *paths):
        """The replies to requests that come at once."""
        with ThreadPoolExecutor(len(paths)) as threads:
            return list(threads.map(self.ask, paths))

    def most_memory(self):
        """How many bytes the process had in memory at most."""
        with open(f"/proc/{self.process.pid}/status", encoding="ascii") as lines:
            return next(int(line.split()[1]) << 10 for line in lines if line.startswith("VmHWM"))


# Of a connection, by tcp(7): it stands, or the other side has ended it and this one has not closed it.
STANDS, WAITS_TO_CLOSE = "01", "08"


def connections_to(port, state):
    """How many connections to this port are in this state."""
    with open("/proc/net/tcp", encoding="ascii") as lines:
        fields = [line.split() for line in lines][1:]
    return sum(field[2].endswith(":%04X" % port) and field[3] == state for field in fields)


def answers_beside(server, hung, path, value):
    """Whether a path has this value five times while 20 clients wait for keys of the group `a`, whose service hangs and has a half
    of the four values that may be under way."""
    clients = [socket.create_connection(server.address) for _ in range(20)]
    for number, client in enumerate(clients):
        client.sendall(f"GET /_groupcache/a/{number} HTTP/1.1\r\nHost: h\r\n\r\n".encode())
    for _ in range(1000):
        if hung.connections == 2:
            break
        time.sleep(0.01)
    replies = [server.ask(path) for _ in range(5)]
    return all(reply.endswith(b"\x0a\x01" + value) for reply in replies) and hung.connections == 2


def connections_to_each_service_are_kept():
    first, second, third = (Service(gives(b"v")) for _ in range(3))
    with Server("--under-way", "2", "a=" + first.url, "b=" + second.url, "c=" + third.url) as server:
        replies = [server.ask(path) for path in ("a/1", "b/1", "c/1", "c/2", "c/3", "c/4", "c/5")]
        kept = sum(connections_to(service.port, STANDS) for service in (first, second, third))
        return all(reply.endswith(b"\x0a\x01v") for reply in replies) and third.connections == 1 and kept == 2


def none_is_kept_that_was_ended():
    service = Service(closes)
    with Server("g=" + service.url) as server:
        for number in range(20):
            server.ask(f"g/{number}")
        time.sleep(0.5)
        return service.connections == 20 and connections_to(service.port, WAITS_TO_CLOSE) == 0


def none_is_kept_where_each_value_has_its_own():
    service = Service(gives(b"v"))
    with Server("--connection-for-each", "g=" + service.url) as server:
        replies = [server.ask(f"g/{number}") for number in range(5)]
        return all(reply.endswith(b"\x0a\x01v") for reply in replies) and service.connections == 5


def each_value_is_of_its_own_service():
    first, second = Service(gives(b"x")), Service(gives(b"y", most=3))
    with Server("a=" + first.url, "b=" + second.url) as server:
        replies = []
        for number in range(20):
            replies += [server.ask(f"a/{number}"), server.ask(f"b/{number}")]
            replies += server.ask_together(f"a/p{number}", f"b/p{number}")
        right = [reply.endswith(b"\x0a\x01" + value) for reply, value in zip(replies, (b"x", b"y") * 40)]
        return all(right) and first.connections < 10 and second.connections >= 13


def a_service_that_hangs_leaves_room_to_others():
    first, second = Service(hangs), Service(gives(b"y"))
    with Server("--under-way", "4", "--timeout", "60", "a=" + first.url, "b=" + second.url) as server:
        return answers_beside(server, first, "b/k", b"y")


def a_service_that_hangs_leaves_room_to_a_table():
    service = Service(hangs)
    with tempfile.NamedTemporaryFile() as table:
        table.write(b"t\tk\tv\n")
        table.flush()
        with Server("--under-way", "4", "--timeout", "60", "--table", table.name, "a=" + service.url) as server:
            return answers_beside(server, service, "t/k", b"v")


def one_that_waited_has_its_whole_time():
    """Of two services each may have one of two values under way."""
    def is_slow(stream):
        while stream.recv(10000):
            time.sleep(2.5)
            stream.sendall(VALUE)

    first, second = Service(is_slow), Service(gives(b"y"))
    with Server("--under-way", "2", "--timeout", "4", "a=" + first.url, "b=" + second.url) as server:
        replies = server.ask_together("a/1", "a/2")
        return all(reply.endswith(b"\x0a\x01v") for reply in replies) and first.connections == 1


def one_that_waits_is_late_in_its_time():
    """One value is under way at a time: the first one is slow, the second never comes, and the third waits for longer than it may."""
    def is_slow_once(stream):
        stream.recv(10000)
        time.sleep(2.5)
        stream.sendall(VALUE)
        hangs(stream)

    first, second = Service(is_slow_once), Service(gives(b"y"))
    words = ("--under-way", "2", "--timeout", "4", "a=" + first.url, "b=" + second.url)
    with Server(*words) as server, ThreadPoolExecutor(3) as threads:
        asked = []
        for path in ("a/1", "a/2", "a/3"):
            asked.append(threads.submit(server.ask, path))
            time.sleep(0.2)
        waited = asked[2].result()
        time.sleep(0.5)
        hung = not asked[1].done()
        replies = [future.result() for future in asked]
        return hung and waited == replies[1] and b"origin timed out" in waited and replies[0].endswith(b"\x0a\x01v")


def one_value_is_late_where_a_host_is_gone():
    """Three connections are kept when their host goes without a word, and another one has its address."""
    three, gone = threading.Barrier(3), threading.Event()

    def serve(stream):
        was_gone = gone.is_set()
        if stream.recv(10000) and not was_gone:
            three.wait(20)
        stream.sendall(VALUE)
        while stream.recv(10000):
            if was_gone:
                stream.sendall(VALUE)

    with Server("--timeout", "1", "g=" + Service(serve).url) as server:
        replies = server.ask_together("g/1", "g/2", "g/3")
        gone.set()
        late = server.ask("g/4")
        replies += [server.ask(f"g/{number}") for number in range(5, 9)]
        return b"origin timed out" in late and all(reply.endswith(b"\x0a\x01v") for reply in replies)


def no_value_is_one_that_nobody_asked_for():
    service = Service(speaks_unasked)
    with Server("g=" + service.url) as server:
        for number in range(5):
            SPOKE.clear()
            if not server.ask(f"g/{number}").endswith(b"\x0a\x01v"):
                return False
            SPOKE.wait(20)
            time.sleep(0.05)
        return service.connections == 5


def no_value_is_cut_by_a_reset():
    service = Service(resets_within)
    with Server("g=" + service.url) as server:
        replies = [server.ask(f"g/{number}") for number in range(3)]
        return all(b"origin closed the connection" in reply for reply in replies)


def interim_replies_fill_no_memory():
    service = Service(never_replies)
    with Server("--timeout", "3", "g=" + service.url) as server:
        reply = server.ask("g/k")
        return b"origin timed out" in reply and server.most_memory() < MOST_MEMORY


run_rows(
    [
        connections_to_each_service_are_kept,
        none_is_kept_that_was_ended,
        none_is_kept_where_each_value_has_its_own,
        each_value_is_of_its_own_service,
        a_service_that_hangs_leaves_room_to_others,
        a_service_that_hangs_leaves_room_to_a_table,
        one_that_waited_has_its_whole_time,
        one_that_waits_is_late_in_its_time,
        one_value_is_late_where_a_host_is_gone,
        no_value_is_one_that_nobody_asked_for,
        no_value_is_cut_by_a_reset,
        interim_replies_fill_no_memory,
    ]
)
