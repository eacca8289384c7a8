#!/usr/bin/env python3
"""Clients that are slow, but do not take nothing, at the built peer_front: they have all their replies.

    ./build
    python3 bench/slow_clients.py [crates/peer_front/out/peer_front]

One takes so little at a time that the system reports room for more only after longer than a client may take nothing. Others
take all that there is while the server itself is stopped for longer than that. Of those who ask while it is stopped for longer than a
client may be silent none is let go, nor one whose request comes whole only then; and a value that comes meanwhile is given, whose time
is over by then. Those who take nothing, or send no whole request, are closed, and that is told on standard error.

Its last line is `rows N failures 0`; where a row fails, so does the program.
"""
import os
import re
import signal
import socket
import sys
import tempfile
import threading
import time
from contextlib import ExitStack
from multiprocessing.pool import ThreadPool

from common import Listening, Service, run_rows

PROGRAM = sys.argv[1] if len(sys.argv) > 1 else "crates/peer_front/out/peer_front"
# A client may take nothing for 10 s.
SECONDS = 14
REQUEST = b"GET /_groupcache/fill/1000000 HTTP/1.1\r\nHost: h\r\n\r\n"
LAST = b"GET /_groupcache/echo/last HTTP/1.1\r\nHost: h\r\nConnection: close\r\n\r\n"
# More than the buffers of both sides take.
REQUESTS = 40
SERVERS = 8


class Server(Listening):
    """A server of the groups for demonstrations."""

    def __init__(self):
        super().__init__(PROGRAM, "--demo")

    def begin(self):
        """A client that asked for more than it takes."""
        stream = socket.create_connection(self.address, 30)
        stream.sendall(REQUEST * REQUESTS + LAST)
        return stream


def rest_of(stream, taken):
    """How many bytes came in all, and the last of them."""
    last = b""
    while part := stream.recv(1 << 20):
        taken, last = taken + len(part), (last + part)[-6:]
    return taken, last


def has_all(taken, last):
    return taken > REQUESTS * 1000000 and last == b"\x0a\x04last"


def one_that_takes_little_at_a_time():
    with Server() as server, server.begin() as stream:
        taken = 0
        for _ in range(SECONDS * 10):
            taken += len(stream.recv(2000))
            time.sleep(0.1)
        return has_all(*rest_of(stream, taken))


def has_all_behind_a_stop(server):
    with server.begin() as stream:
        # By then the server waits for room in the stream.
        time.sleep(1)
        server.process.send_signal(signal.SIGSTOP)
        stream.settimeout(SECONDS)
        taken = 0
        try:
            while part := stream.recv(1 << 20):
                taken += len(part)
        except TimeoutError:
            server.process.send_signal(signal.SIGCONT)
        stream.settimeout(30)
        return has_all(*rest_of(stream, taken))


def those_whose_server_stood_still():
    """Each of several: whether a wait ends by the stop or by what came meanwhile is chance."""
    with ExitStack() as stack, ThreadPool(SERVERS) as pool:
        servers = [stack.enter_context(Server()) for _ in range(SERVERS)]
        return all(pool.map(has_all_behind_a_stop, servers))


def request(path):
    return f"GET /_groupcache/{path} HTTP/1.1\r\nHost: h\r\n\r\n".encode()


def have_replies_behind_a_stop(_):
    """Two clients that ask while the server is stopped, where there is room for two and each may be silent for a second."""
    with Listening(PROGRAM, "--demo", "--connections", "2") as server, ExitStack() as stack:
        clients = [stack.enter_context(socket.create_connection(server.address, 10)) for _ in range(2)]
        for client in clients:
            client.sendall(request("echo/k"))
            client.recv(10000)
        time.sleep(0.2)
        server.process.send_signal(signal.SIGSTOP)
        time.sleep(3)
        for client in clients:
            client.sendall(request("echo/other"))
        server.process.send_signal(signal.SIGCONT)
        return all(client.recv(10000).endswith(b"\x0a\x05other") for client in clients)


def those_who_asked_while_their_server_stood_still():
    with ThreadPool(SERVERS) as pool:
        return all(pool.map(have_replies_behind_a_stop, range(SERVERS)))


def one_whose_request_came_whole_while_its_server_stood_still():
    """For longer than it may send without a reply, where there is room for one."""
    with Listening(PROGRAM, "--demo", "--connections", "1") as server, socket.create_connection(server.address, 10) as client:
        client.sendall(request("echo/k")[:10])
        time.sleep(0.5)
        server.process.send_signal(signal.SIGSTOP)
        time.sleep(11)
        client.sendall(request("echo/k")[10:])
        server.process.send_signal(signal.SIGCONT)
        return client.recv(10000).endswith(b"\x0a\x01k")


def is_given_behind_a_stop(reply):
    """A value that comes while the server is stopped, until its time is over."""
    asked, may_answer = threading.Event(), threading.Event()

    def serve(stream):
        stream.recv(10000)
        asked.set()
        may_answer.wait(10)
        stream.sendall(reply)

    with Listening(PROGRAM, "--timeout", "2", "g=" + Service(serve).url) as server:
        with socket.create_connection(server.address, 10) as client:
            client.sendall(request("g/k"))
            asked.wait(10)
            time.sleep(0.2)
            server.process.send_signal(signal.SIGSTOP)
            may_answer.set()
            time.sleep(3)
            server.process.send_signal(signal.SIGCONT)
            return client.recv(10000).endswith(b"\x0a\x05value")


def a_value_that_came_while_the_server_stood_still():
    with ThreadPool(SERVERS) as pool:
        return all(pool.map(is_given_behind_a_stop, [b"HTTP/1.1 200 OK\r\nContent-Length: 5\r\n\r\nvalue"] * SERVERS))


def a_value_whose_end_came_while_the_server_stood_still():
    with ThreadPool(SERVERS) as pool:
        return all(pool.map(is_given_behind_a_stop, [b"HTTP/1.1 200 OK\r\n\r\nvalue"] * SERVERS))


def those_who_are_closed_are_told():
    lines = [r"warn clients closed as slow: more=1 total=1", r"info clients closed as silent: more=1 total=1"]
    with tempfile.TemporaryFile() as said, Listening(PROGRAM, "--demo", said=said) as server, ExitStack() as stack:
        slow, silent = (stack.enter_context(socket.create_connection(server.address, 10)) for _ in range(2))
        slow.sendall(REQUEST * REQUESTS)
        silent.sendall(request("echo/k")[:10])
        # A client may be silent for 60 s.
        until = time.monotonic() + 120
        while time.monotonic() < until:
            told = os.pread(said.fileno(), 100000, 0).decode()
            if all(re.search(rf"^\S+Z {line}$", told, re.MULTILINE) for line in lines):
                return True
            time.sleep(0.2)
        return False


run_rows(
    [
        those_who_are_closed_are_told,
        one_that_takes_little_at_a_time,
        those_whose_server_stood_still,
        those_who_asked_while_their_server_stood_still,
        one_whose_request_came_whole_while_its_server_stood_still,
        a_value_that_came_while_the_server_stood_still,
        a_value_whose_end_came_while_the_server_stood_still,
    ]
)
