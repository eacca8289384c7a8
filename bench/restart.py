#!/usr/bin/env python3
"""A restart of the built peer_front, as its clients see it.

    ./build
    python3 bench/restart.py [crates/peer_front/out/peer_front]

A server that is told to end refuses new clients at once and answers those that wait; meanwhile another serves the address.
One that is told to end closes its clients, also if one of them left before. And where more clients come at once than connections are
had, all of them are connected, and wait.

Its last line is `rows N failures 0`; where a row fails, so does the program.
"""
import select
import socket
import subprocess
import sys
import threading
import time

from common import Started, free_port, run_rows

PROGRAM = sys.argv[1] if len(sys.argv) > 1 else "crates/peer_front/out/peer_front"


def most_that_wait():
    """How many clients may wait to be accepted, as the system allows."""
    with open("/proc/sys/net/core/somaxconn", encoding="ascii") as most:
        return int(most.read())


# More than the 128 that std listens for, where the system allows more.
CLIENTS = min(400, most_that_wait())


class Service:
    """An HTTP service for one request, which it answers once it may."""

    def __init__(self):
        self.listener = socket.create_server(("127.0.0.1", 0))
        self.url = "http://127.0.0.1:%d/" % self.listener.getsockname()[1]
        self.asked, self.may = threading.Event(), threading.Event()
        threading.Thread(target=self.serve, daemon=True).start()

    def serve(self):
        stream, _ = self.listener.accept()
        stream.recv(10000)
        self.asked.set()
        self.may.wait(30)
        stream.sendall(b"HTTP/1.1 200 OK\r\nContent-Length: 4\r\n\r\nslow")


class Server(Started):
    """A server that listens, and ends once its input does."""

    def __init__(self, address, *words):
        command = [PROGRAM, "--listen", "%s:%d" % address, "--until-eof", *words]
        self.process = subprocess.Popen(command, stdin=subprocess.PIPE, stdout=subprocess.PIPE, stderr=subprocess.DEVNULL)
        self.listens = self.process.stdout.readline() == b"listening\n"


def ask(stream, path):
    stream.sendall(f"GET /_groupcache/{path} HTTP/1.1\r\nHost: h\r\n\r\n".encode())


def is_refused(address):
    """Whether a client is refused, within some seconds. One that is not accepted yet when the listener goes is reset."""
    for _ in range(100):
        try:
            socket.create_connection(address, 10).close()
        except ConnectionRefusedError:
            return True
        except ConnectionResetError:
            pass
        time.sleep(0.05)
    return False


def serves_while_another_ends():
    service = Service()
    address = ("127.0.0.1", free_port())
    with Server(address, "g=" + service.url) as old, socket.create_connection(address, 10) as waiting:
        ask(waiting, "g/k")
        asked = service.asked.wait(10)
        old.process.stdin.close()
        refused = is_refused(address)
        with Server(address, "--demo") as new, socket.create_connection(address, 10) as client:
            ask(client, "echo/k")
            answered = client.recv(1000).endswith(b"\x0a\x01k")
        service.may.set()
        served = waiting.recv(1000).endswith(b"\x0a\x04slow")
        return asked and refused and new.listens and answered and served and old.process.wait(30) == 0


def closes_all_at_its_end():
    """One of three clients leaves, and the place of its connection stays free."""
    address = ("127.0.0.1", free_port())
    with Server(address, "--demo", "--loops", "1") as server:
        clients = [socket.create_connection(address, 10) for _ in range(3)]
        for client in clients:
            ask(client, "echo/k")
            client.recv(1000)
        clients[0].close()
        # Its end is read before the stop, as a loop reads what comes in order.
        ask(clients[1], "echo/k")
        clients[1].recv(1000)
        server.process.stdin.close()
        closed = [client.recv(1000) == b"" for client in clients[1:]]
        return all(closed) and server.process.wait(30) == 0


def begin_to_connect(address):
    stream = socket.socket()
    stream.setblocking(False)
    stream.connect_ex(address)
    return stream


def are_connected(streams):
    """Whether all of them are connected, within some seconds."""
    for _ in range(100):
        if all(select.select([], [stream], [], 0)[1] for stream in streams):
            return True
        time.sleep(0.05)
    return False


def connects_all_that_wait():
    address = ("127.0.0.1", free_port())
    with Server(address, "--demo", "--connections", "1") as server, socket.create_connection(address, 10) as held:
        ask(held, "echo/k")
        held.recv(1000)
        begun = [begin_to_connect(address) for _ in range(CLIENTS)]
        connected = are_connected(begun)
        for stream in begun:
            stream.close()
        return server.listens and connected


run_rows([serves_while_another_ends, closes_all_at_its_end, connects_all_that_wait])
