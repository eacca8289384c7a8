#!/usr/bin/env python3
"""Services that hang, are gone or come back, and two addresses of one name, in front of which the built peer_front serves.

    ./build
    python3 bench/rests.py [crates/peer_front/out/peer_front]

The services are processes of their own, which are really killed, stopped (SIGSTOP), full, or answer 503. An address rests for a
minute in all rows, so that what comes back sooner does by the one value a second that tries. The rows with a name run the program in
a mount namespace, in which /etc/hosts is a file of this script; that takes root, and without it they are left out. A row that asks
how long something takes counts those that took longer than a second: a few may, on a machine that is busy. The last line is
`rows N failures 0`; if one fails, so does the program.
"""
import http.client
import os
import signal
import socket
import subprocess
import sys
import tempfile
import threading
import time
from concurrent.futures import ThreadPoolExecutor

from common import Listening, Started, free_port, may_have_its_own, run_rows

# A service: it answers each key by its text, or with this status, and tells how many connections it had where its key is `count`.
SERVICE = """
import http.server, sys
class Counted(http.server.ThreadingHTTPServer):
    connections = 0
    request_queue_size = 1024
    daemon_threads = True
    def get_request(self):
        self.connections += 1
        return super().get_request()
class Answers(http.server.BaseHTTPRequestHandler):
    protocol_version = "HTTP/1.1"
    def do_GET(self):
        text = str(self.server.connections).encode() if self.path == "/count" else sys.argv[4].encode()
        self.send_response(int(sys.argv[3]))
        self.send_header("Content-Length", str(len(text)))
        self.end_headers()
        self.wfile.write(text)
    def log_message(self, *_):
        pass
Counted((sys.argv[1], int(sys.argv[2])), Answers).serve_forever()
"""
PROGRAM = os.path.abspath(sys.argv[1] if len(sys.argv) > 1 else "crates/peer_front/out/peer_front")
NAME = "service.test"
UNREACHED, LATE, REFUSED = b"origin cannot be reached\n", b"origin timed out\n", b"origin answered 503\n"
# How many seconds what comes back by itself may take: far less than an address rests, and more than a busy machine holds it up.
PATIENCE = 20


class Service(Started):
    """A service at an address, with this text as each value."""

    def __init__(self, address, port, text="here", status=200):
        self.address, self.port = address, port
        words = [sys.executable, "-c", SERVICE, address, str(port), str(status), text]
        self.process = subprocess.Popen(words, stderr=subprocess.DEVNULL)
        until = time.monotonic() + PATIENCE
        while time.monotonic() < until:
            try:
                socket.create_connection((address, port), 1).close()
                return
            except OSError:
                time.sleep(0.05)
        raise OSError(f"no service at {address}")

    def signal(self, number):
        self.process.send_signal(number)

    def __exit__(self, *some):
        self.signal(signal.SIGCONT)
        super().__exit__(*some)

    def connections(self):
        """How many connections it had, without those of this script, of which each look at the count is one and the first another."""
        asked = http.client.HTTPConnection(self.address, self.port, timeout=30)
        asked.request("GET", "/count")
        count = int(asked.getresponse().read())
        asked.close()
        return count


class Front:
    """What is asked of a server: keys that nobody asked for yet."""

    def __init__(self, address):
        self.address, self.asked, self.lock = address, 0, threading.Lock()

    def ask(self, group="g"):
        """The status and the body of a new key, and how many seconds it took."""
        with self.lock:
            self.asked += 1
            key = self.asked
        begun = time.monotonic()
        asked = http.client.HTTPConnection(*self.address, timeout=60)
        asked.request("GET", f"/_groupcache/{group}/{key}")
        reply = asked.getresponse()
        text = reply.read()
        asked.close()
        return reply.status, text, time.monotonic() - begun

    def ask_together(self, count, group="g"):
        with ThreadPoolExecutor(count) as threads:
            return list(threads.map(lambda _: self.ask(group), range(count)))

    def seconds_until(self, wanted):
        """How long it takes until a new key has this value, or None if it takes too long."""
        begun = time.monotonic()
        while time.monotonic() < begun + PATIENCE:
            if self.ask()[1].endswith(wanted):
                return time.monotonic() - begun
            time.sleep(0.05)
        return None


class Named(Started):
    """The program, for which a name has the addresses that this script says."""

    def __init__(self, hosts, port, *words):
        self.address = ("127.0.0.1", free_port())
        script = f"mount --bind {hosts} /etc/hosts && exec {PROGRAM} --listen 127.0.0.1:{self.address[1]} {' '.join(words)}"
        script += f" g=http://{NAME}:{port}/"
        self.said = tempfile.TemporaryFile()
        self.process = subprocess.Popen(["unshare", "--mount", "sh", "-c", script], stdout=subprocess.PIPE, stderr=self.said)
        if not self.process.stdout.readline():
            raise OSError("the program does not serve")

    def says(self, what):
        """Whether it comes to say this on standard error."""
        until = time.monotonic() + PATIENCE
        while time.monotonic() < until:
            if what in os.pread(self.said.fileno(), 100000, 0).decode():
                return True
            time.sleep(0.1)
        return False


class Hosts:
    """A file in the place of /etc/hosts."""

    def __init__(self, *addresses):
        self.file = tempfile.NamedTemporaryFile("w")  # pylint: disable=consider-using-with
        self.name = self.file.name
        self.stand_for(*addresses)

    def stand_for(self, *addresses):
        self.file.seek(0)
        self.file.truncate()
        self.file.write("127.0.0.1 localhost\n" + "".join(f"{address} {NAME}\n" for address in addresses))
        self.file.flush()


def slow(replies):
    """How many replies took longer than a second."""
    return sum(seconds > 1 for _, _, seconds in replies)


def served(*words):
    """The program, with an address of its own."""
    return Listening(PROGRAM, "--rest", "60s", *words)


def a_service_that_hangs_costs_its_clients_nothing_after_the_first():
    with tempfile.NamedTemporaryFile("w") as table, Service("127.0.0.2", port := free_port()) as service:
        table.write("".join(f"t\t{key}\tvalue\n" for key in range(1, 2000)))
        table.flush()
        with served("--timeout", "2", "--table", table.name, f"g=http://127.0.0.2:{port}/") as server:
            front = Front(server.address)
            is_well = front.ask()[1] == b"here" or front.ask()[1].endswith(b"here")
            service.signal(signal.SIGSTOP)
            first = front.ask_together(8)
            then = front.ask_together(100)
            beside = front.ask_together(100, "t")
            service.signal(signal.SIGCONT)
            back = front.seconds_until(b"here")
    late = [text for _, text, _ in first if text in (LATE, UNREACHED)]
    errors = [text for _, text, _ in then if text in (LATE, UNREACHED)]
    print(f"of 100 keys of a service that hangs {slow(then)} took longer than a second; it was back after {back} s")
    right = is_well and len(late) == 8 and len(errors) == 100 and errors.count(UNREACHED) >= 90
    return right and slow(then) <= 5 and all(text.endswith(b"value") for _, text, _ in beside) and back is not None


def a_service_that_is_gone_comes_back_by_itself():
    with Service("127.0.0.2", port := free_port()) as service, served(f"g=http://127.0.0.2:{port}/") as server:
        front = Front(server.address)
        is_well = front.ask()[1].endswith(b"here")
        service.process.kill()
        service.process.wait()
        gone = front.ask_together(50)
        with Service("127.0.0.2", port, "again"):
            back = front.seconds_until(b"again")
    print(f"a service that was gone was back after {back} s")
    return is_well and all(status == 500 for status, _, _ in gone) and slow(gone) <= 2 and back is not None


def a_service_that_refuses_is_asked_for_each_key():
    with Service("127.0.0.2", port := free_port(), "busy", 503), served(f"g=http://127.0.0.2:{port}/") as server:
        return all(text == REFUSED for _, text, _ in Front(server.address).ask_together(50))


def two_addresses_have_half_of_the_connections_each():
    hosts = Hosts("127.0.0.2", "127.0.0.3")
    with Service("127.0.0.2", port := free_port()) as one, Service("127.0.0.3", port) as other:
        before = one.connections(), other.connections()
        with Named(hosts.name, port, "--connection-for-each") as server:
            front = Front(server.address)
            with ThreadPoolExecutor(8) as threads:
                replies = list(threads.map(lambda _: front.ask(), range(1000)))
        each = one.connections() - before[0] - 1, other.connections() - before[1] - 1
    print("of 1,000 connections the two addresses have", *each)
    return all(text.endswith(b"here") for _, text, _ in replies) and sum(each) == 1000 and 450 <= min(each)


def full(address, port):
    """A listener that is full: whoever connects to it hears nothing."""
    listener = socket.create_server((address, port), backlog=0)
    streams = [listener]
    for _ in range(4):
        stream = socket.socket()
        stream.setblocking(False)
        stream.connect_ex((address, port))
        streams.append(stream)
    return streams


def an_address_that_is_full_costs_nothing_after_the_first():
    hosts = Hosts("127.0.0.2", "127.0.0.3")
    streams = full("127.0.0.2", port := free_port())
    with Service("127.0.0.3", port), Named(hosts.name, port, "--connection-for-each", "--rest", "60s") as server:
        front = Front(server.address)
        first = [front.ask() for _ in range(2)]
        then = [front.ask() for _ in range(100)]
    for stream in streams:
        stream.close()
    print(f"with one of two addresses full {slow(first)} of the first 2 values took longer than a second, and {slow(then)} of 100 more")
    return all(text.endswith(b"here") for _, text, _ in first + then) and slow(first) == 1 and slow(then) <= 2


def a_kept_connection_to_an_address_that_is_gone_is_let_go():
    hosts = Hosts("127.0.0.2")
    with Service("127.0.0.2", port := free_port()), Service("127.0.0.3", port, "moved"), Named(hosts.name, port) as server:
        front = Front(server.address)
        is_kept = front.ask()[1].endswith(b"here")
        hosts.stand_for("127.0.0.3")
        has_changed = server.says("addresses changed")
        # A fetcher reads the addresses of a service once a second.
        time.sleep(1.5)
        return is_kept and has_changed and front.ask()[1].endswith(b"moved")


ROWS = [
    a_service_that_hangs_costs_its_clients_nothing_after_the_first,
    a_service_that_is_gone_comes_back_by_itself,
    a_service_that_refuses_is_asked_for_each_key,
]
WITH_A_NAME = [
    two_addresses_have_half_of_the_connections_each,
    an_address_that_is_full_costs_nothing_after_the_first,
    a_kept_connection_to_an_address_that_is_gone_is_let_go,
]

if may_have_its_own("mount"):
    ROWS += WITH_A_NAME
else:
    print("rests.py: no row with a name, since it takes the right to have mounts of its own")
run_rows(ROWS)
