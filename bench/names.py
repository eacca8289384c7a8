#!/usr/bin/env python3
"""A service whose name gets another address while the built peer_front serves it.

    ./build
    python3 bench/names.py [crates/peer_front/out/peer_front]

The program runs in a mount namespace of its own, in which /etc/hosts is a file that this script writes; that takes root.
The name stands first for a service that answers `one`, then for one that answers `two`, then for none, and each key is
asked once. That its addresses changed is told on standard error, with these, and so is a look-up that failed. Two groups are at the name, which is looked up once for both. The server of names is this script: it knows no name, and
then answers no more, so that a look-up does not end; keys are answered meanwhile. In the end the name has two addresses, of which
the first answers nobody, and a value may take 2 seconds: the second one is asked within them. Its last line is
`checks N failures 0`; if one fails, so does the program. Without the right to all that it says so, and checks nothing.
"""
import http.client
import http.server
import os
import re
import socket
import subprocess
import sys
import tempfile
import threading
import time

from common import free_port, may_have_its_own

PROGRAM = os.path.abspath(sys.argv[1] if len(sys.argv) > 1 else "crates/peer_front/out/peer_front")
NAME = "service.test"
PORT, SERVED = free_port(), free_port()
PATIENCE = 20  # seconds for a name that has moved: it is looked up every 5


def service(address, text):
    class Answers(http.server.BaseHTTPRequestHandler):
        protocol_version = "HTTP/1.0"  # each value on a connection of its own

        def do_GET(self):
            self.send_response(200)
            self.send_header("Content-Length", str(len(text)))
            self.end_headers()
            self.wfile.write(text)

        def log_message(self, *_):
            pass

    server = http.server.ThreadingHTTPServer((address, PORT), Answers)
    threading.Thread(target=server.serve_forever, daemon=True).start()


def deaf(address):
    """A listener that is full: whoever connects to it hears nothing."""
    listener = socket.create_server((address, PORT), backlog=0)
    streams = [listener]
    for _ in range(4):
        stream = socket.socket()
        stream.setblocking(False)
        stream.connect_ex((address, PORT))
        streams.append(stream)
    return streams


class NameServer:
    """A server of names that knows none, and while it is silent answers nothing."""

    ADDRESS = "127.0.0.9"
    # The bits of a reply (RFC 1035, section 4.1.1): that it is one, and that there is no such name.
    NO_SUCH_NAME = b"\x81\x83"

    def __init__(self):
        self.socket = socket.socket(socket.AF_INET, socket.SOCK_DGRAM)
        self.socket.bind((self.ADDRESS, 53))
        self.silent, self.was_asked = False, threading.Event()
        threading.Thread(target=self.serve, daemon=True).start()

    def serve(self):
        while True:
            query, client = self.socket.recvfrom(1000)
            if self.silent:
                self.was_asked.set()
            else:
                self.socket.sendto(query[:2] + self.NO_SUCH_NAME + query[4:], client)

    def is_silent(self):
        """Answers nothing from now on. Whether a name was asked for meanwhile."""
        self.silent = True
        return self.was_asked.wait(PATIENCE)


class Front:
    """The program, before which /etc/hosts is a file of its own, and the server of names is that of this script."""

    def __init__(self, hosts, names, *words):
        script = f"mount --bind {hosts} /etc/hosts && mount --bind {names} /etc/resolv.conf && exec {PROGRAM} --listen 127.0.0.1:{SERVED} {' '.join(words)}"
        # One at an address beside them: the others are looked up all the same.
        script += f" here=http://127.0.0.2:{PORT}/ first=http://{NAME}:{PORT}/ second=http://{NAME}:{PORT}/"
        self.file = tempfile.TemporaryFile()
        self.process = subprocess.Popen(["unshare", "--mount", "sh", "-c", script], stdout=subprocess.PIPE, stderr=self.file, text=True)
        if self.process.stdout.readline() != "listening\n":
            sys.exit("names.py: the program does not serve")
        self.asked = 0

    def ask(self, group="first"):
        """The body of a key of the group that nobody asked for yet, or nothing if it does not come."""
        self.asked += 1
        connection = http.client.HTTPConnection("127.0.0.1", SERVED, timeout=15)
        connection.request("GET", f"/_groupcache/{group}/{self.asked}")
        try:
            return connection.getresponse().read()
        except OSError:
            return b""

    def tells_soon(self, line):
        """Whether it tells this on standard error before long, after a time."""
        until = time.monotonic() + PATIENCE
        while time.monotonic() < until:
            # A read of its own place: the program writes at the one that it shares with this script.
            if re.search(rf"^\S+Z {re.escape(line)}$", os.pread(self.file.fileno(), 100000, 0).decode(), re.MULTILINE):
                return True
            time.sleep(0.2)
        return False

    def gives_soon(self, text):
        """Whether a new key has this value before long."""
        until = time.monotonic() + PATIENCE
        while time.monotonic() < until:
            if self.ask().endswith(text):
                return True
            time.sleep(0.2)
        return False


def main():
    if not may_have_its_own("mount"):
        print("names.py: no checks, since it takes the right to have mounts of its own")
        return
    service("127.0.0.2", b"one")
    service("127.0.0.3", b"two")
    failures = 0
    name_server = NameServer()
    with tempfile.NamedTemporaryFile("w") as hosts, tempfile.NamedTemporaryFile("w") as names:
        names.write(f"nameserver {NameServer.ADDRESS}\noptions timeout:30 attempts:1\n")
        names.flush()

        def stands_for(*addresses):
            hosts.seek(0)
            hosts.truncate()
            hosts.write("127.0.0.1 localhost\n" + "".join(f"{address} {NAME}\n" for address in addresses))
            hosts.flush()

        stands_for("127.0.0.2")
        front = Front(hosts.name, names.name)
        try:
            checks = [("the first address", front.gives_soon(b"one"))]
            stands_for("127.0.0.3")
            checks.append(("the second address", front.gives_soon(b"two")))
            checks.append(("the first no more", not front.ask().endswith(b"one")))
            checks.append(("the second address for both groups", front.ask("second").endswith(b"two")))
            told = f"info addresses changed: service={NAME}:{PORT} addresses=127.0.0.3:{PORT}"
            checks.append(("that the addresses changed is told", front.tells_soon(told)))
            stands_for()
            told = f"warn look-up failed, the addresses stay: service={NAME}:{PORT} addresses=127.0.0.3:{PORT}"
            checks.append(("that nothing is found is told", front.tells_soon(told)))
            checks.append(("the last address, where nothing is found", front.ask().endswith(b"two")))
            checks.append(("a look-up that does not end", name_server.is_silent()))
            checks.append(("the last address while the name is looked up", front.ask().endswith(b"two")))
        finally:
            front.process.kill()
            front.process.wait()
        # The resolver puts the nearer one to 127.0.0.1 first.
        streams = deaf("127.0.0.1")
        stands_for("127.0.0.1", "127.0.0.3")
        front = Front(hosts.name, names.name, "--timeout", "2")
        try:
            checks.append(("the second of two addresses, where the first one answers nobody", front.ask().endswith(b"two")))
        finally:
            front.process.kill()
        for stream in streams:
            stream.close()
    for what, right in checks:
        failures += not right
        if not right:
            print(f"not so: {what}")
    print(f"checks {len(checks)} failures {failures}")
    sys.exit(1 if failures else 0)


main()
