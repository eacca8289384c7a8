#!/usr/bin/env python3
"""A service at a port of this machine at which nobody listens, so that a connection to it may be joined to itself.

    ./build
    python3 bench/itself.py [crates/peer_front/out/peer_front]

TCP does that where the system picks for a connection the very port that it is to. Here it always does: the program runs in a
network of its own, in which there is no other port to pick; that takes root. The service is told as one that cannot be
reached, and can have its port right behind that. Its last line is `checks N failures 0`; where one fails, so does the program.
Without the right to all that it says so, and checks nothing.
"""
import fcntl
import os
import socket
import struct
import subprocess
import sys

from common import Started, may_have_its_own

PROGRAM = os.path.abspath(sys.argv[1] if len(sys.argv) > 1 else "crates/peer_front/out/peer_front")
SERVED, PORT = 8001, 50050
# netdevice(7)
SIOCSIFFLAGS, IFF_UP = 0x8914, 1


def begin_network():
    """Has a loopback device, and one port for all connections."""
    with socket.socket(socket.AF_INET, socket.SOCK_DGRAM) as any_socket:
        fcntl.ioctl(any_socket, SIOCSIFFLAGS, struct.pack("16sh", b"lo", IFF_UP))
    with open("/proc/sys/net/ipv4/ip_local_port_range", "w", encoding="ascii") as ports:
        ports.write(f"{PORT} {PORT}")


class Front(Started):
    """The program, which listens."""

    def __init__(self):
        words = [PROGRAM, "--listen", f"127.0.0.1:{SERVED}", f"values=http://127.0.0.1:{PORT}/"]
        self.process = subprocess.Popen(words, stdin=subprocess.DEVNULL, stdout=subprocess.PIPE, stderr=subprocess.DEVNULL)
        self.process.stdout.readline()


def ask():
    """The reply for a key, to a client that has a port of its own."""
    with socket.create_connection(("127.0.0.1", SERVED), 30, ("127.0.0.1", PORT - 1)) as stream:
        stream.sendall(b"GET /_groupcache/values/a HTTP/1.1\r\nHost: h\r\nConnection: close\r\n\r\n")
        return b"".join(iter(lambda: stream.recv(10000), b""))


def can_listen():
    try:
        socket.create_server(("127.0.0.1", PORT)).close()
        return True
    except OSError:
        return False


def main():
    if not may_have_its_own("net"):
        print("itself.py: no checks, since it takes the right to have a network of its own")
        return
    if "--inside" not in sys.argv:
        sys.exit(subprocess.run(["unshare", "--net", sys.executable, __file__, PROGRAM, "--inside"], check=False).returncode)
    try:
        begin_network()
    except OSError as error:
        print("itself.py: no checks, since a network of its own cannot be set up:", error)
        return
    with Front():
        reply = ask()
        checks = [("it cannot be reached", reply.endswith(b"origin cannot be reached\n")), ("its port is free", can_listen())]
    for what, right in checks:
        if not right:
            print(f"not so: {what}, {reply[-40:]}")
    failures = sum(not right for _, right in checks)
    print(f"checks {len(checks)} failures {failures}")
    sys.exit(1 if failures else 0)


main()
