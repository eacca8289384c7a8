#!/usr/bin/env python3
"""Clients that are silent, slow, greedy or rude, against the built peer_serve and peer_front. Each row stands beside its bound.

    (cd crates/peer_serve && rt run < stdin > /dev/null)    # builds them
    ./build
    python3 bench/rude.py [crates/peer_serve/out/peer_serve [crates/peer_front/out/peer_front]]

It starts the servers itself, on free ports of the loopback address, and ends them. It takes about three minutes. Each row says
`ok` or `WRONG`. Its last line is `rows N failures 0`; where a row fails, so does the program.
"""
import os
import resource
import shutil
import socket
import subprocess
import sys
import tempfile
import threading
import time

MIB = 1048576
NOBODY = 54321  # a user with no other processes, whose threads can be counted
BUSY, LATE = 16, 20
rows = []


class Seats:
    """peer_serve: threads that serve one connection at a time."""

    name = "peer_serve"
    program = sys.argv[1] if len(sys.argv) > 1 else "crates/peer_serve/out/peer_serve"
    tick = 0  # seconds until a limit that is met is seen
    greedy = BUSY * 66 + 16  # MiB: a lane of 64 values for each, one in each hand of it, and what the program has itself
    threads = 6  # two workers, four seats and the first are one more

    @staticmethod
    def words(address, workers, conns, rounds):
        return [address, str(workers), str(conns), str(rounds)]


class Loops:
    """peer_front: event loops."""

    name = "peer_front"
    program = sys.argv[2] if len(sys.argv) > 2 else "crates/peer_front/out/peer_front"
    tick = 1
    greedy = 256 + BUSY + 3 + 4 + 16  # MiB: what clients hold, a value more for each, caches, values in work, the program
    threads = 4  # two workers, two loops and the first are one more

    @staticmethod
    def words(address, workers, conns, _rounds):
        cache = ["--cache", str(MIB), "--memory", "256MiB"]
        return ["--listen", address, "--demo", "--workers", str(workers), "--connections", str(conns), "--until-eof", *cache]


def request(path, *fields):
    return ("GET /_groupcache/" + path + " HTTP/1.1\r\nHost: h\r\n" + "".join(f + "\r\n" for f in fields) + "\r\n").encode()


ASK = request("echo/k")
ASK_LAST = request("echo/k", "Connection: close")
FOUND = b"HTTP/1.1 200 OK\r\nContent-Type: application/x-protobuf\r\nContent-Length: 3\r\n\r\n\n\x01k"
FOUND_LAST = b"HTTP/1.1 200 OK\r\nContent-Type: application/x-protobuf\r\nContent-Length: 3\r\nConnection: close\r\n\r\n\n\x01k"


def free_port():
    with socket.socket() as probe:
        probe.bind(("127.0.0.1", 0))
        return probe.getsockname()[1]


class Server:
    """A server of a kind, under limits if need be. `limit` runs in its process before it starts."""

    def __init__(self, kind, workers, conns, rounds=1000, limit=None, program=None):
        self.port = free_port()
        words = [program or kind.program, *kind.words(f"127.0.0.1:{self.port}", workers, conns, rounds)]
        pipe = subprocess.PIPE
        self.process = subprocess.Popen(words, stdin=pipe, stdout=pipe, stderr=subprocess.DEVNULL, preexec_fn=limit)
        self.line = self.process.stdout.readline()

    def __enter__(self):
        return self

    def __exit__(self, *_):
        self.process.kill()
        self.process.communicate()

    def connect(self, timeout=30):
        return socket.create_connection(("127.0.0.1", self.port), timeout)

    def ask(self):
        """The seconds until a new client has its reply, or none where it has another end."""
        begin = time.monotonic()
        with self.connect() as client:
            client.sendall(ASK)
            if client.recv(4096) != FOUND:
                return None
        return time.monotonic() - begin

    def seconds(self):
        """Of processor time."""
        words = open(f"/proc/{self.process.pid}/stat").read().rsplit(")", 1)[1].split()
        return (int(words[11]) + int(words[12])) / os.sysconf("SC_CLK_TCK")

    def share(self, time_span):
        """Percent of one processor, over that time."""
        before = self.seconds()
        time.sleep(time_span)
        return 100 * (self.seconds() - before) / time_span

    def most_memory(self):
        """MiB that the process held at most."""
        for line in open(f"/proc/{self.process.pid}/status"):
            if line.startswith("VmHWM"):
                return int(line.split()[1]) / 1024


def row(name, value, unit, bound, ok):
    rows.append(ok)
    shown = "none" if value is None else f"{value:.3f}" if isinstance(value, float) else str(value)
    print(f"{'ok   ' if ok else 'WRONG'} {name}: {shown}{unit} (bound: {bound})", flush=True)


def within(name, seconds, most):
    row(name, seconds, " s", f"{most} s", seconds is not None and seconds <= most)


def is_gone(client, seconds):
    """Whether the server ends this connection in time."""
    client.settimeout(seconds)
    try:
        while client.recv(65536):
            pass
        return True
    except ConnectionError:
        return True
    except socket.timeout:
        return False


def silent(kind):
    with Server(kind, 2, 16) as server:
        clients = [server.connect() for _ in range(16)]
        within("a 17th client beside 16 silent ones", server.ask(), 2 + kind.tick)
        gone = sum(is_gone(client, 0.1) for client in clients)
        row("of these that lost their connection, with which there is room", gone, "", "1 to 16", gone >= 1)


def half_a_head(kind):
    with Server(kind, 2, 16) as server:
        clients = [server.connect() for _ in range(16)]
        for client in clients:
            client.sendall(ASK + b"GET /_gr")
        replies = sum(client.recv(4096) == FOUND for client in clients)
        within("a 17th client beside 16 with half a head", server.ask(), 2 + kind.tick)
        row("whole requests before them that were answered", replies, "", 16, replies == 16)


def drip(client, stop):
    try:
        while not stop.is_set():
            client.sendall(b"G")
            stop.wait(0.2)
    except OSError:
        pass


def dripping(kind):
    with Server(kind, 2, 16) as server:
        stop = threading.Event()
        clients = [server.connect() for _ in range(16)]
        threads = [threading.Thread(target=drip, args=(client, stop)) for client in clients]
        for thread in threads:
            thread.start()
        within("a 17th client beside 16 that send five bytes a second", server.ask(), 12 + kind.tick)
        stop.set()
        for thread in threads:
            thread.join()


def hoarding(kind):
    with Server(kind, 4, 16) as server:
        clients = [server.connect() for _ in range(16)]
        for i, client in enumerate(clients):
            client.sendall(b"".join(request(f"fill/{MIB - 100 * i - j}") for j in range(100)))
        time.sleep(0.5)
        within("a 17th client beside 16 that ask for MiB values and read nothing", server.ask(), 12 + kind.tick)
        memory = server.most_memory()
        row("memory held at most meanwhile", memory, " MiB", f"{kind.greedy} MiB", memory <= kind.greedy)


def resets(kind):
    with Server(kind, 2, 4, 100000) as server:
        begin = time.monotonic()
        for _ in range(1000):
            client = server.connect()
            client.setsockopt(socket.SOL_SOCKET, socket.SO_LINGER, b"\x01\x00\x00\x00\x00\x00\x00\x00")
            client.sendall(request(f"fill/{MIB}") * 3)
            client.recv(1)
            client.close()
        within("1,000 clients that reset in mid-reply", time.monotonic() - begin, 60)
        within("a client behind them", server.ask(), 2)


def length_of_rest(client):
    """How many bytes come, and whether the end comes without a reset."""
    count = 0
    try:
        while part := client.recv(65536):
            count += len(part)
        return count, True
    except ConnectionError:
        return count, False


def closing_replies(kind):
    tries = 40
    ends = []
    with Server(kind, 2, 4, 100000) as server:
        for _ in range(tries):
            with server.connect() as client:
                client.sendall(request(f"fill/{MIB}", "Connection: close") + b"x" * 100000)
                ends.append(length_of_rest(client))
    whole = sum(count > MIB for count, _ in ends)
    row("closing replies of a MiB with 100 KB sent behind, whole", whole, "", tries, whole == tries)
    fine = sum(without_reset for _, without_reset in ends)
    row("of these that ended without a reset", fine, "", tries, fine == tries)


def no_descriptors(kind):
    with Server(kind, 2, 16, 100000) as server:
        held = len(os.listdir(f"/proc/{server.process.pid}/fd"))
        resource.prlimit(server.process.pid, resource.RLIMIT_NOFILE, (held + 8, held + 8))
        clients = [server.connect() for _ in range(16)]
        time.sleep(0.3)
        share = server.share(4)
        row("processor while no descriptor is free for 4 s", share, "%", "25%", share <= 25)
        for client in clients:
            client.close()
        within("a client once some are free", server.ask(), 2)


def idle(kind):
    with Server(kind, 2, 16) as server:
        clients = [server.connect() for _ in range(15)]
        for client in clients:
            client.sendall(ASK)
            client.recv(4096)
        share = server.share(5)
        row("processor with 15 idle clients where 16 have room", share, "%", "0.2%", share <= 0.2)
        gone = sum(is_gone(client, 0.01) for client in clients)
        row("of these that lost their connection", gone, "", 0, gone == 0)
    with Server(kind, 2, 16) as server:
        clients = [server.connect() for _ in range(16)]
        time.sleep(2)
        share = server.share(5)
        row("processor with 16 silent clients where 16 have room", share, "%", "0.2%", share <= 0.2)


def many(kind):
    with Server(kind, 2, 4, 25) as server:
        begin = time.monotonic()
        answered = 0
        for _ in range(100):
            with server.connect() as client:
                client.sendall(ASK_LAST)
                text = b""
                while part := client.recv(4096):
                    text += part
                answered += text == FOUND_LAST
        within("100 connections that ask once", time.monotonic() - begin, 10)
        row("of these answered", answered, "", 100, answered == 100)
        try:
            line, _ = server.process.communicate(timeout=10)
        except subprocess.TimeoutExpired:
            line = b"no report"
        ok = line.startswith(b"asked 100 ") and server.process.returncode == 0
        row("the report", line.decode().strip(), "", "asked 100, status 0", ok)


def keep_busy(server, waits, stop):
    """Asks again as soon as the reply is there, and notes how long each took."""
    with server.connect() as client:
        while not stop.is_set():
            begin = time.monotonic()
            client.sendall(ASK)
            if client.recv(4096) != FOUND:
                return
            waits.append(time.monotonic() - begin)


def come_late(server, waits, answered):
    """Connects and asks a hundred times."""
    with server.connect() as client:
        for _ in range(100):
            begin = time.monotonic()
            client.sendall(ASK)
            answered.append(client.recv(4096) == FOUND)
            waits.append(time.monotonic() - begin)


def late(kind):
    if kind is Seats:
        return  # its 16 seats are those of the busy ones, and further clients wait
    with Server(kind, 2, 100) as server:
        busy, waits, answered, stop = [], [], [], threading.Event()
        old = [threading.Thread(target=keep_busy, args=(server, busy, stop)) for _ in range(BUSY)]
        for thread in old:
            thread.start()
        time.sleep(1)
        busy.clear()
        new = [threading.Thread(target=come_late, args=(server, waits, answered)) for _ in range(LATE)]
        for thread in new:
            thread.start()
        for thread in new:
            thread.join()
        stop.set()
        for thread in old:
            thread.join()
    count = answered.count(True)
    row(f"replies to {LATE} late clients beside {BUSY} busy ones, who ask a hundred times each", count, "", LATE * 100, count == LATE * 100)
    bound = 2 * max(busy, default=0) + 0.05
    within("the longest wait of the late ones, beside twice that of the busy ones and 50 ms", max(waits, default=None), bound)
    usual = 2 * sum(busy) / max(len(busy), 1) + 0.005
    within("the mean wait of the late ones, beside twice that of the busy ones and 5 ms", sum(waits) / max(len(waits), 1), usual)


def limit_to(count):
    """What gives a process so many threads, those of its user counted."""

    def limit():
        resource.setrlimit(resource.RLIMIT_NPROC, (count, count))
        os.setuid(NOBODY)

    return limit


def no_reader(kind, program):
    """Two workers and four seats are seven threads with the first; a reader needs one more, which a sleeper has."""
    sleeper = subprocess.Popen(["sleep", "600"], preexec_fn=lambda: os.setuid(NOBODY))
    with Server(kind, 2, 4, limit=limit_to(8), program=program) as server:
        with server.connect() as client:
            client.sendall(ASK)
            try:
                count = len(client.recv(4096))
            except ConnectionError:
                count = 0
            except TimeoutError:
                count = None
        row("bytes of a reply where no reader's thread can be had", count, "", 0, count == 0)
        sleeper.kill()
        sleeper.wait()
        within("a client once there are threads", server.ask(), 2)


def no_threads(kind):
    if os.getuid() != 0:
        print("      no row on threads: it takes root to count the threads of another user")
        return
    folder = tempfile.mkdtemp()
    os.chmod(folder, 0o755)
    program = shutil.copy(kind.program, folder)
    os.chmod(program, 0o755)
    with Server(kind, 2, 4, limit=limit_to(kind.threads), program=program) as server:
        try:
            status = server.process.wait(10)
        except subprocess.TimeoutExpired:
            status = None
        row("status where a thread cannot be started", status, "", 5, status == 5)
    if kind is Seats:
        no_reader(kind, program)
    shutil.rmtree(folder)


PARTS = (silent, half_a_head, many, late, closing_replies, resets, no_threads, no_descriptors, idle, dripping, hoarding)


def run(part, kind):
    """Runs a part. A client that waits in vain, or a server that is not there, is a row of its own."""
    try:
        part(kind)
    except OSError as error:
        row(f"{part.__name__} to its end", error, "", "no error", False)


def main():
    for kind in (Seats, Loops):
        print(kind.name, flush=True)
        for part in PARTS:
            run(part, kind)
    failures = rows.count(False)
    print(f"rows {len(rows)} failures {failures}")
    sys.exit(1 if failures else 0)


main()
