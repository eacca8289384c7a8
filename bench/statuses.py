#!/usr/bin/env python3
"""Each status of the built peer_serve, with its line on standard error, and what it writes to standard output.

    (cd crates/peer_serve && rt run < stdin > /dev/null)    # builds it
    apt-get install gcc
    python3 bench/statuses.py [crates/peer_serve/out/peer_serve]

For some rows bench/statuses.c is loaded before the C library, so that memory or random bytes are refused, a read gives one byte
or fails, or a write takes few bytes. Its last line is `rows N failures 0`; where a row fails, so does the program.
"""
import os
import socket
import subprocess
import sys
import tempfile

PROGRAM = sys.argv[1] if len(sys.argv) > 1 else "crates/peer_serve/out/peer_serve"
USAGE = "usage: peer_serve [ADDRESS WORKERS CONNS ROUNDS [-]]\n"
HEAD = b"GET /_groupcache/echo/k HTTP/1.1\r\nHost: h\r\n\r\n"
HERE = "127.0.0.1:0"
LONG = b"GET /_groupcache/echo/" + b"k" * 100 + b" HTTP/1.1\r\nHost: h\r\n\r\n"
GROUPS = b"".join(b"g%d\tk\tv\n" % i for i in range(65))


def taken_address():
    listener = socket.socket()
    listener.bind(("127.0.0.1", 0))
    listener.listen()
    return listener, "127.0.0.1:%d" % listener.getsockname()[1]


def table_of(count):
    """A table of one line and so many bytes. Behind them one more read finds the end."""
    return b"g\tk\t" + b"v" * (count - 5) + b"\n"


LISTENER, TAKEN = taken_address()

# the words, standard input, standard output where it is not read, the status, the line
ROWS = [
    ([], HEAD, None, 0, ""),
    ([], b"", None, 0, ""),
    (["x"], b"", None, 1, USAGE),
    ([HERE, "1", "1"], b"", None, 1, USAGE),
    ([HERE, "17", "1", "1"], b"", None, 1, USAGE),
    ([HERE, "1", "0", "1"], b"", None, 1, USAGE),
    ([HERE, "1", "1", "+1"], b"", None, 1, USAGE),
    ([HERE, "1", "1", "1", "x"], b"", None, 1, USAGE),
    ([HERE, "1", "1", b"\xff"], b"", None, 1, USAGE),
    ([], HEAD[:-1], None, 2, "peer_serve: input ended inside a head\n"),
    (["x", "1", "1", "1"], b"", None, 2, "peer_serve: cannot bind\n"),
    ([TAKEN, "1", "1", "1"], b"", None, 2, "peer_serve: cannot bind\n"),
    ([TAKEN, "1", "1", "1", "-"], b"g\tk\tv\n", None, 2, "peer_serve: cannot bind\n"),
    ([TAKEN, "1", "1", "1", "-"], b"", None, 2, "peer_serve: bad table at line 1\n"),
    ([TAKEN, "1", "1", "1", "-"], b"g\tk\tv\ng\tk\tv\n", None, 2, "peer_serve: bad table at line 2\n"),
    ([TAKEN, "1", "1", "1", "-"], GROUPS, None, 2, "peer_serve: bad table at line 65\n"),
    ([TAKEN, "1", "1", "1", "-"], b"g\tk\t" + b"v" * 1048577 + b"\n", None, 2, "peer_serve: bad table at line 1\n"),
    ([TAKEN, "1", "1", "1", "-"], b"x" * 16777217, None, 2, "peer_serve: table too large\n"),
    ([TAKEN, "1", "1", "0", "-"], b"", None, 1, USAGE),
    ([TAKEN, "1", "1", "1", "-"], "/", None, 3, "peer_serve: read failed\n"),
    ([], "/", None, 3, "peer_serve: read failed\n"),
    ([], HEAD, "/dev/full", 4, "peer_serve: write failed\n"),
    ([HERE, "1", "1", "1"], b"", "/dev/full", 4, "peer_serve: write failed\n"),
]
# what the loaded library does, and as above
ODD_ROWS = [
    ("NO_MEMORY", [], HEAD, None, 5, "peer_serve: out of memory\n"),
    ("NO_MEMORY", [HERE, "1", "1", "1"], b"", None, 5, "peer_serve: out of memory\n"),
    ("ONE_BYTE", [], LONG * 9999, None, 6, "peer_serve: too many reads\n"),
    ("ONE_BYTE", [TAKEN, "1", "1", "1", "-"], table_of(999_999), None, 2, "peer_serve: cannot bind\n"),
    ("ONE_BYTE", [TAKEN, "1", "1", "1", "-"], table_of(1_000_000), None, 6, "peer_serve: too many reads\n"),
    ("NO_SEED", [HERE, "1", "1", "1"], b"", None, 3, "peer_serve: read failed\n"),
    ("NO_SEED", [], HEAD, None, 0, ""),
]




def found(length, before, value):
    """The reply with a value: its content's length, what stands before the value in the content, the value."""
    return b"HTTP/1.1 200 OK\r\nContent-Type: application/x-protobuf\r\nContent-Length: %d\r\n\r\n" % length + before + value


def fault(length, text):
    """The reply with a source's error."""
    return (b"HTTP/1.1 500 Internal Server Error\r\nContent-Type: text/plain; charset=utf-8\r\n"
            b"X-Content-Type-Options: nosniff\r\nContent-Length: %d\r\n\r\n" % length + text + b"\n")


def head(path):
    return b"GET /_groupcache/%s HTTP/1.1\r\nHost: h\r\n\r\n" % path


TOO_LONG = (b"HTTP/1.1 431 Request Header Fields Too Large\r\nContent-Type: text/plain; charset=utf-8\r\n"
            b"X-Content-Type-Options: nosniff\r\nContent-Length: 14\r\nConnection: close\r\n\r\nhead too long\n")
INSIDE = "peer_serve: input ended inside a head\n"

# standard input, what is written, the status, the line
REPLIES = [
    (b"", b"", 0, ""),
    (b"\r\n\r\n\r\n", b"", 0, ""),
    (b"\r", b"", 2, INSIDE),
    (b"\r\n" * 8191, b"", 0, ""),
    (b"\r\n" * 8192, TOO_LONG, 0, ""),
    (head(b"echo/"), found(2, b"\x0a\x00", b""), 0, ""),
    (head(b"fill/128"), found(131, b"\x0a\x80\x01", b"x" * 128), 0, ""),
    (head(b"fill/16384"), found(16388, b"\x0a\x80\x80\x01", b"x" * 16384), 0, ""),
    (head(b"fill/1048576"), found(1048580, b"\x0a\x80\x80\x40", b"x" * 1048576), 0, ""),
    (head(b"fill/1048577"), fault(15, b"value too long"), 0, ""),
    (head(b"fill/2000001"), fault(11, b"not a size"), 0, ""),
    (head(b"square/12"), found(5, b"\x0a\x03", b"144"), 0, ""),
    (head(b"square/007"), found(4, b"\x0a\x02", b"49"), 0, ""),
    (head(b"square/x"), fault(13, b"not a number"), 0, ""),
]
THREE = head(b"echo/a") + head(b"echo/b") + head(b"echo/c")
EACH = [found(3, b"\x0a\x01", key) for key in (b"a", b"b", b"c")]
ALL = b"".join(EACH)
assert len(THREE) == 135 and len(ALL) == 237 and len(TOO_LONG) == 175


def cut_rows():
    """Three requests, of 45 bytes each, that end or fail behind each byte, and a writer that fails behind each of the 237."""
    rows = [({}, *row) for row in REPLIES]
    rows += [({}, THREE[:n], b"".join(EACH[: n // 45]), *((2, INSIDE) if n % 45 else (0, ""))) for n in range(136)]
    rows += [({"NO_END": "1"}, THREE[:n], b"".join(EACH[: n // 45]), 3, "peer_serve: read failed\n") for n in range(136)]
    rows += [({"WRITTEN": str(n)}, THREE, ALL[:n], 4, "peer_serve: write failed\n") for n in range(237)]
    return rows + [({"WRITTEN": "237"}, THREE, ALL, 0, "")]


def run(words, given, shown, **environment):
    """Runs the program on bytes, or on a folder, which no one can read from."""
    source = {"input": given} if isinstance(given, bytes) else {"stdin": os.open(given, os.O_RDONLY)}
    out = open(shown, "wb") if shown else subprocess.DEVNULL
    ended = subprocess.run([PROGRAM, *words], stdout=out, stderr=subprocess.PIPE, timeout=60, env={**os.environ, **environment}, **source)
    return ended.returncode, ended.stderr.decode()


def written(given, **environment):
    """What the program writes for this input, its status and its line."""
    everything = {**os.environ, **environment}
    ended = subprocess.run([PROGRAM], input=given, capture_output=True, timeout=60, env=everything)
    return ended.stdout, ended.returncode, ended.stderr.decode()


def tell(ok, name, got):
    print(f"{'ok  ' if ok else 'WRONG'} {name}: {got}")
    return not ok


def told_wrong(library):
    """How many statuses or lines were wrong."""
    rows = [({}, *row) for row in ROWS] + [({"LD_PRELOAD": library, word: "1"}, *row) for word, *row in ODD_ROWS]
    failures = 0
    for environment, words, given, shown, status, line in rows:
        got = run(words, given, shown, **environment)
        failures += tell(got == (status, line), f"{' '.join(list(environment)[1:])} {words} {given[:20]!r} {shown or ''}", got)
    return failures


def written_wrong(library):
    """How many connections on standard input had other replies or another end."""
    failures = 0
    for environment, given, *wanted in cut_rows():
        loaded = {"LD_PRELOAD": library, **environment} if environment else {}
        bytes_out, *ended = got = written(given, **loaded)
        name = f"{environment or ''} {given[:40]!r}, {len(given)} bytes"
        failures += tell(list(got) == wanted, name, f"{len(bytes_out)} bytes {bytes_out[:20]!r} {ended}")
    return failures


def main():
    with tempfile.NamedTemporaryFile(suffix=".so") as library:
        source = os.path.join(os.path.dirname(os.path.abspath(__file__)), "statuses.c")
        subprocess.run(["gcc", "-shared", "-fPIC", "-O2", "-o", library.name, source], check=True)
        failures = told_wrong(library.name) + written_wrong(library.name)
    print(f"rows {len(ROWS) + len(ODD_ROWS) + len(cut_rows())} failures {failures}")
    sys.exit(1 if failures else 0)


main()
