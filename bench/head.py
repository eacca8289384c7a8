#!/usr/bin/env python3
"""Request heads a second of the built head_rate on standard input, beside a Rust program over the crate `httparse`.

    (cd crates/head_rate && rt run < stdin)                         # builds it
    apt-get install librust-httparse-dev                            # the source of httparse; rustc is needed too
    python3 bench/head.py [crates/head_rate/out/head_rate [HTTPARSE]]

HTTPARSE is the folder of httparse's source, with src/lib.rs in it; without it, Debian's is taken. The peer is
bench/httparse_rate.rs, and both it and httparse are built by `rustc -O`, httparse with SIMD found out as it runs, which is what
its build script sets. Both programs read files, in a buffer of 16 KiB. They run in turn, five times each, and have to print
the right count; each number is the median of five. httparse alone asks for less: head_rate also refuses bare line feeds, reads
what the fields say of host, length, coding and connection, and finds a head's end before it is parsed.
"""
import glob
import os
import shutil
import statistics
import subprocess
import sys
import tempfile
import time

OURS = sys.argv[1] if len(sys.argv) > 1 else "crates/head_rate/out/head_rate"
PEER = os.path.join(os.path.dirname(os.path.abspath(__file__)), "httparse_rate.rs")
REGISTRY = "/usr/share/cargo/registry"
ROUNDS = 5
SIZE = 128_000_000
LIMIT = 16384


def head(fields):
    return ("GET /_groupcache/echo/k HTTP/1.1\r\n" + "".join(f + "\r\n" for f in fields) + "\r\n").encode()


def full():
    """A head of 16,384 bytes with 63 fields, as even as can be."""
    names = ["Host"] + [f"X-Field-{i:02}" for i in range(1, 63)]
    free = LIMIT - len(head(name + ": " for name in names))
    values = ["v" * (free // 63 + (i < free % 63)) for i in range(63)]
    return head(f"{name}: {value}" for name, value in zip(names, values))


# name, one head
LOADS = [
    ("echo, 45 bytes", head(["Host: h"])),
    ("echo, Go's head", head(["Host: 10.0.0.2:8000", "User-Agent: Go-http-client/1.1", "Accept-Encoding: gzip"])),
    ("63 fields, 16 KiB", full()),
]


def source():
    """The folder of httparse's source."""
    if len(sys.argv) > 2:
        folders = [sys.argv[2]]
    else:
        folders = sorted(glob.glob(os.path.join(REGISTRY, "httparse-*")))
    if not folders or not os.path.exists(os.path.join(folders[-1], "src", "lib.rs")):
        sys.exit(f"head.py: no source of httparse in {folders[-1] if folders else REGISTRY}: install librust-httparse-dev, or give its folder")
    return folders[-1]


def build(folder):
    """Builds the peer, and gives its path."""
    library, program = os.path.join(folder, "libhttparse.rlib"), os.path.join(folder, "httparse_rate")
    lib = os.path.join(source(), "src", "lib.rs")
    crate = ["--crate-type", "rlib", "--crate-name", "httparse", "--cfg", 'feature="std"', "--cfg", "httparse_simd", "--cap-lints", "allow"]
    subprocess.run(["rustc", "--edition", "2018", "-O"] + crate + ["-o", library, lib], check=True)
    subprocess.run(["rustc", "--edition", "2021", "-O", "--extern", "httparse=" + library, "-o", program, PEER], check=True)
    return program


def timed(program, path, count):
    """The time of one run, which has to print this count."""
    with open(path, "rb") as stdin:
        begin = time.perf_counter()
        printed = subprocess.run([program], stdin=stdin, stdout=subprocess.PIPE, check=True).stdout
        taken = time.perf_counter() - begin
    if printed.decode().strip() != str(count):
        sys.exit(f"head.py: {program} prints {printed.decode().strip()} where {count} heads stand")
    return taken


def measure(peer, path, name, one):
    """The line of one load."""
    count = SIZE // len(one)
    with open(path, "wb") as f:
        f.write(one * count)
    for program in (OURS, peer):
        timed(program, path, count)
    rounds = [(timed(OURS, path, count), timed(peer, path, count)) for _ in range(ROUNDS)]
    ours, other = (statistics.median(side) for side in zip(*rounds))
    ratio = statistics.median(b / a for a, b in rounds)
    size = count * len(one) / 1e6
    return f"{name:18} {count / ours:12,.0f} heads/s {size / ours:8,.0f} MB/s   httparse {count / other:12,.0f} heads/s {size / other:8,.0f} MB/s   ratio {ratio:5.2f}"


def main():
    if not os.path.exists(OURS):
        sys.exit(f"head.py: no program {OURS}: run `rt run < stdin` in crates/head_rate first")
    if not shutil.which("rustc"):
        sys.exit("head.py: no rustc")
    with tempfile.TemporaryDirectory() as folder:
        peer = build(folder)
        for name, one in LOADS:
            print(measure(peer, os.path.join(folder, "heads"), name, one), flush=True)


main()
