#!/usr/bin/env python3
"""Requests a second over sockets: the built server beside groupcache in Go, hyper in Rust, and a C server that parses next to nothing.

    ./build
    apt-get install gcc golang-go golang-github-golang-groupcache-dev librust-hyper+full-dev librust-tokio+full-dev python3-matplotlib
    /usr/bin/python3 bench/net.py [--rounds 5] [--seconds 0.5] [--loads small|big|many|quick] [--hogs] [--draw docs/speed.svg] [--words "WORD .."] [SERVER]

Builds the peers and the load generator into bench/net/out, starts all servers, and runs each load against each server in turn,
so many rounds, interleaved: the machine's own speed swings, so only ratios of one round count. Every reply is checked byte by
byte; the generator reconnects where a server closes after its 10,000 replies. Each cell is the median over the rounds of the
rate as a ratio to Go's in the same round, with the least and the largest, and the ratios of the server's processor time for a
request and of the latency of the slowest in a hundred. `hyper` answers the group `echo` alone: it has no cache, no single flight
and no worker. With --hogs four busy loops run beside the servers. c is the number of connections, d how many requests each has in
flight. The last line is the processor time that our server takes while nobody asks.
"""
import argparse
import os
import shutil
import signal
import socket
import statistics
import subprocess
import sys
import time

HERE = os.path.dirname(os.path.abspath(__file__))
OUT = os.path.join(HERE, "net", "out")
GRID = [(c, d) for d in (1, 16, 64) for c in (1, 4, 16)]
SMALL = [("echo", key, c, d) for key in ("hot:k", "unique") for c, d in GRID]
BIG = [("fill", f"hot:{size}", c, d) for size in (65536, 1048576) for d in (1, 16) for c in (1, 4)]
QUICK = [("echo", key, c, d) for key in ("hot:k", "unique") for c, d in ((1, 1), (4, 1), (4, 16), (16, 64))]
MANY = [("echo", key, c, 1) for key in ("hot:k", "unique") for c in (100, 1000)]
LOADS = {"small": SMALL, "big": BIG, "many": MANY, "quick": QUICK}
REFERENCE = "go"

# How each of our programs serves the demonstration source.
WORDS = {"peer_front": ["--listen", "{addr}", "--demo"], "peer_serve": ["{addr}", "2", "16", "1000000"]}


def is_new(path, folder):
    """Whether a program is there, and no file of this folder is younger."""
    if not os.path.exists(path):
        return False
    with os.scandir(folder) as files:
        return all(file.stat().st_mtime <= os.path.getmtime(path) for file in files if file.is_file())


def built(path, command, folder, **more):
    """Builds a program, where it is not there yet or older than its sources, and gives its path."""
    path, folder = os.path.join(OUT, path), os.path.join(HERE, "net", folder)
    if not is_new(path, folder):
        subprocess.run([word.format(out=OUT) for word in command], cwd=folder, check=True, env={**os.environ, **more})
    return path


def peers():
    """The load generator, and the commands of the peers."""
    os.makedirs(OUT, exist_ok=True)
    load = built("load", ["gcc", "-O2", "-o", "{out}/load", "load.c", "-lpthread"], ".")
    ceiling = built("ceiling", ["gcc", "-O2", "-o", "{out}/ceiling", "ceiling.c", "-lpthread"], ".")
    go = built("gcserver", ["go", "build", "-o", "{out}/gcserver", "."], "go", GO111MODULE="off", GOPATH="/usr/share/gocode")
    found = {REFERENCE: [go, "-addr", "{addr}"], "ceiling": [ceiling, "{addr}", "4"]}
    registry = "/usr/share/cargo/registry"
    if shutil.which("cargo") and os.path.exists(registry):
        replace = ["--config", f'source.crates-io.replace-with="debian"', "--config", f'source.debian.directory="{registry}"']
        build = ["cargo", "build", "--quiet", "--release", "--offline", "--target-dir", "{out}/hyper", *replace]
        found["hyper"] = [built("hyper/release/hyper_peer", build, "hyper"), "{addr}"]
    return load, found


def program(path):
    """The whole path of the built server."""
    if not os.path.exists(path):
        sys.exit(f"{os.path.basename(sys.argv[0])}: no program {path}: run `rt run` in its crate first")
    return os.path.abspath(path)


def free_port():
    with socket.socket() as s:
        s.bind(("127.0.0.1", 0))
        return s.getsockname()[1]


def started(command):
    """A server that listens, and its address."""
    address = f"127.0.0.1:{free_port()}"
    process = subprocess.Popen([word.format(addr=address) for word in command], stdout=subprocess.DEVNULL, stderr=subprocess.DEVNULL)
    for _ in range(100):
        try:
            socket.create_connection(address.split(":"), 1).close()
            return address, process
        except OSError:
            time.sleep(0.05)
    sys.exit(f"net.py: {command[0]} does not listen")


def run(load, name, address, process, cell, seconds):
    """One run of a load: rate, three latencies in microseconds, processor time a request. None where a reply was wrong."""
    group, key, conns, depth = cell
    command = [load, "-a", address, "-c", str(conns), "-d", str(depth), "-T", str(min(conns, 2)), "-t", str(seconds), "-n", "1000000000"]
    command += ["-g", group, "-k", key, "-p", str(process.pid), "-C"]
    if name in ("ours", "ceiling"):
        command.append("-e")
    try:
        done = subprocess.run(command, capture_output=True, text=True, timeout=seconds + 15)
    except subprocess.TimeoutExpired:
        print(f"net.py: {name}: the load did not end", file=sys.stderr)
        return None
    print(done.stderr, end="", file=sys.stderr)
    line = done.stdout.strip()
    numbers = [float(x) for x in line.split(",")] if line else [0.0] * 10
    return numbers if numbers[0] and not numbers[9] else None


def measured(load, servers, cells, rounds, seconds):
    """What each server did with each load, a list over the rounds."""
    results = {cell: {name: [] for name in servers} for cell in cells}
    for _ in range(rounds):
        for cell in cells:
            for name, (address, process) in servers.items():
                if name == "hyper" and cell[0] != "echo":
                    results[cell][name].append(None)
                    continue
                results[cell][name].append(run(load, name, address, process, cell, seconds))
    return results


def ratios(ours, reference, at):
    """The ratios of one number, round by round."""
    return [a[at] / b[at] for a, b in zip(ours, reference) if a and b and b[at]]


def shown(results, name, cell):
    rates, cpu, slowest = (ratios(results[cell][name], results[cell][REFERENCE], at) for at in (0, 4, 2))
    if not rates:
        return "-"
    spread = f"{statistics.median(rates):.2f} ({min(rates):.2f}-{max(rates):.2f})"
    return f"{spread} cpu {statistics.median(cpu):.2f} p99 {statistics.median(slowest):.2f}"


def print_table(results, names):
    others = [name for name in names if name != REFERENCE]
    print("| load | c | d | go: req/s, p99 us | " + " | ".join(f"{name} / go" for name in others) + " |")
    print("|---" * (4 + len(others)) + "|")
    for cell in results:
        group, key, conns, depth = cell
        reference = [r for r in results[cell][REFERENCE] if r]
        base = f"{statistics.median(r[0] for r in reference):,.0f}, {statistics.median(r[2] for r in reference):,.0f}" if reference else "-"
        load = {"hot:k": "hot", "unique": "unique"}.get(key, "fill/" + key[4:])
        print(f"| {load} | {conns} | {depth} | {base} | " + " | ".join(shown(results, name, cell) for name in others) + " |")


def ticks(process):
    """The processor time of a process so far, in ticks."""
    with open(f"/proc/{process.pid}/stat", encoding="utf-8") as f:
        return sum(int(word) for word in f.read().rsplit(")", 1)[1].split()[11:13])


def idle(process, seconds=5):
    """The share of one processor that a process takes while nobody asks."""
    before = ticks(process)
    time.sleep(seconds)
    return (ticks(process) - before) / os.sysconf("SC_CLK_TCK") / seconds


def draw(results, names, path):
    """The picture of the rates of small replies, over Go's."""
    import matplotlib

    matplotlib.use("svg")
    import matplotlib.pyplot as plot

    figure, rows = plot.subplots(2, 1, figsize=(9, 6), sharex=True)
    hatches = {"ours": "", "hyper": "//", "ceiling": ".."}
    shades = {"ours": "#333333", "hyper": "#bbbbbb", "ceiling": "#eeeeee"}
    others = [name for name in ("ours", "hyper", "ceiling") if name in names]
    for axes, key, title in zip(rows, ("hot:k", "unique"), ("one hot key", "each key once")):
        cells = [cell for cell in results if cell[1] == key]
        for i, name in enumerate(others):
            heights = [statistics.median(ratios(results[cell][name], results[cell][REFERENCE], 0) or [0]) for cell in cells]
            places = [j + (i - 1) * 0.27 for j in range(len(cells))]
            axes.bar(places, heights, 0.26, label=name, hatch=hatches[name], color=shades[name], edgecolor="black")
        axes.axhline(1, color="black", linewidth=1, linestyle="--")
        axes.set_yscale("log")
        axes.set_yticks([0.5, 1, 2, 5, 10, 20, 40], ["0.5", "1", "2", "5", "10", "20", "40"])
        axes.minorticks_off()
        axes.set_title(title)
        axes.set_ylabel("rate over Go's")
        axes.set_xticks(range(len(cells)), [f"{c} conn.\n{d} in flight" for _, _, c, d in cells], fontsize=8)
    rows[0].legend(loc="upper left", ncol=3)
    figure.tight_layout()
    figure.savefig(path)


def main():
    parser = argparse.ArgumentParser()
    parser.add_argument("server", nargs="?", default="crates/peer_front/out/peer_front")
    parser.add_argument("--rounds", type=int, default=5)
    parser.add_argument("--seconds", type=float, default=0.5)
    parser.add_argument("--loads", choices=LOADS, default="small")
    parser.add_argument("--hogs", action="store_true")
    parser.add_argument("--draw")
    parser.add_argument("--words", default="")
    given = parser.parse_args()
    server = program(given.server)
    load, commands = peers()
    commands = {REFERENCE: commands.pop(REFERENCE), "ours": [server, *WORDS[os.path.basename(server)], *given.words.split()], **commands}
    servers, hogs = {}, []
    try:
        for name, command in commands.items():
            servers[name] = started(command)
        if given.hogs:
            hogs = [subprocess.Popen([sys.executable, "-c", "while True: pass"]) for _ in range(4)]
        results = measured(load, servers, LOADS[given.loads], given.rounds, given.seconds)
        print_table(results, list(servers))
        print(f"idle: {idle(servers['ours'][1]):.1%} of a processor")
        if given.draw:
            draw(results, list(servers), given.draw)
    finally:
        for process in [*hogs, *(process for _, process in servers.values())]:
            process.send_signal(signal.SIGKILL)


if __name__ == "__main__":
    main()
