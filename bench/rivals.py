#!/usr/bin/env python3
"""Values a second of what else could stand before a service: the built server beside groupcache in Go, nginx and varnish.

    ./build
    apt-get install gcc wrk nginx-light varnish golang-go golang-github-golang-groupcache-dev
    python3 bench/rivals.py [--rounds 3] [--seconds 2] [SERVER]

The service is a program in C that parses next to nothing, and answers at once, or after 5 ms. nginx has its cache in memory
(/dev/shm) with proxy_cache_lock, varnish 256 MiB, and the two others 64 MiB. The clients are those of wrk: 64 and 512, for one hot
key and for keys that are each asked for once. The servers take turns in each round, so that only ratios of one round count. A cell
is the median over the rounds of the rate, of its ratio to Go's with the least and the largest, and of the ratios of the processor
time for a value and of the latency of the slowest in a hundred. What gave an error is told after the row. It wants `ulimit -n` of
8,192. A program that is not there is left out.
"""
import glob
import os
import re
import shutil
import signal
import statistics
import subprocess
import tempfile
import time

from common import given_words
import net
from origin import built_go, built_service

GO, OURS = net.REFERENCE, "ours"
CELLS = [(wait, key, clients) for wait in (0, 5) for key in ("hot", "unique") for clients in (64, 512)]
FOLDER = os.path.join(net.HERE, "net", "rivals")
UNITS = {"us": 1, "ms": 1000, "s": 1000000}


def filled(name, folder, **words):
    """A file of this folder with its words in capitals set, by its path."""
    with open(os.path.join(FOLDER, name), encoding="utf-8") as text:
        content = text.read()
    for word, value in words.items():
        content = content.replace(word, value)
    path = os.path.join(folder, name)
    with open(path, "w", encoding="utf-8") as file:
        file.write(content)
    return path


def nginx(folder, service, address, group="echo", size="1g"):
    """nginx before a service, with so much for its cache, whose clients ask for keys of this group."""
    for name in ("cache", "temporary"):
        os.makedirs(os.path.join(folder, name))
    os.chmod(folder, 0o777)
    os.chmod(os.path.join(folder, "temporary"), 0o777)
    config = filled("nginx.conf", folder, FOLDER=folder, SERVICE=service, LISTEN=address, GROUP=group, SIZE=size)
    return ["nginx", "-c", config, "-e", "/dev/null"]


def varnish(folder, service, address):
    host, port = service.split(":")
    words = ["-f", filled("default.vcl", folder, HOST=host, PORT=port), "-s", "malloc,256m"]
    words += ["-p", "thread_pool_min=300", "-p", "thread_pool_max=1000"]
    return ["varnishd", "-F", "-j", "none", "-n", os.path.join(folder, "varnish"), "-a", address, *words]


def commands(server, service, folder):
    """The servers, each with its address."""
    addresses = {name: f"127.0.0.1:{net.free_port()}" for name in (GO, OURS, "nginx", "varnish")}
    group = f"echo=http://{service}/"
    found = {GO: [built_go("go_cache"), "-addr", addresses[GO], group], OURS: [server, "--listen", addresses[OURS], group]}
    if shutil.which("nginx"):
        found["nginx"] = nginx(folder, service, addresses["nginx"])
    if shutil.which("varnishd"):
        found["varnish"] = varnish(folder, service, addresses["varnish"])
    return {name: (addresses[name], command) for name, command in found.items()}


def family(pid):
    """A process and those that it started."""
    found = [pid]
    for path in sorted(glob.glob("/proc/[0-9]*/stat"), key=lambda path: int(path.split("/")[2])):
        try:
            with open(path, encoding="utf-8") as stat:
                parent = int(stat.read().rsplit(")", 1)[1].split()[1])
        except OSError:
            continue
        if parent in found:
            found.append(int(path.split("/")[2]))
    return found


def processor_time(pid):
    """The processor time of a process and those that it started, in seconds."""
    ticks = 0
    for one in family(pid):
        try:
            with open(f"/proc/{one}/stat", encoding="utf-8") as stat:
                ticks += sum(int(word) for word in stat.read().rsplit(")", 1)[1].split()[11:13])
        except OSError:
            continue
    return ticks / os.sysconf("SC_CLK_TCK")


def run(address, key, clients, seed, seconds):
    """One run of wrk: the rate, the requests, the latency of the slowest in a hundred in microseconds, and what failed."""
    words = ["wrk", "-t2", f"-c{clients}", f"-d{seconds:.0f}s", "--latency", "--timeout", "5s"]
    hot = [f"http://{address}/_groupcache/echo/hot"]
    words += hot if key == "hot" else ["-s", os.path.join(FOLDER, "unique.lua"), f"http://{address}/", "--", seed]
    text = subprocess.run(words, capture_output=True, text=True, check=True).stdout
    slowest, unit = re.search(r"99%\s+([\d.]+)(us|ms|s)", text).groups()
    failed = re.findall(r"Non-2xx or 3xx responses: \d+|Socket errors: .*", text)
    rate, requests = re.search(r"Requests/sec:\s+([\d.]+)", text)[1], re.search(r"(\d+) requests in", text)[1]
    return float(rate), int(requests), float(slowest) * UNITS[unit], failed


def measured(servers, cell, given):
    """What each server did, round by round: rate, processor time for a value, latency, what failed."""
    _, key, clients = cell
    results = {name: [] for name in servers}
    for number in range(given.rounds):
        for name, (address, process) in servers.items():
            before = processor_time(process.pid)
            rate, requests, slowest, failed = run(address, key, clients, f"{number}{name}{clients}", given.seconds)
            spent = processor_time(process.pid) - before
            results[name].append((rate, spent / max(requests, 1), slowest, failed))
    return results


def shown(results, name):
    rates, spent, slowest = (net.ratios(results[name], results[GO], at) for at in (0, 1, 2))
    rate = statistics.median(got[0] for got in results[name])
    spread = f"{statistics.median(rates):.2f} ({min(rates):.2f}-{max(rates):.2f})"
    return f"{rate:,.0f}, {spread} cpu {statistics.median(spent):.2f} p99 {statistics.median(slowest):.2f}"


def show(cell, results):
    wait, key, clients = cell
    keys = "one" if key == "hot" else "each once"
    print(f"| {wait} ms | {keys} | {clients} | " + " | ".join(shown(results, name) for name in results) + " |", flush=True)
    for name, rounds in results.items():
        for *_, failed in rounds:
            if failed:
                print(f"{name}: {', '.join(failed)}")


def start(command):
    return subprocess.Popen(command, stdin=subprocess.DEVNULL, stdout=subprocess.DEVNULL, stderr=subprocess.DEVNULL)


def end(process):
    """Ends a server, which ends those that it started."""
    process.send_signal(signal.SIGTERM)
    try:
        process.wait(5)
    except subprocess.TimeoutExpired:
        process.kill()
        process.wait()


def rows(server, wait, given):
    """The rows in front of a service that takes so long."""
    folder = tempfile.mkdtemp(prefix="rivals-", dir="/dev/shm")
    service, process = net.started([built_service(), "{addr}", str(wait)])
    running = [process]
    try:
        servers = {}
        for name, (address, command) in commands(server, service, folder).items():
            running.append(start(command))
            servers[name] = address, running[-1]
        time.sleep(3)
        for cell in CELLS:
            if cell[0] == wait:
                show(cell, measured(servers, cell, given))
    finally:
        for one in running:
            end(one)
        shutil.rmtree(folder, ignore_errors=True)


def main():
    given = given_words("server", "?", "crates/peer_front/out/peer_front", rounds=3, seconds=2.0)
    server = net.program(given.server)
    os.makedirs(net.OUT, exist_ok=True)
    print("load average before: %.2f %.2f %.2f" % os.getloadavg())
    names = [GO, OURS, *(name for name, program in (("nginx", "nginx"), ("varnish", "varnishd")) if shutil.which(program))]
    print("| service | keys | clients | " + " | ".join(f"{name}: values/s, / go" for name in names) + " |")
    print("|---" * (3 + len(names)) + "|")
    for wait in (0, 5):
        rows(server, wait, given)
    print("load average after: %.2f %.2f %.2f" % os.getloadavg())


if __name__ == "__main__":
    main()
