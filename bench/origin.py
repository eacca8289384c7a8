#!/usr/bin/env python3
"""Values a second from an HTTP service: the built server beside groupcache in Go with a getter of net/http, both asked by the same clients.

    ./build
    apt-get install gcc golang-go golang-github-golang-groupcache-dev
    python3 bench/origin.py [--rounds 5] [--seconds 2] [--connections 256] [--flags "--fetchers 2"] [SERVER]

The service is a program in C that parses next to nothing. It answers at once, or 5 or 50 ms later. Each key is asked once. A
connection has one request under way, or four, which groupcache takes one after the other. Every reply is checked byte by byte.
The server runs twice, with its defaults and with the flags given. The servers take turns in each round, and so does the service
without a server, so that only ratios of one round count. Each cell has the median over the rounds of the rate, and of its ratio
to Go's with the least and the largest, and the medians of the ratios of the server's processor time for a value and of the
latency of the slowest in a hundred. Below the table stand the rows that the service may bound: alone it is less than 1.5 times
as quick there as the quickest server, for want of a processor and not because it waits. The last row asks
for one key. It wants `ulimit -n` of 8,192.
"""
import os
import signal
import statistics
import sys

from common import given_words
import net

OURS = "ours"
MANY = 1000
DEPTH = 4


def built_go(name):
    return net.built(name, ["go", "build", "-o", "{out}/" + name, "."], name, GO111MODULE="off", GOPATH="/usr/share/gocode")


def built_service():
    return net.built("origin", ["gcc", "-O2", "-o", "{out}/origin", "origin.c"], ".")


def cells(connections):
    """How many milliseconds a value takes, which keys are asked for, by how many clients, and how many requests each has under way."""
    each = [(wait, "unique", connections, depth) for depth in (1, DEPTH) for wait in (0, 5, 50)]
    return [*each, (50, "unique", MANY, 1), (50, "hot:k", connections, 1)]


def commands(server, flags, origin):
    """The servers in front of the service."""
    word = f"echo=http://{origin}/"
    ours = [server, "--listen", "{addr}", word]
    return {net.REFERENCE: [built_go("go_cache"), "-addr", "{addr}", word], OURS: ours, f"{OURS} {flags}": [*ours, *flags.split()]}


def rounds_of(load, servers, cell, given):
    """What each server did, round by round. A wrong reply ends it."""
    wait, key, connections, depth = cell
    results = {name: [] for name in servers}
    for _ in range(given.rounds):
        for name, (address, process) in servers.items():
            kind = OURS if name.startswith(OURS) else name
            got = net.run(load, kind, address, process, ("echo", key, connections, depth), given.seconds)
            if got is None:
                sys.exit(f"origin.py: {name} gave a wrong reply or none, {wait} ms, {key}, {connections} clients")
            results[name].append(got)
    return results


def measured(load, server, cell, given):
    """What each server did in front of a service of its own."""
    servers = {}
    origin, service = net.started([built_service(), "{addr}", str(cell[0])])
    try:
        for name, command in commands(server, given.flags, origin).items():
            servers[name] = net.started(command)
        if cell[1] == "unique":
            servers["service"] = origin, service
        return rounds_of(load, servers, cell, given)
    finally:
        for _, process in [*servers.values(), (origin, service)]:
            process.send_signal(signal.SIGKILL)


def rate(results, name):
    return statistics.median(got[0] for got in results[name])


def shown(results, name):
    rates, cpu, slowest = (net.ratios(results[name], results[net.REFERENCE], at) for at in (0, 4, 2))
    spread = f"{statistics.median(rates):.2f} ({min(rates):.2f}-{max(rates):.2f})"
    return f"{rate(results, name):,.0f}, {spread} cpu {statistics.median(cpu):.2f} p99 {statistics.median(slowest):.2f}"


def bounded_by_service(results, cell):
    """Whether the service, and not that each client waits for it, may keep the quickest server from being quicker."""
    wait, _, connections, depth = cell
    if "service" not in results:
        return False
    alone = rate(results, "service")
    quickest = max(rate(results, name) for name in results if name != "service")
    waits_only = wait and alone > 0.75 * connections * depth * 1000 / wait
    return alone < 1.5 * quickest and not waits_only


def main():
    own = "crates/peer_front/out/peer_front"
    given = given_words("server", "?", own, rounds=5, seconds=2.0, connections=256, flags="--fetchers 2")
    server = net.program(given.server)
    load, _ = net.peers()
    print("load average before: %.2f %.2f %.2f" % os.getloadavg())
    print(f"| service | keys | clients | under way | go: values/s | ours: values/s, / go | ours `{given.flags}`: values/s, / go | service alone: values/s |")
    print("|---" * 8 + "|")
    bounded = []
    for cell in cells(given.connections):
        wait, key, connections, depth = cell
        results = measured(load, server, cell, given)
        ours = " | ".join(shown(results, name) for name in results if name.startswith(OURS))
        alone = f"{rate(results, 'service'):,.0f}" if "service" in results else "-"
        keys = "one" if key == "hot:k" else "each once"
        print(f"| {wait} ms | {keys} | {connections} | {depth} | {rate(results, net.REFERENCE):,.0f} | {ours} | {alone} |", flush=True)
        if bounded_by_service(results, cell):
            bounded.append(f"{wait} ms, {connections} clients, {depth} under way")
    print("rows that the service may bound:", "; ".join(bounded) or "none")
    print("load average after: %.2f %.2f %.2f" % os.getloadavg())


if __name__ == "__main__":
    main()
