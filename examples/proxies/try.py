#!/usr/bin/env python3
"""Tries the built peer_front as it is run: its page of counters, its lines, its end, and nginx, haproxy, h2load and ab.

    ./build
    python3 examples/proxies/try.py [crates/peer_front/out/peer_front]

It wants Debian's packages nginx, haproxy, prometheus (for promtool), nghttp2-client and apache2-utils. Its last line is
`checks N failures 0`; if a check fails, so does the program.
"""
import http.client
import os
import re
import shutil
import socket
import subprocess
import sys
import tempfile
import threading
import time

HERE = os.path.dirname(os.path.abspath(__file__))
PROGRAM = os.path.abspath(sys.argv[1] if len(sys.argv) > 1 else "crates/peer_front/out/peer_front")
REQUESTS, IN_FLIGHT = 20000, 16
checks = failures = 0


def check(what, right, seen=None):
    global checks, failures
    checks += 1
    if not right:
        failures += 1
        print("WRONG", what, "" if seen is None else repr(seen)[:600])


def free_port():
    with socket.socket() as listener:
        listener.bind(("127.0.0.1", 0))
        return listener.getsockname()[1]


def get(port, path, method="GET"):
    client = http.client.HTTPConnection("127.0.0.1", port, timeout=20)
    client.request(method, path)
    reply = client.getresponse()
    body = reply.read()
    client.close()
    return reply.status, dict((name.lower(), value) for name, value in reply.getheaders()), body


def wait_for(port):
    for _ in range(200):
        try:
            socket.create_connection(("127.0.0.1", port), 1).close()
            return True
        except OSError:
            time.sleep(0.05)
    return False


def numbers(page):
    return {name: int(value) for name, value in re.findall(r"^(peer_front_\S+) (\d+)$", page.decode(), re.M)}


class Server:
    def __init__(self, *words):
        self.port, self.stats = free_port(), free_port()
        self.run = subprocess.Popen(
            [PROGRAM, "--listen", f"127.0.0.1:{self.port}", "--stats", str(self.stats), "--until-eof", "--demo", *words],
            stdin=subprocess.PIPE, stdout=subprocess.PIPE, stderr=subprocess.PIPE)
        self.lines = []
        self.reader = threading.Thread(target=self.read_lines)
        self.reader.start()
        check("the program listens", self.run.stdout.readline() == b"listening\n")

    def read_lines(self):
        for line in self.run.stderr:
            self.lines.append((time.monotonic(), line.decode()))

    def page(self):
        return numbers(get(self.stats, "/metrics")[2])

    def end(self):
        begun = time.monotonic()
        self.run.stdin.close()
        totals = self.run.stdout.read().decode()
        status = self.run.wait(30)
        self.reader.join()
        return status, totals, time.monotonic() - begun


def try_page(server):
    status, fields, body = get(server.stats, "/metrics")
    check("the page is given", status == 200, status)
    check("its type", fields.get("content-type") == "text/plain; version=0.0.4; charset=utf-8", fields)
    told = subprocess.run(["promtool", "check", "metrics"], input=body, capture_output=True)
    check("promtool takes the page", told.returncode == 0 and not told.stdout and not told.stderr, told)
    check("health", get(server.stats, "/healthz")[::2] == (200, b"ok\n"))
    check("another path", get(server.stats, "/")[0] == 404)
    check("a query", get(server.stats, "/metrics?x=y")[0] == 200)
    check("HEAD", get(server.stats, "/metrics", "HEAD")[::2] == (200, b""))
    status, fields, _ = get(server.stats, "/metrics", "POST")
    check("POST", status == 405 and fields.get("allow") == "GET, HEAD", (status, fields))


def try_counts(server):
    before = server.page()
    for i in range(300):
        get(server.port, f"/_groupcache/square/{i % 100}")
    time.sleep(1.5)
    after = server.page()
    grown = {name: after[name] - before[name] for name in after}
    asked = grown["peer_front_asked_total"]
    check("300 values were asked for", asked == 300, grown)
    check("asked = hits + led + joined", asked == sum(
        grown[f"peer_front_{part}_total"] for part in ("hits", "led", "joined")), grown)
    check("200 of them were hits", grown["peer_front_hits_total"] == 200, grown)
    check("each led flight was a call", grown["peer_front_led_total"] == 100 == grown["peer_front_calls_total"], grown)
    check("300 connections were accepted", grown["peer_front_connections_accepted_total"] == 300, grown)
    check("none is open", after["peer_front_connections"] == 0, after)
    check("the caches have bytes", after["peer_front_cache_bytes"] > before["peer_front_cache_bytes"], (before, after))
    check("time passes", after["peer_front_uptime_seconds"] >= before["peer_front_uptime_seconds"] + 1, (before, after))
    kept = [socket.create_connection(("127.0.0.1", server.port)) for _ in range(7)]
    time.sleep(0.3)
    check("seven are open", server.page()["peer_front_connections"] == 7, server.page())
    for client in kept:
        client.close()


def drip(client):
    try:
        for byte in b"GET /metrics HTTP/1.1\r\nHost: " + b"h" * 1000:
            client.send(bytes([byte]))
            time.sleep(0.2)
    except OSError:
        pass


def try_slow_clients(server, count):
    clients = [socket.create_connection(("127.0.0.1", server.stats)) for _ in range(count)]
    threading.Thread(target=drip, args=(clients[0],), daemon=True).start()
    time.sleep(0.2)
    begun = time.monotonic()
    status = get(server.stats, "/healthz")[0]
    waited = time.monotonic() - begun
    check(f"beside {count} slow clients the next waits 5 s at most", status == 200 and waited <= 5, waited)
    check("and the server does not wait", get(server.port, "/_groupcache/echo/k")[2] == b"\x0a\x01k")
    for client in clients[1:]:
        client.settimeout(10)
        try:
            client.recv(1)
        except ConnectionError:
            pass
    check("silent ones are let go", time.monotonic() - begun <= 11, time.monotonic() - begun)


def load_by_h2load(name, port):
    told = subprocess.run(["h2load", "--h1", "-c", str(IN_FLIGHT), "-m", "1", "-n", str(REQUESTS),
                           f"http://127.0.0.1:{port}/_groupcache/echo/hot"], capture_output=True, text=True).stdout
    found = re.search(r"requests: (\d+) total, .* (\d+) succeeded, (\d+) failed, (\d+) errored, (\d+) timeout", told)
    codes = re.search(r"status codes: (\d+) 2xx", told)
    right = found and found.groups() == (str(REQUESTS), str(REQUESTS), "0", "0", "0")
    check(f"h2load of {name}", right and codes and int(codes.group(1)) == REQUESTS, told)
    rate = re.search(r"([\d.]+) req/s", told)
    print(f"h2load, {IN_FLIGHT} in flight, {name}: {rate.group(1) if rate else '?'} requests a second")


def load_by_ab(name, port):
    told = subprocess.run(["ab", "-q", "-k", "-c", str(IN_FLIGHT), "-n", str(REQUESTS),
                           f"http://127.0.0.1:{port}/_groupcache/echo/hot"], capture_output=True, text=True).stdout
    done = re.search(r"Complete requests:\s+(\d+)", told)
    failed = re.search(r"Failed requests:\s+(\d+)", told)
    right = done and int(done.group(1)) == REQUESTS and failed and failed.group(1) == "0" and "Non-2xx" not in told
    check(f"ab -k of {name}", right, told)
    kept = re.search(r"Keep-Alive requests:\s+(\d+)", told)
    rate = re.search(r"Requests per second:\s+([\d.]+)", told)
    print(f"ab -k, {name}: {rate.group(1) if rate else '?'} requests a second, {kept.group(1) if kept else '?'} kept")


def values_through(name, port):
    wrong = []
    client = http.client.HTTPConnection("127.0.0.1", port, timeout=20)
    for i in range(2000):
        client.request("GET", f"/_groupcache/echo/key-{i}")
        reply = client.getresponse()
        body, key = reply.read(), b"key-%d" % i
        if (reply.status, body) != (200, bytes([10, len(key)]) + key):
            wrong.append((i, reply.status, body))
    client.close()
    check(f"2000 values through {name}", not wrong, wrong)


def through_proxy(name, server, words, config):
    front = free_port()
    with tempfile.TemporaryDirectory() as folder:
        text = open(os.path.join(HERE, config)).read()
        for word, port in (("PEER", server.port), ("FRONT", front)):
            text = text.replace(word, f"127.0.0.1:{port}")
        path = os.path.join(folder, config)
        with open(path, "w") as file:
            file.write(text)
        os.chmod(folder, 0o755)
        log = open(os.path.join(folder, "log"), "w")
        proxy = subprocess.Popen([word.replace("FOLDER", folder).replace("CONFIG", path) for word in words],
                                 stdout=log, stderr=log)
        check(f"{name} listens", wait_for(front), open(os.path.join(folder, "log")).read())
        time.sleep(1)
        values_through(name, front)
        load_by_h2load(name, front)
        load_by_ab(name, front)
        proxy.terminate()
        proxy.wait(20)


def try_troubles(server, dead):
    begun = time.monotonic()
    while time.monotonic() - begun < 3:
        check("an origin that is not there", get(server.port, f"/_groupcache/{dead}/k")[0] == 500)
        time.sleep(0.05)
    time.sleep(1.5)
    told = [at for at, line in server.lines if "origins not reached" in line]
    check("trouble is told", 2 <= len(told) <= 5, server.lines)
    check("once a second at most", all(b - a > 0.9 for a, b in zip(told, told[1:])), told)
    page = get(server.stats, "/metrics")[2]
    counted = re.search(rb'peer_front_origin_failures_total\{kind="unreached"\} (\d+)', page)
    check("and counted", counted and int(counted.group(1)) > 10, page)
    check("the start is told", any(f"serves 4 groups at 127.0.0.1:{server.port}" in line for _, line in server.lines),
          server.lines)
    check("and where the page is", any(f"/healthz at 127.0.0.1:{server.stats}" in line for _, line in server.lines),
          server.lines)


def try_end(server):
    client = socket.create_connection(("127.0.0.1", server.port))
    time.sleep(1.5)
    page = server.page()
    status, totals, took = server.end()
    check("it ends by the end of its input", status == 0, status)
    check("soon", took < 5, took)
    words = totals.split()
    found = dict(zip(words[::2], words[1::2]))
    check("its totals are those of the page", all(
        int(found.get(part, -1)) == page[f"peer_front_{part}_total"]
        for part in ("asked", "hits", "led", "joined", "calls", "rehits")), (totals, page))
    client.close()


def try_unit():
    if shutil.which("systemd-analyze") is None:
        print("systemd-analyze is not here: the unit file is not verified")
        return
    with tempfile.TemporaryDirectory() as folder:
        unit = os.path.join(folder, "peer_front.service")
        service = os.path.abspath(os.path.join(HERE, "..", "service"))
        text = open(os.path.join(service, "peer_front.service")).read()
        text = text.replace("/usr/local/bin/end_on_term.sh", os.path.join(service, "end_on_term.sh"))
        with open(unit, "w") as file:
            file.write(text.replace("/usr/local/bin/peer_front", PROGRAM))
        told = subprocess.run(["systemd-analyze", "verify", unit], capture_output=True, text=True)
        check("systemd-analyze takes the unit file", told.returncode == 0 and unit not in told.stderr, told)


def main():
    server = Server(f"dead=http://127.0.0.1:{free_port()}/")
    try_page(server)
    try_counts(server)
    try_slow_clients(server, 10)
    try_slow_clients(server, 100)
    load_by_h2load("peer_front", server.port)
    load_by_ab("peer_front", server.port)
    through_proxy("nginx", server, ["nginx", "-p", "FOLDER", "-c", "CONFIG", "-g", "daemon off;"], "nginx.conf")
    through_proxy("haproxy", server, ["haproxy", "-db", "-f", "CONFIG"], "haproxy.cfg")
    try_troubles(server, "dead")
    check("no accept failed", server.page()["peer_front_accept_failures_total"] == 0, server.page())
    try_end(server)
    try_unit()
    print("checks", checks, "failures", failures)
    sys.exit(1 if failures else 0)


main()
