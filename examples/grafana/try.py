#!/usr/bin/env python3
"""Whether the dashboard asks for what the built peer_front tells.

    ./build
    python3 examples/grafana/try.py [--queries] [crates/peer_front/out/peer_front]

Each name of a query is one of the page of a server with two groups, which has there the labels that the query names and the values
that it asks for; each label of a legend is one that the query keeps. With `--queries` Prometheus reads the page of that server under
a small load, and is asked each query: each has to have a result. That wants Debian's package prometheus, and takes half a minute.
Its last line is `rows N failures 0`; if a row fails, so does the program.
"""
import argparse
import json
import os
import re
import subprocess
import sys
import tempfile
import time
import urllib.parse
import urllib.request

HERE = os.path.dirname(os.path.abspath(__file__))
sys.path.insert(0, os.path.join(HERE, "..", "..", "bench"))
from common import Listening, Started, ask, free_port, run_rows  # noqa: E402

# What Prometheus itself puts to each number that it reads. Its own name is `up`.
OF_PROMETHEUS = {"job", "instance"}
WORDS = {"$job": "peer_front", "$instance": ".*", "$group": ".*", "$__rate_interval": "10s"}
NAME = re.compile(r"\b(?:peer_front|process)_\w+")
SELECTOR = re.compile(r"(\w+)\{([^}]*)\}")
MATCH = re.compile(r'(\w+)(=|!=|=~)"([^"]*)"')
PATIENCE = 30


def read(url):
    with urllib.request.urlopen(url, timeout=10) as page:
        return page.read().decode()


def dashboard():
    with open(os.path.join(HERE, "peer_front.json"), encoding="utf-8") as file:
        return json.load(file)


def queries():
    """Each query of a panel with its legend."""
    return [(target["expr"], target["legendFormat"]) for panel in dashboard()["panels"] for target in panel.get("targets", [])]


def asked_of_variables():
    """What the variables ask for, as `NAME{..}` and the label whose values they take."""
    lists = [variable["query"] for variable in dashboard()["templating"]["list"] if variable["type"] == "query"]
    return [re.fullmatch(r"label_values\((.*), (\w+)\)", one["query"]).groups() for one in lists]


class Page:
    """The numbers of a page: for each name the labels of each of its numbers."""

    def __init__(self, text):
        self.labels = {}
        for name, labels in re.findall(r"^([a-z]\w*)(?:\{(.*)\})? \S+$", text, re.MULTILINE):
            self.labels.setdefault(name, []).append(dict(re.findall(r'(\w+)="([^"]*)"', labels)))

    def has(self, name, label, value=None):
        """Whether this name has this label, and this value of it, if one is given."""
        if label in OF_PROMETHEUS:
            return True
        values = [labels[label] for labels in self.labels[name] if label in labels]
        return bool(values) and value in (None, *values)

    def wrong_of(self, query, kept):
        """What a query asks for that is not there. It keeps these labels besides those that it sums by."""
        names = set(NAME.findall(query))
        if names - self.labels.keys():
            return f"there is no {', '.join(names - self.labels.keys())}"
        asked = [(name, *one) for name, inside in SELECTOR.findall(query) if name in names for one in MATCH.findall(inside)]
        by = {label for labels in re.findall(r"by \(([^)]*)\)", query) for label in labels.split(", ")}
        gone = [(name, label) for name, label, how, value in asked if not self.has(name, label, value if how == "=" else None)]
        gone += [(name, label) for name in names for label in by | kept if not self.has(name, label)]
        gone += [("legend", label) for label in kept if by and label not in by]
        return f"has no {gone}" if gone else None


class Watched(Listening):
    """A server of the demonstration and of a service that is not there, with small caches, and its page."""

    def __init__(self, program):
        self.page = f"127.0.0.1:{free_port()}"
        super().__init__(program, "--demo", "--stats", self.page, "--cache-keys", "50", f"colors=http://127.0.0.1:{free_port()}/")

    def load(self):
        """Hits, keys that are pushed out, values too large, a service that fails, and a group that is not there."""
        for path in [*(f"echo/{number}" for number in range(100)), "echo/99", "colors/red", "none/k", "fill/1048576"]:
            ask(self.address, path)


class Prometheus(Started):
    """Prometheus, which reads a page each second."""

    def __init__(self, page, folder):
        self.url = f"http://127.0.0.1:{free_port()}"
        path = os.path.join(folder, "prometheus.yml")
        with open(path, "w", encoding="utf-8") as file:
            json.dump({"scrape_configs": [{"job_name": "peer_front", "scrape_interval": "1s", "static_configs": [{"targets": [page]}]}]}, file)
        words = [f"--config.file={path}", f"--storage.tsdb.path={folder}/data", f"--web.listen-address={self.url.removeprefix('http://')}"]
        self.process = subprocess.Popen(["prometheus", *words], stdin=subprocess.DEVNULL, stderr=subprocess.DEVNULL)

    def has_result(self, query):
        """Whether a query has a result. It is refused if it is none, and as long as Prometheus has not started."""
        for word, value in WORDS.items():
            query = query.replace(word, value)
        try:
            told = json.loads(read(f"{self.url}/api/v1/query?{urllib.parse.urlencode({'query': query})}"))
        except OSError:
            return False
        return bool(told["data"]["result"])


def wrong():
    """Prints what is asked for and not there. Whether there was something."""
    with Watched(given.program) as server:
        page = Page(read(f"http://{server.page}/metrics"))
    found = {expr: page.wrong_of(expr, set(re.findall(r"\{\{(\w+)\}\}", legend))) for expr, legend in queries()}
    found |= {query: page.wrong_of(query, {label}) for query, label in asked_of_variables()}
    for query, fault in found.items():
        if fault:
            print(f"{query}: {fault}")
    return any(found.values())


def each_query_asks_for_what_the_page_has():
    return queries() and not wrong()


def each_query_has_a_result():
    with Watched(given.program) as server, tempfile.TemporaryDirectory() as folder, Prometheus(server.page, folder) as prometheus:
        without, until = [query for query, _ in queries()], time.monotonic() + PATIENCE
        while without and time.monotonic() < until:
            server.load()
            time.sleep(1)
            without = [query for query in without if not prometheus.has_result(query)]
        for query in without:
            print("no result:", query)
        return not without


words = argparse.ArgumentParser()
words.add_argument("--queries", action="store_true")
words.add_argument("program", nargs="?", default="crates/peer_front/out/peer_front")
given = words.parse_args()
run_rows([each_query_asks_for_what_the_page_has] + [each_query_has_a_result] * given.queries)
