#!/usr/bin/env python3
"""Each flag of the built peer_front, each bad word, and its status with its line on standard error.

    ./build
    python3 bench/front_statuses.py [crates/peer_front/out/peer_front]

Its last line is `rows N failures 0`; where a row fails, so does the program.
"""
import os
import re
import resource
import signal
import socket
import subprocess
import sys
import tempfile

from common import free_port

PROGRAM = sys.argv[1] if len(sys.argv) > 1 else "crates/peer_front/out/peer_front"
# A shell has what it starts in the background ignore SIGINT, and so would all that is started here.
signal.signal(signal.SIGINT, signal.SIG_DFL)
ON_TERM = os.path.join(os.path.dirname(os.path.abspath(__file__)), "../examples/service/end_on_term.sh")


def taken_address():
    listener = socket.socket()
    listener.bind(("127.0.0.1", 0))
    listener.listen()
    return listener, "127.0.0.1:%d" % listener.getsockname()[1]


TABLES = []


def table(data):
    """The name of a file that stays as long as this script runs."""
    file = tempfile.NamedTemporaryFile()
    file.write(data)
    file.flush()
    TABLES.append(file)
    return file.name


LISTENER, TAKEN = taken_address()
HERE = ["--listen", "127.0.0.1:0"]
GOOD = table(b"colors\tred\tv\n")
BAD = table(b"colors\tred\n")
NO_END = table(b"g\tk\tv\ng\tl\tv")
MANY = table(b"g0\ta\tv\n" + b"".join(b"g%d\tk\tv\n" % i for i in range(65)))
OVER = table(b"g\tk\t" + b"v" * 1_048_577 + b"\n")
TWICE = table(b"g\tk\tv\ng\tk\tv\n")
LARGE = table(b"x" * 16777217)
ECHO = table(b"echo\tk\tv\n")
LONG = table(b"g\tk\t" + b"v" * 999_995 + b"\n")
URL = "http://127.0.0.1:1/"
THREADS = "a number from 1 to 16 is needed"
WORKERS = "a number from 0 to 16 is needed"
FETCHERS = "a number from 1 to 4 is needed"
UNDER_WAY = "a number from 1 to 1024 is needed"
NO_WORKERS = "--workers is for a table and --demo alone: where a service is named, --fetchers says how many threads there are"
FOR_SERVICES = "is for services: name one, such as thumbs=http://10.0.0.7/thumbs/"
TIME = "a time from 1ms to 60m is needed, such as 500ms, 1.5s or 2m"
SIZE = "a number of bytes is needed, or of KiB, MiB or GiB, such as 64MiB"
ADDRESS = "a port, or an address and a port, is needed, such as :8001 or 127.0.0.1:8001"
PAGE = "a port, or an address and a port, is needed, such as 9180 or 127.0.0.1:9180"

# the words, the status, what standard error holds
ROWS = [
    (["--version"], 0, ""),
    (["--help"], 0, ""),
    ([], 1, "--listen <ADDR>"),
    (HERE + ["--table", b"caf\xe9"], 1, "peer_front: a word is not UTF-8\n"),
    (HERE, 1, "peer_front: nothing to serve: give GROUP=URL, --table FILE or --demo\n"),
    (["--listen", "127.0.0.1", "--demo"], 1, f"peer_front: --listen 127.0.0.1: {ADDRESS}\n"),
    (["--listen", "::1", "--demo"], 1, f"peer_front: --listen ::1: {ADDRESS}\n"),
    (["--listen", TAKEN, "--demo"], 2, f"peer_front: cannot serve {TAKEN}: "),
    (HERE + ["--demo", "--nothing"], 1, "--nothing"),
    (["--config", "/nothing/here"], 1, "peer_front: --config /nothing/here: "),
    (["--config", table(b"demo = true\n")], 1, "peer_front: --listen : a port, or an address and a port, is needed"),
    (["--config", table(b"demo = true\n"), "--listen", "x"], 1, "peer_front: --listen x: "),
    (["--check", "--config", table(b"listen = 80\ndemo = true\nloops = 4\n"), "--loops", "x"], 1, f"peer_front: --loops x: {THREADS}\n"),
    (["--check"] + HERE, 1, "peer_front: nothing to serve: give GROUP=URL, --table FILE or --demo\n"),
    (HERE + ["--demo", "--workers", "17"], 1, f"peer_front: --workers 17: {WORKERS}\n"),
    (HERE + ["--demo", "--workers", "-1"], 1, "-1"),
    (HERE + ["--demo", "--workers", "x"], 1, f"peer_front: --workers x: {WORKERS}\n"),
    (HERE + ["--workers", "3", "g=" + URL], 1, f"peer_front: {NO_WORKERS}\n"),
    (HERE + ["--demo", "--workers", "1", "g=" + URL], 1, f"peer_front: {NO_WORKERS}\n"),
    (HERE + ["g=" + URL, "--fetchers", "0"], 1, f"peer_front: --fetchers 0: {FETCHERS}\n"),
    (HERE + ["g=" + URL, "--fetchers", "5"], 1, f"peer_front: --fetchers 5: {FETCHERS}\n"),
    (HERE + ["g=" + URL, "--fetchers", "x"], 1, f"peer_front: --fetchers x: {FETCHERS}\n"),
    (HERE + ["--demo", "--fetchers", "5"], 1, f"peer_front: --fetchers 5: {FETCHERS}\n"),
    (HERE + ["g=" + URL, "--fetchers"], 1, "--fetchers"),
    (HERE + ["--demo", "--fetchers", "4"], 1, f"peer_front: --fetchers {FOR_SERVICES}\n"),
    (HERE + ["--demo", "--fetchers", "1"], 1, f"peer_front: --fetchers {FOR_SERVICES}\n"),
    (HERE + ["--demo", "--under-way", "1"], 1, f"peer_front: --under-way {FOR_SERVICES}\n"),
    (HERE + ["--table", GOOD, "--timeout", "1"], 1, f"peer_front: --timeout {FOR_SERVICES}\n"),
    (HERE + ["--table", GOOD, "--demo", "--connection-for-each"], 1, f"peer_front: --connection-for-each {FOR_SERVICES}\n"),
    (HERE + ["--demo", "--connection-for-each", "--fetchers", "2"], 1, f"peer_front: --fetchers {FOR_SERVICES}\n"),
    (HERE + ["g=" + URL, "--under-way", "0"], 1, f"peer_front: --under-way 0: {UNDER_WAY}\n"),
    (HERE + ["g=" + URL, "--under-way", "1025"], 1, f"peer_front: --under-way 1025: {UNDER_WAY}\n"),
    (HERE + ["g=" + URL, "--under-way", "x"], 1, f"peer_front: --under-way x: {UNDER_WAY}\n"),
    (HERE + ["g=" + URL, "--under-way"], 1, "--under-way"),
    (HERE + ["--demo", "--loops", "x"], 1, f"peer_front: --loops x: {THREADS}\n"),
    (HERE + ["--demo", "--loops", "17"], 1, f"peer_front: --loops 17: {THREADS}\n"),
    (HERE + ["--demo", "--connections", "0"], 1, "peer_front: --connections 0: a number from 1 to 65536 is needed\n"),
    (HERE + ["--demo", "--connections", "65537"], 1, "peer_front: --connections 65537: a number from 1 to 65536 is needed\n"),
    (HERE + ["--demo", "--cache", "64MB"], 1, f"peer_front: --cache 64MB: {SIZE}\n"),
    (HERE + ["--demo", "--cache-keys", "0"], 1, "peer_front: --cache-keys 0: a number from 1 to 4294967296 is needed\n"),
    (HERE + ["--demo", "--memory", "18446744073709551615GiB"], 1, f"peer_front: --memory 18446744073709551615GiB: {SIZE}\n"),
    (HERE + ["--demo", "--timeout", "0"], 1, f"peer_front: --timeout 0: {TIME}\n"),
    (HERE + ["g=" + URL, "--connect-timeout", "0"], 1, f"peer_front: --connect-timeout 0: {TIME}\n"),
    (HERE + ["--demo", "--connect-timeout", "1"], 1, f"peer_front: --connect-timeout {FOR_SERVICES}\n"),
    (HERE + ["g=" + URL, "--wait", "0"], 1, f"peer_front: --wait 0: {TIME}\n"),
    (HERE + ["--demo", "--rest", "1"], 1, f"peer_front: --rest {FOR_SERVICES}\n"),
    (HERE + ["g=" + URL, "--slow", "0"], 1, f"peer_front: --slow 0: {TIME}\n"),
    (HERE + ["--demo", "--slow", "1"], 1, f"peer_front: --slow {FOR_SERVICES}\n"),
    (HERE + ["g=" + URL, "--timeout", "1.s"], 1, f"peer_front: --timeout 1.s: {TIME}\n"),
    (HERE + ["--demo", "--stats", "x"], 1, f"peer_front: --stats x: {PAGE}\n"),
    (HERE + ["--demo", "--stats", ""], 1, f"peer_front: --stats : {PAGE}\n"),
    (HERE + ["--demo", "--stats", "0"], 1, f"peer_front: --stats 0: {PAGE}\n"),
    (HERE + ["--demo", "--stats", "65536"], 1, f"peer_front: --stats 65536: {PAGE}\n"),
    (HERE + ["--demo", "--stats", "127.0.0.1"], 1, f"peer_front: --stats 127.0.0.1: {PAGE}\n"),
    (HERE + ["--demo", "--stats", ":9180"], 1, f"peer_front: --stats :9180: {PAGE}\n"),
    (HERE + ["--demo", "--stats", TAKEN], 2, f"peer_front: cannot serve --stats {TAKEN}: "),
    (HERE + ["--demo", "--stats", TAKEN.split(":")[1]], 2, f"peer_front: cannot serve --stats {TAKEN}: "),
    (HERE + ["--demo", "--stats"], 1, "--stats"),
    (HERE + ["--demo", "--access-log", "/nothing/here"], 1, "peer_front: --access-log /nothing/here: "),
    (HERE + ["--demo", "--access-log", "/"], 1, "peer_front: --access-log /: "),
    (HERE + ["--demo", "--access-log"], 1, "--access-log"),
    (HERE + ["--demo", "--log", "xml"], 1, "peer_front: --log xml: text or json is needed\n"),
    (HERE + ["--demo", "--until-eof=x"], 1, "--until-eof"),
    (HERE + ["--demo", "--until-eof"], 0, "peer_front: serves 3 groups at 127.0.0.1:"),
    (HERE + ["--demo", "--timeout", "3601"], 1, f"peer_front: --timeout 3601: {TIME}\n"),
    (HERE + ["colors"], 1, "peer_front: colors: GROUP=URL is needed, such as thumbs=http://10.0.0.7/thumbs/\n"),
    (HERE + ["=" + URL], 1, f"peer_front: ={URL}: GROUP=URL is needed, such as thumbs=http://10.0.0.7/thumbs/\n"),
    (HERE + ["a=ftp://127.0.0.1/"], 1, "peer_front: a=ftp://127.0.0.1/: "),
    (HERE + ["a=https://127.0.0.1/"], 1, "peer_front: a=https://127.0.0.1/: https is not supported: "),
    (HERE + ["a/b=" + URL], 1, f"peer_front: a/b={URL}: the name of a group has no slash\n"),
    (HERE + ["a=http://name.invalid/"], 1, "peer_front: a=http://name.invalid/: "),
    (HERE + ["a=" + URL, "a=" + URL], 1, f"peer_front: a={URL}: a group of this name is served already\n"),
    (HERE + ["--table", GOOD, "colors=" + URL], 1, f"peer_front: colors={URL}: a group of this name is served already\n"),
    (HERE + ["--table", GOOD, f"colors={URL}?key="], 1, f"peer_front: colors={URL}?key=: a group of this name is served already\n"),
    (HERE + ["--demo", "echo=" + URL], 1, f"peer_front: echo={URL}: a group of this name is served already\n"),
    (HERE + ["--demo", "--table", ECHO], 1, f"peer_front: --table {ECHO}: has a group of --demo, whose are echo, square and fill\n"),
    (HERE + [f"g{i}={URL}" for i in range(65)], 1, f"peer_front: g64={URL}: there are more than 64 groups\n"),
    (HERE + ["--table", "/nothing/here"], 1, "/nothing/here"),
    (HERE + ["--table", "/"], 3, "peer_front: --table /: read failed\n"),
    (HERE + ["--table", BAD], 2, f"peer_front: --table {BAD}: bad table at line 1: not three fields or no end of line\n"),
    (HERE + ["--table", NO_END], 2, "bad table at line 2: not three fields or no end of line\n"),
    (HERE + ["--table", TWICE], 2, "bad table at line 2: group and key stood before\n"),
    (HERE + ["--table", MANY], 2, "bad table at line 66: the 65th group\n"),
    (HERE + ["--table", OVER], 2, "bad table at line 1: the value is over 1 MiB\n"),
    (HERE + ["--table", LARGE], 2, "table too large\n"),
]

# the words, and what standard error says first where the program serves and is ended at once
STARTS = [
    (["--demo"], "3 groups at ADDR, 10000 connections at most, on 2 loops"),
    (["--demo", "--stats", "127.0.0.1:0"],
     "/metrics, /readyz and /healthz at ADDR\npeer_front: serves 3 groups at ADDR, 10000 connections at most, on 2 loops"),
    (["--demo", "--stats", str(free_port())],
     "/metrics, /readyz and /healthz at ADDR\npeer_front: serves 3 groups at ADDR, 10000 connections at most, on 2 loops"),
    (["--table", GOOD, "--workers", "0"], "1 group at ADDR, 10000 connections at most, on 2 loops"),
    (["--demo", "--workers", "1", "--loops", "1"], "3 groups at ADDR, 10000 connections at most, on 1 loop and 1 worker"),
    (["--table", GOOD, "--workers", "16", "--loops", "16"], "1 group at ADDR, 10000 connections at most, on 16 loops and 16 workers"),
    (["g=" + URL], "1 group at ADDR, 10000 connections at most, on 2 loops, and fetches on 1 thread, 1024 values under way on each"),
    (["g=" + URL, "--workers", "0", "--fetchers", "4", "--under-way", "1024", "--connections", "1"],
     "1 group at ADDR, 1 connection at most, on 2 loops, and fetches on 4 threads, 1024 values under way on each"),
    (["--table", GOOD, "--demo", "g=" + URL, "--fetchers", "2", "--under-way", "1"],
     "5 groups at ADDR, 10000 connections at most, on 2 loops, and fetches on 2 threads, 1 value under way on each"),
]

# files that cannot be used, and what standard error says of them after their name
LINES = 'listen = "127.0.0.1:0"\n'
GROUP = LINES + "\n[groups.colors]\n"


def groups_file(count):
    """A file with so many groups."""
    return LINES + "".join(f'[groups.g{number:02}]\nurl = "{URL}"\n' for number in range(count))


GROUP_KEY = ("a group has no such key: "
             "url, table, header, timeout, connect_timeout, under_way, cache and cache_keys are those it may have")
NO_NAME = "the name of a group has no = and no slash, and is not empty"
ONE_SOURCE = "url or table is needed, and not both"
WORD = "a text or a whole number is needed"
CACHE_KEYS = "a number from 1 to 4294967296 is needed"
SERVED_ALREADY = "a group of this name is served already"
TEXTS = 'a list of texts is needed, such as ["Authorization: Bearer @FILE"]'
NO_VALUE = "its value has a byte that may not stand there"
OWN_FIELD = "a field of this name is sent already, or is one of the connection"
# What no line may have: it stands in values of fields alone.
SECRET = "hush-hush"
AT_URL = GROUP + f'url = "{URL}"\n'
TOKEN, NO_TOKEN, LONG_TOKEN = table(f"{SECRET}\r\n".encode()), table(b"\n"), table(SECRET.encode() * 911)
TWO_TOKENS = table(f"{SECRET}\n{SECRET}\n".encode())


def headers_file(*headers):
    """A file with a group whose requests have these fields, its key in line 5."""
    return AT_URL + "header = [" + ", ".join(f'"{header}"' for header in headers) + "]\n"


def unlike_file():
    """A file with 64 groups of which no two have the same settings."""
    groups = "".join(f'[groups.g{i:02}]\nurl = "{URL}{i}/"\nheader = ["X-{i}: v"]\ntimeout = "{i + 1}ms"\nconnect_timeout = {i + 1}\n'
                     f'under_way = {i + 1}\ncache = "{i + 1}MiB"\ncache_keys = {i + 1}\n' for i in range(64))
    return LINES + groups


# What is said of these groups: their caches have 1 MiB to 64 MiB.
UNLIKE_CACHES = "64 caches of different sizes, 2080 MiB in all"
UNLIKE_GROUPS = "".join(f"g{i:02}\n  header X-{i}\n  timeout {i + 1}ms\n  connect_timeout {i + 1}000ms\n  under_way {i + 1}\n"
                        f"  cache {i + 1} MiB\n  cache_keys {i + 1}\n" for i in range(64))
# Files with groups that have caches of their own.
OWN_CACHE = GROUP + f'url = "{URL}"\ncache = "1GiB"\n[groups.b]\nurl = "{URL}"\n[groups.shapes]\nurl = "{URL}"\n'
OWN_CACHES = (LINES + f'cache = "2MiB"\ncache-keys = 7\n[groups.a]\nurl = "{URL}"\ncache = 0\n[groups.b]\nurl = "{URL}"\ncache_keys = 9\n'
              f'[groups.colors]\ntable = "{GOOD}"\ncache = "1536KiB"\ncache_keys = 1\n')


BAD_FILES = [
    (LINES + "loops 4\n", "line 2: key with no value, expected `=`"),
    (LINES + "loops = 4\nloops = 4\n", "line 3: duplicate key"),
    (LINES + "[groups.colors\n", "line 2: unclosed table, expected `]`"),
    (LINES + 'table = "a\n', "line 2: invalid string"),
    (LINES + "loops = 4x\n", "line 2: invalid value, expected a string, number, boolean, date-time, array or inline table"),
    (LINES + "loops = [1, 2\n", "line 3: missing comma between array elements, expected `,` or `]`"),
    (b"listen = \"caf\xe9\"\n", "line 1: invalid UTF-8"),
    (LINES + "looops = 4\n", "line 2: looops: there is no such flag"),
    (LINES + "under_way = 4\n", "line 2: under_way: there is no such flag"),
    (LINES + "help = true\n", "line 2: help: there is no such flag"),
    (LINES + "check = true\n", "line 2: check: there is no such flag"),
    (LINES + 'config = "a"\n', "line 2: config: there is no such flag"),
    (LINES + "demo = 1\n", "line 2: demo: true or false is needed"),
    (LINES + '\n\nuntil-eof = "yes"\n', "line 4: until-eof: true or false is needed"),
    (LINES + "loops = true\n", f"line 2: loops: {WORD}"),
    (LINES + "timeout = 1.5\n", f"line 2: timeout: {WORD}"),
    (LINES + "loops = [\n4,\n]\n", f"line 4: loops: {WORD}"),
    (LINES + "timeout = 07:32:00\n", f"line 2: timeout: {WORD}"),
    (LINES + "[cache]\nbytes = 1\n", f"line 2: cache: {WORD}"),
    (LINES + "demo = true\nloops = 17\n", f"line 3: loops 17: {THREADS}"),
    (LINES + "demo = true\nworkers = -1\n", f"line 3: workers -1: {WORKERS}"),
    (LINES + "demo = true # all\ntimeout = 0\n", f"line 3: timeout 0: {TIME}"),
    (LINES + 'connect-timeout = "1h"\n', f"line 2: connect-timeout 1h: {TIME}"),
    (LINES + 'cache = "64MB"\n', f"line 2: cache 64MB: {SIZE}"),
    (LINES + "cache-keys = 0\n", "line 2: cache-keys 0: a number from 1 to 4294967296 is needed"),
    ('demo = true\nlisten = "127.0.0.1"\n', f"line 2: listen 127.0.0.1: {ADDRESS}"),
    (LINES + "stats = 0\n", f"line 2: stats 0: {PAGE}"),
    (LINES + 'log = "xml"\n', "line 2: log xml: text or json is needed"),
    (LINES + 'demo = true\naccess-log = "/nothing/here"\n', "line 3: access-log /nothing/here: "),
    (LINES + 'demo = true\nslow = "0ms"\n', f"line 3: slow 0ms: {TIME}"),
    (LINES + 'demo = true\nslow = "1s"\n', f"line 3: slow {FOR_SERVICES}"),
    (LINES + "demo = true\nfetchers = 2\n", f"line 3: fetchers {FOR_SERVICES}"),
    (f"workers = 1\n{GROUP}" + f'url = "{URL}"\n', "line 1: workers " + NO_WORKERS.removeprefix("--workers ")),
    (LINES + "groups = 3\n", "line 2: groups: groups are tables, such as [groups.colors]"),
    (LINES + "[[groups]]\n", "line 2: groups: groups are tables, such as [groups.colors]"),
    (LINES + "[groups]\ncolors = 3\n",
     'line 3: groups.colors: a group is a table with url or table, such as url = "http://10.0.0.7/colors/"'),
    (GROUP, 'line 3: groups.colors: a group is a table with url or table, such as url = "http://10.0.0.7/colors/"'),
    (GROUP + f'url = "{URL}"\nconnect-timeout = "1s"\n', f"line 5: groups.colors.connect-timeout: {GROUP_KEY}"),
    (GROUP + f'url = "{URL}"\ntimeout = "1h"\n', f"line 5: groups.colors.timeout: {TIME}"),
    (GROUP + f'url = "{URL}"\nconnect_timeout = 0\n', f"line 5: groups.colors.connect_timeout: {TIME}"),
    (GROUP + f'url = "{URL}"\nconnect_timeout = [1]\n', f"line 5: groups.colors.connect_timeout: {WORD}"),
    (GROUP + f'url = "{URL}"\nunder_way = 1025\n', f"line 5: groups.colors.under_way: {UNDER_WAY}"),
    (GROUP + f'table = "{GOOD}"\ntimeout = "1s"\n', "line 5: groups.colors.timeout: this is for a group with url"),
    (GROUP + f'under_way = 2\ntable = "{GOOD}"\n', "line 4: groups.colors.under_way: this is for a group with url"),
    (AT_URL + 'cache = "64MB"\n', f"line 5: groups.colors.cache: {SIZE}"),
    (AT_URL + "cache = -1\n", f"line 5: groups.colors.cache: {SIZE}"),
    (AT_URL + "cache = 0.5\n", f"line 5: groups.colors.cache: {WORD}"),
    (GROUP + f'cache = "1TiB"\ntable = "{GOOD}"\n', f"line 4: groups.colors.cache: {SIZE}"),
    (AT_URL + "cache_keys = 0\n", f"line 5: groups.colors.cache_keys: {CACHE_KEYS}"),
    (AT_URL + 'cache_keys = "many"\n', f"line 5: groups.colors.cache_keys: {CACHE_KEYS}"),
    (GROUP + f'table = "{GOOD}"\ncache_keys = true\n', f"line 5: groups.colors.cache_keys: {WORD}"),
    (AT_URL + "cache-keys = 1\n", f"line 5: groups.colors.cache-keys: {GROUP_KEY}"),
    (GROUP + 'cache = "1GiB"\n', f"line 3: groups.colors: {ONE_SOURCE}"),
    (GROUP + f'URL = "{URL}"\n', f"line 4: groups.colors.URL: {GROUP_KEY}"),
    (GROUP + "url = 80\ntable = true\n", f"line 5: groups.colors.table: {WORD}"),
    (GROUP + f'url = "{URL}"\ntable = "{GOOD}"\n', f"line 3: groups.colors: {ONE_SOURCE}"),
    (LINES + f'[groups."a/b"]\nurl = "{URL}"\n', f"line 2: groups.a/b: {NO_NAME}"),
    (LINES + f'[groups."a=b"]\nurl = "{URL}"\n', f"line 2: groups.a=b: {NO_NAME}"),
    (LINES + f'[groups.""]\nurl = "{URL}"\n', f"line 2: groups.: {NO_NAME}"),
    (GROUP + 'url = "https://127.0.0.1/"\n', "line 4: groups.colors.url https://127.0.0.1/: https is not supported: "),
    (GROUP + 'url = "http://name.invalid/"\n', "line 4: groups.colors.url http://name.invalid/: "),
    (LINES + f'demo = true\n[groups.echo]\nurl = "{URL}"\n', f"line 4: groups.echo.url {URL}: {SERVED_ALREADY}"),
    (LINES + f'table = "{GOOD}"\n[groups.colors]\nurl = "{URL}"\n', f"line 4: groups.colors.url {URL}: {SERVED_ALREADY}"),
    (LINES + f'table = "{BAD}"\n', f"line 2: table {BAD}: bad table at line 1: not three fields or no end of line"),
    (GROUP + 'table = "/nothing/here"\n', "line 4: groups.colors.table /nothing/here: "),
    (LINES + f'[groups.shapes]\ntable = "{GOOD}"\n', "line 3: groups.shapes.table has no such group"),
    (GROUP + f'table = "{GOOD}"\n[groups.g]\ntable = "{TWICE}"\n',
     "line 6: groups.g.table: one table is served, and another one stands elsewhere in the file"),
    (AT_URL + f'header = "Authorization: {SECRET}"\n', f"line 5: groups.colors.header: {TEXTS}"),
    (AT_URL + f'header = ["Authorization: {SECRET}", 1]\n', f"line 5: groups.colors.header: {TEXTS}"),
    (AT_URL + "[groups.colors.header]\n", f"line 5: groups.colors.header: {TEXTS}"),
    (headers_file(SECRET), 'line 5: groups.colors.header: field 1: a name, a colon and a value are needed, such as "Authorization: Bearer @FILE"'),
    (headers_file("A: " + SECRET, "B b: " + SECRET), "line 5: groups.colors.header: field 2: its name is no token of letters, digits and !#$%&'*+-.^_`|~"),
    (headers_file(f"A: {SECRET}\\r\\nB: {SECRET}"), f"line 5: groups.colors.header: field 1: {NO_VALUE}"),
    (headers_file(f"A: {SECRET}\\u0000"), f"line 5: groups.colors.header: field 1: {NO_VALUE}"),
    *((headers_file(f"{name}: {SECRET}"), f"line 5: groups.colors.header: field 1: {OWN_FIELD}") for name in (
        "Host", "user-agent", "Content-Length", "TRANSFER-ENCODING", "Connection", "Keep-Alive", "Proxy-Connection", "TE", "Trailer",
        "Upgrade", "Expect")),
    (headers_file("A: @"), "line 5: groups.colors.header: field 1: the name of a file is needed after @"),
    (headers_file(*["A: " + SECRET] * 17), "line 5: groups.colors.header: there are more than 16 fields"),
    (GROUP + f'header = ["A: {SECRET}"]\ntable = "{GOOD}"\n', "line 4: groups.colors.header: this is for a group with url"),
    (headers_file(f"A: {SECRET} @/nothing/here"), "line 5: groups.colors.header /nothing/here: "),
    (headers_file("A: @/"), "line 5: groups.colors.header /: "),
    (headers_file(f"A: {SECRET} @{LONG_TOKEN}"), f"line 5: groups.colors.header {LONG_TOKEN}: it has more than 8 KiB"),
    (headers_file(f"A: {SECRET} @{NO_TOKEN}"), f"line 5: groups.colors.header {NO_TOKEN}: it has nothing"),
    (headers_file(f"A: {SECRET} @{TWO_TOKENS}"),
     f"line 5: groups.colors.header {TWO_TOKENS}: it has a byte that may not stand in the value of a field"),
    (headers_file(*["A: " + SECRET * 110] * 9), "line 5: groups.colors.header has more than 8 KiB in all"),
    (groups_file(65), f"line 131: groups.g64.url {URL}: there are more than 64 groups"),
    (LINES + "#" * 65_536 + "\n", "it has more than 64 KiB"),
]

# files, words beside them, and what standard output and standard error hold under --check
DEMO = "would serve at 127.0.0.1:0, with 3 caches of 64 MiB, about N entries of 100 bytes in each:\necho\nsquare\nfill\n"
CHECKED = [
    ("", HERE + ["--demo"], DEMO),
    (LINES + "demo = true\n", [], DEMO),
    (LINES + f'cache = "1GiB"\n[groups.colors]\ntable = "{GOOD}"\n[groups.b]\nurl = "{URL}"\n', ["--listen", ":1"],
     "would serve at :1, with 2 caches of 1 GiB, about N entries of 100 bytes in each:\ncolors\nb\n"),
    (f'listen = ":1"\ntimeout = "1.5s"\n[groups.b]\nurl = "{URL}"\n', ["a=" + URL, "--timeout", "2", "b=" + URL + "v/"],
     "would serve at :1, with 2 caches of 64 MiB, about N entries of 100 bytes in each:\na\nb\n"),
    (headers_file(f"Authorization: Bearer {SECRET}", f"X-Token: {SECRET} @{TOKEN}", *["A: " + SECRET * 110] * 8) + f'[groups.b]\nurl = "{URL}"\n', [],
     "would serve at 127.0.0.1:0, with 2 caches of 64 MiB, about N entries of 100 bytes in each:\nb\ncolors\n  header Authorization, X-Token"
     + ", A" * 8 + "\n"),
    (LINES + f'[groups.b]\nconnect_timeout = "250ms"\nheader = ["A: b"]\nurl = "{URL}"\ntimeout = 2\nunder_way = 3\n', [],
     "would serve at 127.0.0.1:0, with 1 cache of 64 MiB, about N entries of 100 bytes:\nb\n  header A\n  timeout 2000ms\n"
     "  connect_timeout 250ms\n  under_way 3\n"),
    (OWN_CACHE, ["shapes=" + URL + "v/", "colors=" + URL + "v/", "--cache", "1MiB"],
     "would serve at 127.0.0.1:0, with 2 caches of 1 MiB, about N entries of 100 bytes in each; "
     "1 cache of 1 GiB, about N entries of 100 bytes:\nshapes\ncolors\n  cache 1 GiB\nb\n"),
    (OWN_CACHES, [], "would serve at 127.0.0.1:0, with 1 cache of 1536 KiB, about N entries of 100 bytes, 1 key at most; "
     "1 cache of 0 bytes, about N entries of 100 bytes, 7 keys at most; 1 cache of 2 MiB, about N entries of 100 bytes, 9 keys at most:\n"
     "colors\n  cache 1536 KiB\n  cache_keys 1\na\n  cache 0 bytes\nb\n  cache_keys 9\n"),
    (unlike_file(), [], f"would serve at 127.0.0.1:0, with {UNLIKE_CACHES}:\n{UNLIKE_GROUPS}"),
    (groups_file(64), [], "would serve at 127.0.0.1:0, with 64 caches of 64 MiB, about N entries of 100 bytes in each:\n"
     + "".join(f"g{i:02}\n" for i in range(64))),
]

# the words, and what standard error says last there, of the caches
CACHES = [
    (["--demo", "--cache", "1GiB", "--cache-keys", "1000"], "3 caches of 1 GiB, about N entries of 100 bytes in each, 1000 keys at most"),
    (["--table", GOOD, "--cache", "1536KiB", "--cache-keys", "1"], "1 cache of 1536 KiB, about N entries of 100 bytes, 1 key at most"),
    (["--demo", "--cache", "16GiB"], "3 caches of 16 GiB, about N entries of 100 bytes in each"),
    (["--table", GOOD, "--cache", "1000"], "1 cache of 1000 bytes, about N entries of 100 bytes"),
    (["--table", GOOD, "--cache", "0"], "1 cache of 0 bytes, about N entries of 100 bytes"),
    (["--config", table(OWN_CACHE.encode())],
     "2 caches of 64 MiB, about N entries of 100 bytes in each; 1 cache of 1 GiB, about N entries of 100 bytes"),
    (["--config", table(unlike_file().encode())], UNLIKE_CACHES),
]

# services, and those of them whose keys stand right behind a name, of which the program prints a line
PREFIXES = [
    (["a=http://127.0.0.1:1", "b=" + URL + "v/", "c=" + URL + "v?k="], []),
    (["a=" + URL + "v"], ["a=" + URL + "v"]),
    (["a=" + URL + "v/", "b=" + URL + "v?k", "c=" + URL + "v-"], ["b=" + URL + "v?k", "c=" + URL + "v-"]),
]

# how many files the program may open, the words, how many it would need, and what it serves then
FEW_FILES = [
    (1024, ["--demo"], 10150, "3 groups at ADDR, 874 connections at most, on 2 loops"),
    (1024, ["g=" + URL], 12198,
     "1 group at ADDR, 438 connections at most, on 2 loops, and fetches on 1 thread, 218 values under way on each"),
    (4096, ["g=" + URL, "--fetchers", "4", "--connections", "65536"], 73878,
     "1 group at ADDR, 1978 connections at most, on 2 loops, and fetches on 4 threads, 246 values under way on each"),
    (60, ["--demo", "--loops", "1"], 10150, "3 groups at ADDR, 1 connection at most, on 1 loop"),
]

# how many files the program may open, where its output goes, the words, the status, and what standard error holds
SERVED = HERE + ["--until-eof", "--demo"]
REFUSED = [
    (8, "/dev/null", SERVED, 5, "peer_front: out of memory, threads or descriptors\n"),
    (20000, "/dev/full", SERVED, 4, "peer_front: standard output: "),
    (20000, "/dev/full", ["--version"], 4, "peer_front: standard output: "),
    (20000, "/dev/full", ["--help"], 4, "peer_front: standard output: "),
]

# other words that are taken: the program says that it listens
TAKEN_WORDS = [
    ["--demo", "--workers", "1", "--loops", "1", "--connections", "1", "--cache", "0", "--memory", "1KiB"],
    ["a=" + URL, "--timeout", "1"],
    ["a=" + URL, "--timeout", "1.5s", "--connect-timeout", "500ms"],
    ["a=" + URL, "--connection-for-each"],
    ["a=" + URL + "v?k=", "--timeout", "1"],
    ["a=http://localhost:1/", "--timeout", "1"],
    ["a=http://[::1]:1/"],
    ["--demo", "--listen", "[::1]:0"],
    ["--demo", "--listen", ":0"],
    ["--demo", "--listen", "0"],
    ["--config", table(b'listen = "127.0.0.1:0"\ndemo = true\nloops = 1\n')],
    ["--table", GOOD, "--demo", "a=" + URL],
    ["--demo", "--stats", "127.0.0.1:0"],
    ["--demo", "--log", "text"],
    ["--demo", "--log", "json"],
]

# a word to bench/statuses.c, which stands in for calls of the C library; the words, the status and what standard error holds
STOOD_IN = [
    ("NO_SEED", ["--demo"], 7, "peer_front: no random seed\n"),
    ("ONE_BYTE", ["--table", LONG], 6, f"peer_front: --table {LONG}: too many reads\n"),
]

# what names every address of the machine, and where a client then connects
EVERYWHERE = [(":%d", "127.0.0.1"), (":%d", "::1"), ("%d", "127.0.0.1")]

# standard streams that are closed when the program starts
CLOSED = [0, 2]


def ended_at_once(words, files=20000, output=subprocess.PIPE):
    """The status and standard error of a program that has no input and may open so many files, and whose output goes there."""
    def allow():
        # The soft limit, which is the one that counts.
        _, most = resource.getrlimit(resource.RLIMIT_NOFILE)
        resource.setrlimit(resource.RLIMIT_NOFILE, (files, max(files, most)))

    done = subprocess.run([PROGRAM] + words, stdin=subprocess.DEVNULL, stdout=output, stderr=subprocess.PIPE,
                          timeout=60, check=False, preexec_fn=allow)
    # On a busy machine the end may last longer than a second, and is told.
    return done.returncode, re.sub(r"^\S+Z info ending, .*\n", "", done.stderr.decode(), flags=re.MULTILINE)


def checked(words):
    """The status of a program under `--check`, and what it prints."""
    done = subprocess.run([PROGRAM] + words, stdin=subprocess.DEVNULL, stdout=subprocess.PIPE, stderr=subprocess.DEVNULL, timeout=60,
                          check=False)
    return done.returncode, done.stdout.decode()


def told_to_end(sent):
    """What a server under `end_on_term.sh` prints that is sent this signal behind a reply, and its status."""
    address = ("127.0.0.1", free_port())
    words = [ON_TERM, PROGRAM, "--until-eof", "--demo", "--listen", "%s:%d" % address]
    run = subprocess.Popen(words, stdout=subprocess.PIPE, stderr=subprocess.DEVNULL)
    try:
        run.stdout.readline()
        with socket.create_connection(address, 10) as client:
            client.sendall(b"GET /_groupcache/echo/k HTTP/1.1\r\nHost: h\r\n\r\n")
            client.recv(1000)
            run.send_signal(sent)
            printed, _ = run.communicate(timeout=30)
    finally:
        run.kill()
    return printed, run.returncode


def told_at_once(sent):
    """What `end_on_term.sh` prints where its program sends it this signal first of all, and its status."""
    words = [ON_TERM, "sh", "-c", f"kill -{int(sent)} $PPID; cat; echo ended"]
    run = subprocess.run(words, stdout=subprocess.PIPE, timeout=30, check=False)
    return run.stdout, run.returncode


def held_for(stream):
    """What has the number of this standard stream in a server that was started with it closed."""
    run = subprocess.Popen([PROGRAM] + HERE + ["--demo"], stdout=subprocess.PIPE, preexec_fn=lambda: os.close(stream))
    run.stdout.readline()
    held = os.readlink(f"/proc/{run.pid}/fd/{stream}")
    run.kill()
    run.wait()
    return held


def reached(word, host):
    """Whether a server that was told to serve at this word is reached at this address of the machine."""
    port = free_port()
    run = subprocess.Popen([PROGRAM, "--demo", "--listen", word % port], stdout=subprocess.PIPE, stderr=subprocess.DEVNULL)
    try:
        run.stdout.readline()
        with socket.create_connection((host, port), 10):
            return True
    except OSError:
        return False
    finally:
        run.kill()
        run.wait()


def stood_in(word, words):
    """The status and standard error of a program some of whose calls of the C library bench/statuses.c stands in for."""
    source = os.path.join(os.path.dirname(os.path.abspath(__file__)), "statuses.c")
    with tempfile.TemporaryDirectory() as folder:
        library = os.path.join(folder, "statuses.so")
        subprocess.run([os.environ.get("CC", "cc"), "-shared", "-fPIC", "-O2", "-o", library, source], check=True)
        done = subprocess.run([PROGRAM] + HERE + words, stdin=subprocess.DEVNULL, stdout=subprocess.DEVNULL, stderr=subprocess.PIPE,
                              timeout=60, check=False, env={**os.environ, "LD_PRELOAD": library, word: "1"})
    return done.returncode, done.stderr.decode()


def unreadable():
    """The status of a server whose input cannot be read."""
    folder = os.open("/", os.O_RDONLY)
    done = subprocess.run([PROGRAM] + SERVED, stdin=folder, stdout=subprocess.DEVNULL, stderr=subprocess.DEVNULL, timeout=60, check=False)
    os.close(folder)
    return done.returncode


def hides_numbers(told):
    """What was told, without the ports, and without how many entries that is, which goes by what one takes."""
    told = re.sub(r"127\.0\.0\.1:[1-9]\d*", "ADDR", told)
    return re.sub(r"about (\d+|\d+,000|\d+\.\d million) entries", "about N entries", told)


def served_by(text):
    """What standard error says of a server with usual caches that is said to serve so."""
    groups = int(re.search(r"(\d+) groups? at", text)[1])
    caches = "1 cache of 64 MiB" if groups == 1 else f"{groups} caches of 64 MiB"
    each = "" if groups == 1 else " in each"
    return f"peer_front: serves {text}\npeer_front: {caches}, about N entries of 100 bytes{each}\n"


failures = 0
for words, status, text in ROWS:
    ended, told = ended_at_once(words)
    if ended != status or text not in told:
        failures += 1
        print("words", words[:6], "status", ended, "wanted", status, "told", repr(told), "wanted", repr(text))

for words, text in STARTS:
    ended, told = ended_at_once(HERE + ["--until-eof"] + words)
    if ended != 0 or hides_numbers(told) != served_by(text):
        failures += 1
        print("words", words, "status", ended, "told", repr(told), "wanted", repr(text))

for text, wanted in BAD_FILES:
    path = table(text if isinstance(text, bytes) else text.encode())
    ended, told = ended_at_once(["--config", path])
    if not ended or not told.startswith(f"peer_front: --config {path}: {wanted}") or not told.endswith("\n") or SECRET in told:
        failures += 1
        print("file", repr(text[:200]), "status", ended, "told", repr(told), "wanted", repr(wanted))

for text, words, wanted in CHECKED:
    words = ["--check", *words] + (["--config", table(text.encode())] if text else [])
    ended, told = checked(words)
    if ended != 0 or hides_numbers(told) != wanted:
        failures += 1
        print("words", words, "status", ended, "told", repr(told), "wanted", repr(wanted))

for words, text in CACHES:
    ended, told = ended_at_once(HERE + ["--until-eof"] + words)
    if ended != 0 or not hides_numbers(told).endswith(f"\npeer_front: {text}\n"):
        failures += 1
        print("words", words, "status", ended, "told", repr(told), "wanted", repr(text))

for words, asked in PREFIXES:
    ended, told = ended_at_once(HERE + ["--until-eof"] + words)
    wanted = "".join(f"peer_front: {word}: keys stand right behind this, with no / between: is that meant?\n" for word in asked)
    if ended != 0 or not told.startswith(wanted + "peer_front: serves ") or told.count("\n") != len(asked) + 2:
        failures += 1
        print("words", words, "status", ended, "told", repr(told), "wanted", repr(wanted))

for files, words, needed, text in FEW_FILES:
    ended, told = ended_at_once(HERE + ["--until-eof"] + words, files)
    less = f"peer_front: may open {files} files (ulimit -n), and all that is asked for needs {needed}: serves less\n"
    if ended != 0 or hides_numbers(told) != less + served_by(text):
        failures += 1
        print("files", files, "words", words, "status", ended, "told", repr(told), "wanted", repr(text))

for files, output, words, status, text in REFUSED:
    with open(output, "wb") as opened:
        ended, told = ended_at_once(words, files, opened)
    if ended != status or text not in told:
        failures += 1
        print("files", files, "output", output, "words", words, "status", ended, "wanted", status, "told", repr(told))

for words in TAKEN_WORDS:
    run = subprocess.Popen([PROGRAM] + ([] if "--listen" in words else HERE) + words, stdout=subprocess.PIPE, stderr=subprocess.DEVNULL)
    line = run.stdout.readline()
    run.kill()
    run.wait()
    if line != b"listening\n":
        failures += 1
        print("words", words, "printed", line)

TOTALS = b"asked 1 hits 0 led 1 joined 0 calls 1 rehits 0 left 0\n"
SIGNALS = [(sent, tell, text) for sent in (signal.SIGTERM, signal.SIGINT) for tell, text in ((told_to_end, TOTALS), (told_at_once, b"ended\n"))]
for sent, tell, text in SIGNALS:
    printed, ended = tell(sent)
    if ended != 0 or printed != text:
        failures += 1
        print("sent", sent, tell.__name__, "printed", printed, "status", ended)

for word, words, status, text in STOOD_IN:
    ended, told = stood_in(word, words)
    if (ended, told) != (status, text):
        failures += 1
        print(word, "words", words, "status", ended, "wanted", status, "told", repr(told))

for word, host in EVERYWHERE:
    if not reached(word, host):
        failures += 1
        print("served at", word, "and is not reached at", host)

ended = unreadable()
if ended != 0:
    failures += 1
    print("an input that cannot be read: status", ended)

for stream in CLOSED:
    held = held_for(stream)
    if held != "/dev/null":
        failures += 1
        print("standard stream", stream, "was closed, and is", held)

counted = [ROWS, STARTS, BAD_FILES, CHECKED, CACHES, PREFIXES, FEW_FILES, REFUSED, TAKEN_WORDS, SIGNALS, STOOD_IN, EVERYWHERE, CLOSED]
print("rows", sum(len(rows) for rows in counted) + 1, "failures", failures)
sys.exit(1 if failures else 0)
