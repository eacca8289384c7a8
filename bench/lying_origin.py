#!/usr/bin/env python3
"""An HTTP service that lies, behind the built server: each reply that clients get beside what a model says.

    ./build
    python3 bench/lying_origin.py [--keys 20000] [--seed 1] [--connections 64] [PROGRAM]

The seed draws keys of any bytes, and for each key a kind of reply: whole ones (by length, in chunks, until the close, behind
interim replies, in pieces of any size), other statuses, and lies (cut heads, bodies and chunks, lengths and chunks that are
none, codings, two lengths, heads without an end, bytes that nobody asked for, connections that end without a reply, or that
end once they are used again, and some that never answer). A value must be the model's to the byte, an error the model's text,
and no key is asked of the service more than twice. Midway the service dies, and comes again a second later: of what was asked before
it was back an error that says so is right too. Those that never answer are asked for last, and all others have so much time that a
busy machine makes none late. The last line is `checks N failures 0`; if something failed, so does the program.
"""
import asyncio
import os
import random
import subprocess
import sys
from urllib.parse import quote, unquote_to_bytes

from common import free_port, given_words

MIB = 1 << 20
GONE = {b"origin cannot be reached\n", b"origin closed the connection\n"}
CLOSED = b"origin closed the connection\n"
BAD = b"origin sent a bad reply\n"
LATE = b"origin timed out\n"
LONG = b"value too long\n"
# How many seconds a value may take. On a busy machine the service, which is one process of Python, takes some for most.
TIMEOUT = "12"
# So that its address hardly rests, and each key is asked of it (bench/rests.py is about that).
RESTLESS = ["--rest", "1ms", "--rest-after", "1000"]
STATUSES = [206, 300, 301, 302, 307, 400, 410, 429, 500, 502, 503]


def sized(body, status=b"200 OK", more=b""):
    return b"HTTP/1.1 %s\r\nContent-Length: %d\r\n%s\r\n%s" % (status, len(body), more, body)


def chunked(draw, body):
    """The body in chunks of any size, with extensions and trailers here and there."""
    out, at = [b"HTTP/1.1 200 OK\r\nTransfer-Encoding: chunked\r\n\r\n"], 0
    while at < len(body):
        piece = body[at : at + draw.randint(1, 3000)]
        out.append(b"%x%s\r\n%s\r\n" % (len(piece), draw.choice([b"", b";a=b"]), piece))
        at += len(piece)
    out.append(b"0\r\n" + draw.choice([b"", b"X-Sum: 1\r\n"]) + b"\r\n")
    return b"".join(out)


class Reply:
    """What the service does for a key, and what the clients of the server must get."""

    def __init__(self, pieces=(), value=None, error=None, closes=False, hangs=False, only_new=False, resets=False):
        self.pieces, self.value, self.error = pieces, value, error
        self.closes, self.hangs, self.only_new, self.resets = closes, hangs, only_new, resets

    def wanted(self):
        return (200, body_of(self.value)) if self.error is None else (500, self.error)


def cut(draw, text, at_least):
    return text[: draw.randint(at_least, len(text) - 1)]


def lies(draw, body):
    """Replies that are none."""
    whole, head = sized(body or b"x"), sized(body or b"x").index(b"\r\n\r\n") + 4
    pieces = chunked(draw, body or b"x")
    ok = b"HTTP/1.1 200 OK\r\n"
    return [
        Reply([cut(draw, whole, 1)[:head - 1]], error=CLOSED, closes=True),
        Reply([cut(draw, whole, head)], error=CLOSED, closes=True),
        Reply([pieces[: -draw.randint(3, 5)]], error=CLOSED, closes=True),
        Reply([cut(draw, whole, head)], error=CLOSED, closes=True, resets=True),
        Reply([], error=CLOSED, closes=True),
        Reply([], error=CLOSED, closes=True, resets=True),
        Reply([b"\x00\x01 no reply \xff\r\n\r\n"], error=BAD, closes=True),
        Reply([b"HTTP/2.0 200 OK\r\nContent-Length: 1\r\n\r\nx"], error=BAD, closes=True),
        Reply([ok + b"Content-Length: 1\r\nTransfer-Encoding: chunked\r\n\r\n0\r\n\r\n"], error=BAD),
        Reply([ok + b"Content-Length: 1\r\nContent-Length: 2\r\n\r\nxy"], error=BAD),
        Reply([ok + b"Content-Length: -1\r\n\r\nx"], error=BAD),
        Reply([ok + b"Content-Length: 18446744073709551617\r\n\r\nx"], error=BAD),
        Reply([ok + b"Transfer-Encoding: gzip\r\n\r\nx"], error=BAD, closes=True),
        Reply([ok + b"Transfer-Encoding: gzip, chunked\r\n\r\n1\r\nx\r\n0\r\n\r\n"], error=BAD),
        Reply([ok + b"Transfer-Encoding: chunked\r\n\r\nzz\r\nx\r\n0\r\n\r\n"], error=BAD),
        Reply([ok + b"Transfer-Encoding: chunked\r\n\r\n2\r\nxyz\r\n0\r\n\r\n"], error=BAD),
        Reply([b"HTTP/1.1 101 Switching Protocols\r\nUpgrade: x\r\n\r\n"], error=BAD),
        Reply([sized(b"x", more=b"X-Y: " + b"z" * 17000 + b"\r\n")], error=BAD),
        Reply([sized(b"x", more=b"".join(b"X-%d: z\r\n" % i for i in range(140)))], error=BAD),
    ]


def long_value(draw):
    body = b"v" * (MIB + 1)
    return Reply([draw.choice([sized(body), chunked(draw, body)])], error=LONG, closes=True)


def whole(draw, body):
    """Replies that are whole, in many forms."""
    text = draw.choice([sized(body), sized(body), chunked(draw, body)])
    kind = draw.randrange(8)
    if kind == 0:
        return Reply([draw.choice([b"HTTP/1.0", b"HTTP/1.1"]) + b" 200 OK\r\nConnection: close\r\n\r\n" + body], value=body, closes=True)
    if kind == 1:
        return Reply([b"HTTP/1.1 103 Early Hints\r\nLink: </a>\r\n\r\n" * draw.randint(1, 3) + text], value=body)
    if kind == 2:
        places = sorted(draw.randrange(len(text)) for _ in range(draw.randint(1, 6)))
        return Reply([text[a:b] for a, b in zip([0, *places], [*places, len(text)])], value=body)
    if kind == 3:
        return Reply([text + sized(b"a value of nobody")], value=body)
    if kind == 4:
        return Reply([text], value=body, only_new=True)
    if kind == 5:
        return Reply([text], value=body, closes=True)
    return Reply([text], value=body)


def drawn(draw):
    """What the service does for one key."""
    body = draw.randbytes(draw.choice([0, 1, 5, 127, 128, 1000, 8193, 20000]))
    kind = draw.random()
    if kind < 0.0005:
        return Reply([], error=LATE, hangs=True)
    if kind < 0.002:
        return long_value(draw)
    if kind < 0.10:
        status = draw.choice(STATUSES)
        return Reply([sized(b"the page of an error", b"%d Some reason" % status)], error=b"origin answered %d\n" % status)
    if kind < 0.15:
        return Reply([sized(b"", b"404 Not Found")], error=b"no such key\n")
    if kind < 0.40:
        return draw.choice(lies(draw, body))
    return whole(draw, body)


def body_of(value):
    """A value as groupcache's peers send it: a field of bytes of a protocol buffer."""
    length, digits = len(value), b""
    while length >= 128:
        digits += bytes([length % 128 + 128])
        length //= 128
    return b"\n" + digits + bytes([length]) + value


class Service:
    """The service: it does for each key what was drawn for it."""

    def __init__(self, replies, port):
        self.replies, self.port = replies, port
        self.asked, self.server, self.writers = {}, None, set()
        # Whether it has died, and when it was back.
        self.died, self.back = False, None

    def may_fail(self, asked):
        """Whether what was asked for then may have met a service that is gone."""
        return self.died and (self.back is None or asked < self.back + 3)

    async def begin(self):
        self.server = await asyncio.start_server(self.serve, "127.0.0.1", self.port, backlog=1024, reuse_address=True)

    def die(self):
        self.died = True
        self.server.close()
        for writer in self.writers:
            writer.transport.abort()

    async def answer(self, reply, writer):
        for piece in reply.pieces:
            writer.write(piece)
            await writer.drain()
            if len(reply.pieces) > 1:
                await asyncio.sleep(0.001)
        if reply.hangs:
            await asyncio.sleep(30)

    async def serve(self, reader, writer):
        self.writers.add(writer)
        is_new = True
        try:
            while True:
                head = await reader.readuntil(b"\r\n\r\n")
                key = unquote_to_bytes(head.split(b" ")[1][len("/values/") :])
                self.asked[key] = self.asked.get(key, 0) + 1
                reply = self.replies[key]
                if reply.only_new and not is_new:
                    return
                await self.answer(reply, writer)
                if reply.resets:
                    writer.transport.abort()
                if reply.closes:
                    return
                is_new = False
        except (asyncio.CancelledError, asyncio.IncompleteReadError, asyncio.LimitOverrunError, OSError):
            pass
        finally:
            self.writers.discard(writer)
            writer.close()


class Checks:
    """What was compared."""

    def __init__(self):
        self.count = self.failures = 0

    def check(self, right, what):
        self.count += 1
        if not right:
            self.failures += 1
            if self.failures <= 20:
                print("wrong:", what)


async def read_reply(reader):
    head = await reader.readuntil(b"\r\n\r\n")
    lines = head.lower().split(b"\r\n")
    length = next(int(line.split(b":")[1]) for line in lines if line.startswith(b"content-length:"))
    return int(lines[0].split()[1]), await reader.readexactly(length)


async def client(port, keys, service, checks):
    """Asks for keys on one connection, some at a time, and compares each reply."""
    reader, writer = await asyncio.open_connection("127.0.0.1", port)
    for at in range(0, len(keys), 8):
        some = keys[at : at + 8]
        asked = asyncio.get_running_loop().time()
        for key in some:
            writer.write(b"GET /_groupcache/values/" + quote(key, safe="").encode() + b" HTTP/1.1\r\nHost: h\r\n\r\n")
        for key in some:
            got = await asyncio.wait_for(read_reply(reader), 120)
            right = got == service.replies[key].wanted() or service.may_fail(asked) and got[0] == 500 and got[1] in GONE
            checks.check(right, (key, got[0], got[1][:60], service.replies[key].wanted()[1][:60]))
    writer.close()


async def die_midway(service, checks, keys):
    """Ends the service once half of the keys were compared, and begins it again a second later."""
    while checks.count < keys // 2:
        await asyncio.sleep(0.02)
    service.die()
    await asyncio.sleep(1)
    await service.begin()
    # The address may rest for a moment more.
    service.back = asyncio.get_running_loop().time() + 0.5


async def run(given):
    draw = random.Random(given.seed)
    replies = {}
    while len(replies) < given.keys:
        replies[draw.randbytes(draw.randint(1, 24))] = drawn(draw)
    service, checks, port = Service(replies, free_port()), Checks(), free_port()
    await service.begin()
    words = [given.program, "--listen", f"127.0.0.1:{port}", "--timeout", TIMEOUT, *RESTLESS, f"values=http://127.0.0.1:{service.port}/values/"]
    server = subprocess.Popen(words, stdout=subprocess.PIPE, stderr=subprocess.DEVNULL)
    try:
        server.stdout.readline()
        keys = sorted(replies, key=lambda key: replies[key].hangs)
        parts = [keys[i :: given.connections] for i in range(given.connections)]
        clients = [client(port, part, service, checks) for part in parts]
        await asyncio.gather(die_midway(service, checks, given.keys), *clients)
        for key in keys:
            checks.check(service.asked.get(key, 0) <= 2, (key, "asked of the service", service.asked.get(key)))
        checks.check(server.poll() is None, "the server ended")
    finally:
        server.kill()
    print(f"checks {checks.count} failures {checks.failures}")
    return checks.failures


def main():
    given = given_words("program", "?", "crates/peer_front/out/peer_front", keys=20000, seed=1, connections=64)
    if not os.path.exists(given.program):
        sys.exit(f"lying_origin.py: no program {given.program}: run ./build first")
    sys.exit(1 if asyncio.run(run(given)) else 0)


main()
