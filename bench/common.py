"""What several scripts of this folder share: which programs each asks, edits, a free port, a request, a server that ends with its
block, a service, rows, and words of the command line."""
import argparse
import os
import shutil
import socket
import subprocess
import sys
import threading

# The scripts that are tests, and the programs that each asks, those first that take longest.
SCRIPTS = {
    "package": ["peer_front"],
    "slow_clients": ["peer_front"],
    "front_serves": ["peer_front"],
    "lying_origin": ["peer_front"],
    "kept": ["peer_front"],
    "names": ["peer_front"],
    "rests": ["peer_front"],
    "refused": ["refused", "peer_serve"],
    "front_refused": ["peer_front"],
    "front_statuses": ["peer_front"],
    "serves": ["peer_serve"],
    "statuses": ["peer_serve"],
    "restart": ["peer_front"],
    "itself": ["peer_front"],
    "upper": ["upper_peer"],
    "check_commands": ["peer_front"],
    "dashboard": ["peer_front"],
}
# The programs of the system without which a script is left out, and how a script is called that is no file of this folder.
NEEDS = {"package": ["dpkg-deb", "ldd", "readelf"]}
LIES_AT = {"check_commands": ["docs/check_commands.py", "--run"], "dashboard": ["examples/grafana/try.py"]}


def edits_in(folder):
    """The names of the edits in a folder, sorted."""
    return sorted(name[: -len(".edit")] for name in os.listdir(folder) if name.endswith(".edit"))


class Edit:
    """A mistake: `self.pairs`, each a file, the text that stands there and the one in its place, and `self.fails`, what its line of
    this name says."""

    def __init__(self, path):
        self.pairs, self.fails = [], ""
        file = old = ""
        with open(path, encoding="utf-8") as lines:
            for line in lines:
                word, _, text = line.rstrip("\n").partition(":")
                text = text.removeprefix(" ")
                if word == "file":
                    file = text
                elif word == "old":
                    old = text
                elif word == "new":
                    self.pairs.append((file, old, text))
                elif word == "fails":
                    self.fails = text

    def put_into(self, tree):
        """The texts of the files of a tree with the mistake, by their paths. ValueError where it does not fit: each old text has to
        stand exactly once in its file, over what the pair before left."""
        right, texts = {}, {}
        for file, old, new in self.pairs:
            path = os.path.join(tree, file)
            if not os.path.isfile(path):
                raise ValueError(f"there is no file {file}")
            if path not in texts:
                with open(path, encoding="utf-8") as source:
                    right[path] = texts[path] = source.read()
            if texts[path].count(old) != 1:
                raise ValueError(f"the old text stands {texts[path].count(old)} times: {old}")
            texts[path] = texts[path].replace(old, new)
        if texts == right:
            raise ValueError("it changes nothing")
        return texts


def free_port():
    with socket.socket() as probe:
        probe.bind(("127.0.0.1", 0))
        return probe.getsockname()[1]


def ask(address, path):
    """The reply of a server to a request for this group and key, on a connection of its own."""
    with socket.create_connection(address, 30) as stream:
        stream.sendall(f"GET /_groupcache/{path} HTTP/1.1\r\nHost: h\r\nConnection: close\r\n\r\n".encode())
        return b"".join(iter(lambda: stream.recv(10000), b""))


def may_have_its_own(what):
    """Whether a process may be started in a namespace of its own of this kind (unshare(1)), as a rule by root alone."""
    if shutil.which("unshare") is None:
        return False
    return subprocess.run(["unshare", f"--{what}", "true"], stderr=subprocess.DEVNULL, check=False).returncode == 0


class Started:
    """A process, `self.process`, that is killed where its block ends."""

    def __enter__(self):
        return self

    def __exit__(self, *_):
        self.process.kill()
        self.process.wait()


class Listening(Started):
    """A built peer_front on a free port, which listens. Its standard error goes to a file, or nowhere."""

    def __init__(self, program, *words, said=subprocess.DEVNULL):
        # A connection of somebody else may take the port before the server does.
        for _ in range(3):
            self.address = ("127.0.0.1", free_port())
            command = [program, "--listen", "%s:%d" % self.address, *words]
            self.process = subprocess.Popen(command, stdin=subprocess.DEVNULL, stdout=subprocess.PIPE, stderr=said)
            if self.process.stdout.readline():
                return
            self.process.wait()


class Service:
    """An HTTP service with a thread for each connection, and how many connections it had."""

    def __init__(self, serve):
        self.listener = socket.create_server(("127.0.0.1", 0))
        self.port = self.listener.getsockname()[1]
        self.url = f"http://127.0.0.1:{self.port}/"
        self.serve, self.connections = serve, 0
        threading.Thread(target=self.accept, daemon=True).start()

    def accept(self):
        while True:
            stream, _ = self.listener.accept()
            self.connections += 1
            threading.Thread(target=self.answer, args=(stream,), daemon=True).start()

    def answer(self, stream):
        with stream:
            try:
                self.serve(stream)
            except OSError:
                pass


def hangs(stream):
    """What a service does that answers nothing."""
    while stream.recv(10000):
        pass


def holds(row):
    """Whether a row of a script holds. A call of the system that fails is told."""
    try:
        return row()
    except OSError as error:
        print(row.__name__, error)
        return False


def run_rows(rows):
    """Runs the rows of a script, tells which fail, and ends the program."""
    failed = [row.__name__ for row in rows if not holds(row)]
    for name in failed:
        print("fails:", name)
    print("rows", len(rows), "failures", len(failed))
    sys.exit(1 if failed else 0)


def given_words(name, nargs, default=None, **options):
    """What the command line gives: the words of this name, and for each option its value or the one here."""
    parser = argparse.ArgumentParser()
    parser.add_argument(name, nargs=nargs, default=default)
    for option, value in options.items():
        parser.add_argument(f"--{option}", type=type(value), default=value)
    return parser.parse_args()
