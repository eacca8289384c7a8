#!/usr/bin/env python3
"""Makes the packages of the built peer_front, installs them, and asks what runs there for a key.

    ./build
    python3 bench/package.py

Two runs of ./package make the same bytes, and the sums are theirs. The archive is taken apart, and its program runs by the script
beside it and ends with status 0 on SIGTERM. The man page names each flag of `--help`. The package is installed in a fresh root that
debootstrap makes, and its program serves there as its own user; then the package is removed. Without debootstrap, the rights of root
or a mirror the package is taken apart instead, and the script says so. Its last line is `rows N failures 0`.
"""
import os
import re
import shutil
import signal
import subprocess
import sys
import tarfile
import tempfile

from common import Started, ask, free_port, run_rows

ROOT = os.path.dirname(os.path.dirname(os.path.abspath(__file__)))
PROGRAM = os.path.join(ROOT, "crates/peer_front/out/peer_front")
ROOM = tempfile.mkdtemp(prefix="package-")
PATIENCE = 400


def said(*words):
    ran = subprocess.run(words, stdin=subprocess.DEVNULL, capture_output=True, text=True, errors="replace", check=False)
    return ran.stdout if not ran.returncode else f"{ran.stdout}{ran.stderr}\nstatus {ran.returncode}"


def made(name):
    """The files that a run of ./package makes, by their names."""
    folder = os.path.join(ROOM, name)
    subprocess.run([os.path.join(ROOT, "package"), "--out", folder, PROGRAM], check=True, stdout=subprocess.DEVNULL)
    return {file: os.path.join(folder, file) for file in sorted(os.listdir(folder))}


FILES = made("first")
VERSION = said(PROGRAM, "--version").split()[-1]
ARCHIVE, PACKAGE = (next(path for name, path in FILES.items() if name.endswith(end)) for end in (".tar.gz", ".deb"))


class Ends(Started):
    """The program with --demo, by the script that ends it, and whether it answers a key and ends with status 0."""

    def __init__(self, *words):
        self.address = ("127.0.0.1", free_port())
        command = [*words, "--until-eof", "--listen", "%s:%d" % self.address, "--demo"]
        self.process = subprocess.Popen(command, stdin=subprocess.DEVNULL, stdout=subprocess.PIPE, stderr=subprocess.DEVNULL)

    def is_well(self):
        listens = self.process.stdout.readline() == b"listening\n"
        answers = listens and ask(self.address, "echo/k").endswith(b"\r\n\r\n\n\x01k")
        self.process.send_signal(signal.SIGTERM)
        return answers and self.process.wait(60) == 0


def is_well(*words):
    with Ends(*words) as server:
        return server.is_well()


def same_bytes():
    second = made("second")
    return list(second) == list(FILES) and all(open(second[name], "rb").read() == open(path, "rb").read() for name, path in FILES.items())


def sums_hold():
    ran = subprocess.run(["sha256sum", "--check", "--quiet", "SHA256SUMS"], cwd=os.path.dirname(ARCHIVE), check=False)
    return ran.returncode == 0 and set(FILES) == {"SHA256SUMS", os.path.basename(ARCHIVE), os.path.basename(PACKAGE)}


def archive_serves():
    with tarfile.open(ARCHIVE) as archive:
        archive.extractall(ROOM)
    folder = os.path.join(ROOM, f"peer_front-{VERSION}-linux-amd64")
    there = {"LICENSE", "end_on_term.sh", "peer_front", "peer_front.1", "peer_front.default", "peer_front.service", "peer_front.toml"}
    return set(os.listdir(folder)) == there and is_well(f"{folder}/end_on_term.sh", f"{folder}/peer_front")


def man_page_names_flags():
    page = said("sh", "-c", f"dpkg-deb --fsys-tarfile {PACKAGE} | tar -xO ./usr/share/man/man1/peer_front.1.gz | gunzip")
    flags = re.findall(r"^ +(?:-\w, )?(--[\w-]+)", said(PROGRAM, "--help"), re.MULTILINE)
    missing = [flag for flag in flags if f"\\fB{flag}".replace("-", "\\-") not in page and f", {flag}".replace("-", "\\-") not in page]
    print("".join(f"not in the man page: {flag}\n" for flag in missing), end="")
    return len(flags) > 10 and not missing


def package_says_what_it_needs():
    needs = said("dpkg-deb", "--field", PACKAGE, "Depends")
    return bool(re.search(r"libc6 \(>= \d+\.\d+\)", needs)) and said("dpkg-deb", "--field", PACKAGE, "Version").strip() == VERSION


def file_is_taken():
    """Whether the program would serve what the file of the package says."""
    folder = os.path.join(ROOM, "file")
    subprocess.run(["dpkg-deb", "--extract", PACKAGE, folder], check=True)
    told = said(PROGRAM, "--check", "--config", os.path.join(folder, "etc/peer_front.toml"))
    return told.startswith("would serve at 127.0.0.1:8001, ") and told.endswith("\ncolors\n")


def fresh_root():
    """A fresh root with the package installed, or why there is none."""
    if os.getuid() or shutil.which("debootstrap") is None:
        return None, "debootstrap, or the rights of root, are not here"
    root = os.path.join(ROOM, "root")
    with open("/etc/os-release", encoding="utf-8") as text:
        suite = re.search(r"^VERSION_CODENAME=(\w+)", text.read(), re.MULTILINE)[1]
    try:
        ran = subprocess.run(["debootstrap", "--variant=minbase", suite, root], capture_output=True, timeout=PATIENCE, check=False)
    except subprocess.TimeoutExpired:
        return None, f"debootstrap took more than {PATIENCE} s"
    return (root, "") if not ran.returncode else (None, "debootstrap made no root: no mirror")


def installed_serves():
    root, why = fresh_root()
    if root is None:
        print("the package is taken apart, and not installed:", why)
        folder = os.path.join(ROOM, "apart")
        subprocess.run(["dpkg-deb", "--extract", PACKAGE, folder], check=True)
        return is_well(f"{folder}/usr/lib/peer_front/end_on_term.sh", f"{folder}/usr/bin/peer_front")
    shutil.copy(PACKAGE, os.path.join(root, "peer.deb"))
    told = said("chroot", root, "dpkg", "--install", "/peer.deb")
    as_user = ["chroot", "--userspec=peer_front:peer_front", root]
    served = is_well(*as_user, "/usr/lib/peer_front/end_on_term.sh", "/usr/bin/peer_front")
    version = said("chroot", root, "/usr/bin/peer_front", "--version").split()[-1]
    told += said("chroot", root, "dpkg", "--purge", "peer-front")
    theirs = ("usr/bin/peer_front", "etc/default/peer_front", "etc/peer_front.toml")
    left = [path for path in theirs if os.path.exists(os.path.join(root, path))]
    if "status" in told or left:
        print(told, left)
    return served and version == VERSION and not left


def unit_is_taken():
    """Whether systemd takes the unit of the package, if systemd is here. The paths in it are where the package is taken apart."""
    if shutil.which("systemd-analyze") is None:
        print("systemd-analyze is not here: the unit is not verified")
        return True
    folder = os.path.join(ROOM, "unit")
    subprocess.run(["dpkg-deb", "--extract", PACKAGE, folder], check=True)
    with open(os.path.join(folder, "usr/lib/systemd/system/peer_front.service"), encoding="utf-8") as text:
        unit = text.read().replace("=/usr/lib/peer_front", f"={folder}/usr/lib/peer_front")
    path = os.path.join(folder, "peer_front.service")
    with open(path, "w", encoding="utf-8") as text:
        text.write(unit)
    told = subprocess.run(["systemd-analyze", "verify", path], capture_output=True, text=True, check=False)
    return told.returncode == 0 and path not in told.stderr and "User=peer_front" in unit


if __name__ == "__main__":
    try:
        rows = [same_bytes, sums_hold, archive_serves, man_page_names_flags, package_says_what_it_needs, file_is_taken, unit_is_taken]
        run_rows([*rows, installed_serves])
    finally:
        shutil.rmtree(ROOM, ignore_errors=True)
        sys.stdout.flush()
