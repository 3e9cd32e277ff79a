#!/usr/bin/python3
"""Tries the fleet's units and site, as far as that goes without systemd: examples/deploy/fleet/try_units.py [--program PROGRAM]
    [--mirror PROGRAM], as root.

Puts units, programs and scripts into a folder as README.md says. There `systemd-analyze verify` has to find nothing, `systemd-sysusers` has
to make the users, and nginx has to take the site. Then each unit's ExecStart line is run on a free port, with the unit's user and
capabilities and without new privileges, in front of a Redis; and through nginx and TLS changes are made and read, while a carrier ends, and a
mirror. Needs Debian's curl, nginx-light, openssl, python3-aiohttp, python3-redis, redis-server and systemd. Status 0 where all is right.
"""

from __future__ import annotations

import argparse
import configparser
import os
import shutil
import subprocess
import sys
import tempfile
import time
from collections.abc import Callable
from contextlib import ExitStack
from functools import partial

HERE = os.path.dirname(os.path.abspath(__file__))
DEPLOY = os.path.dirname(HERE)
TOP = os.path.dirname(os.path.dirname(DEPLOY))
sys.path[1:1] = [os.path.dirname(DEPLOY), os.path.join(TOP, "examples", "fleet")]

from nginx import MAIN, words_of
from running import Redis, wait_until
from serving import Wrong, free_port, trial_status

LIB, UNITS = "usr/lib/hegunsap", "usr/lib/systemd/system"
FLEET = ("keeper", "writer", "carrier@", "mirror@", "level")
NAMES = ("map.example.org", "osm.example.org")
TOKEN = "HEGUNSAP_TOKEN=bobtoken\n"
OSM = """#!/bin/sh
case "$1" in mirror) shift; exec {mirror} "$@" ;; *) exec {program} "$@" ;; esac
"""
READERS = 20


def run(*words: str, text: str = "") -> str:
    done = subprocess.run(words, input=text, capture_output=True, text=True, timeout=120, check=False)
    if done.returncode:
        raise Wrong(f"{' '.join(words)[:200]} ended with status {done.returncode}: {done.stdout[-500:]}{done.stderr[-500:]}")
    return done.stdout + done.stderr


def until(what: str, test: Callable[[], bool], seconds: float = 60) -> None:
    end = time.monotonic() + seconds
    while not test():
        if time.monotonic() > end:
            raise Wrong(f"{what}: not within {seconds:.0f} seconds")
        time.sleep(0.1)


class Root:
    """A folder in the place of /, with what README.md puts there, and ports of its own."""

    def __init__(self, folder: str, words: argparse.Namespace) -> None:
        self.folder, self.redis = folder, Redis(folder)
        self.ports = {name: free_port() for name in ("8080", "8082", "8083", "8084", "8085", "8000", "443")}
        shutil.copytree("/usr/lib/systemd/system", self.path(UNITS), symlinks=True)
        self.write(f"{LIB}/osm", OSM.format(program=os.path.abspath(words.program), mirror=os.path.abspath(words.mirror)), 0o755)
        for name in ("gateway", "replication", "examples/fleet"):
            shutil.copytree(os.path.join(TOP, name), self.path(f"{LIB}/{name}"), ignore=shutil.ignore_patterns("tests", "__pycache__"))
        shutil.copy(os.path.join(TOP, "examples", "packages.py"), self.path(f"{LIB}/examples"))
        self.write("etc/hegunsap/users.txt", "1 alicetoken user alice\n2 bobtoken moderator bob\n", 0o640)
        for name in ("writer", "carrier"):
            self.write(f"etc/hegunsap/{name}", f"{TOKEN}HEGUNSAP_ENGINE={self.redis.url}\n", 0o600)
        for name in ("map", "gateway"):
            shutil.copy(os.path.join(DEPLOY, f"hegunsap-{name}.service"), self.path(UNITS))
        shutil.copytree(os.path.join(DEPLOY, "hegunsap-.service.d"), self.path(f"{UNITS}/hegunsap-.service.d"))
        for it in os.scandir(HERE):
            if it.name.startswith("hegunsap-fleet-"):
                self.copy(it.path, f"{UNITS}/{it.name}")

    def path(self, name: str) -> str:
        return os.path.join(self.folder, name)

    def copy(self, source: str, name: str) -> None:
        if os.path.isdir(source):
            shutil.copytree(source, self.path(name))
        else:
            shutil.copy(source, self.path(name))

    def write(self, name: str, text: str, mode: int) -> None:
        os.makedirs(os.path.dirname(self.path(name)), exist_ok=True)
        with open(self.path(name), "w", encoding="utf-8") as file:
            file.write(text)
        os.chmod(self.path(name), mode)

    def read(self, name: str) -> bytes:
        with open(self.path(name), "rb") as file:
            return file.read()

    def moved(self, text: str) -> str:
        """With the folder's paths in the place of the machine's, and its ports."""
        for name in ("/usr/lib/hegunsap", "/etc/hegunsap", "/var/lib/hegunsap", "/run/nginx.pid"):
            text = text.replace(name, self.path(name[1:]))
        for name, port in self.ports.items():
            text = text.replace(f"127.0.0.1:{name}", f"127.0.0.1:{port}")
        return text

    def verify(self) -> None:
        named = [f"hegunsap-fleet-{it.replace('@', '@8083')}.service" for it in FLEET]
        said = run("systemd-analyze", f"--root={self.folder}", "--man=no", "verify", *named)
        if found := [line for line in said.splitlines() if "hegunsap" in line]:
            raise Wrong("\n".join(found))
        print(f"systemd-analyze verify finds nothing in {len(named)} units")

    def make_users(self) -> None:
        """Those of the package, and those of the fleet."""
        self.write("usr/lib/sysusers.d/hegunsap.conf", "u hegunsap - - /var/lib/hegunsap\n", 0o644)
        shutil.copy(os.path.join(HERE, "sysusers.conf"), self.path("usr/lib/sysusers.d/hegunsap-fleet.conf"))
        run("systemd-sysusers", f"--root={self.folder}")
        self.users: dict[str, tuple[int, list[int]]] = {}
        with open(self.path("etc/passwd"), encoding="utf-8") as file:
            for fields in (line.split(":") for line in file):
                self.users[fields[0]] = (int(fields[2]), [int(fields[3])])
        with open(self.path("etc/group"), encoding="utf-8") as file:
            for name, _, number, members in (line.strip().split(":") for line in file):
                for member in filter(None, members.split(",")):
                    self.users[member][1].append(int(number))
        os.chown(self.path("etc/hegunsap/users.txt"), 0, self.users["hegunsap"][0])
        print(f"systemd-sysusers makes {', '.join(sorted(it for it in self.users if it.startswith('hegunsap-fleet')))}")


class Unit:
    """A service as its files together have it, which is started as systemd would, but for what the kernel does for it besides."""

    def __init__(self, root: Root, name: str, instance: str = "") -> None:
        self.root, self.name, self.settings = root, name, {}  # type: Root, str, dict[str, str]
        kind = name.removesuffix("@")
        more = [it for prefix in ("hegunsap-", "hegunsap-fleet-", name) if name.startswith(prefix) for it in self.beside(f"{prefix}.service.d")]
        # A line of a file whose name comes later holds, and the unit's own file comes first.
        for it in (f"{name}.service", *sorted(more, key=os.path.basename)):
            parser = configparser.RawConfigParser(strict=False)
            parser.optionxform = str  # type: ignore[assignment]
            parser.read(root.path(f"{UNITS}/{it}"))
            self.settings |= {key: value.replace("%p", kind).replace("%i", instance) for key, value in parser["Service"].items()}

    def beside(self, folder: str) -> list[str]:
        path = self.root.path(f"{UNITS}/{folder}")
        return [os.path.join(folder, it) for it in os.listdir(path)] if os.path.isdir(path) else []

    def start(self) -> None:
        user, groups = self.root.users[self.settings["User"]]
        state = self.root.path(f"var/lib/{self.settings['StateDirectory']}")
        os.makedirs(state, exist_ok=True)
        os.chown(state, user, groups[0])
        os.chmod(state, int(self.settings["StateDirectoryMode"], 8))
        environment = {"PATH": "/usr/sbin:/usr/bin:/sbin:/bin"}
        if file := self.settings.get("EnvironmentFile"):
            with open(self.root.moved(file), encoding="utf-8") as text:
                environment |= dict(line.strip().split("=", 1) for line in text)
        capabilities = ["-all", *(f"+{it.removeprefix('CAP_').lower()}" for it in self.settings["AmbientCapabilities"].split())]
        words = ["setpriv", f"--reuid={user}", f"--regid={groups[0]}", f"--groups={','.join(map(str, groups))}", "--no-new-privs"]
        words += [f"--{kind}={','.join(capabilities)}" for kind in ("inh-caps", "ambient-caps", "bounding-set")]
        inside = f"cd {state} && umask {self.settings['UMask']} && exec {self.root.moved(self.settings['ExecStart'])}"
        self.process = subprocess.Popen([*words, "sh", "-c", inside], env=environment, stdin=subprocess.DEVNULL)

    def stop(self) -> None:
        """By SIGTERM; systemd takes an end by that signal for one in order."""
        self.process.terminate()
        if (status := self.process.wait(60)) not in (0, -15, 143):
            raise Wrong(f"{self.name} ended with status {status}")


class Front:
    """nginx with the site, and calls through it."""

    def __init__(self, root: Root) -> None:
        self.root = root
        tls = root.path("etc/hegunsap/tls")
        os.makedirs(tls)
        names = ",".join(f"DNS:{it}" for it in NAMES)
        made = ["openssl", "req", "-x509", "-newkey", "ec", "-pkeyopt", "ec_paramgen_curve:P-256", "-nodes", "-subj", f"/CN={NAMES[0]}"]
        run(*made, "-addext", f"subjectAltName={names}", "-keyout", f"{tls}/key.pem", "-out", f"{tls}/certificate.pem")
        with open(os.path.join(HERE, "nginx.conf"), encoding="utf-8") as file:
            site = "".join(line for line in file if "listen [::]" not in line)
        site = root.moved(site).replace("listen 443", f"listen 127.0.0.1:{root.ports['443']}")
        root.write("nginx/site.conf", site, 0o644)
        main = MAIN.format(folder=root.path("nginx"), processes=2).replace(root.path("nginx/nginx.pid"), root.path("run/nginx.pid"))
        root.write("nginx/main.conf", main, 0o644)
        root.write("run/none", "", 0o644)
        run(*words_of(root.path("nginx")), "-t", "-q")
        print("nginx -t takes the site")
        self.process = subprocess.Popen(words_of(root.path("nginx")))

    def stop(self) -> None:
        self.process.terminate()
        self.process.wait(60)

    def ask(self, name: str, path: str, *more: str) -> tuple[int, str]:
        port = self.root.ports["443"]
        words = ["curl", "-s", "-w", "%{stderr}%{http_code}", "--cacert", self.root.path("etc/hegunsap/tls/certificate.pem"), *more]
        words += ["--resolve", f"{name}:{port}:127.0.0.1", f"https://{name}:{port}/{path}"]
        done = subprocess.run(words, capture_output=True, text=True, timeout=60, check=False)
        return int(done.stderr[-3:] or 0), done.stdout

    def change(self) -> str:
        """A new changeset, by its path."""
        status, text = self.ask(NAMES[0], "api/0.6/changeset/create", "-X", "PUT", "-H", "Authorization: Bearer alicetoken")
        if status != 200:
            raise Wrong(f"a changeset: {status} {text}")
        return f"api/0.6/changeset/{text.strip()}"

    def all_read(self, path: str) -> bool:
        """From addresses of the loopback, so that each mirror that is in is asked."""
        return all(self.ask(NAMES[0], path, "--interface", f"127.0.1.{1 + it}")[0] == 200 for it in range(READERS))


def is_in(root: Root, port: int) -> bool:
    try:
        with open(root.path("var/lib/hegunsap-fleet-level/mirrors.conf"), encoding="utf-8") as file:
            return any(f":{port} " in line and "down" not in line for line in file)
    except FileNotFoundError:
        return False


def listens(port: int) -> bool:
    """Asked of the system: a link would be the one that a keeper serves."""
    with open("/proc/net/tcp", encoding="ascii") as file:
        return any(words[1].endswith(f":{port:04X}") and words[3] == "0A" for words in (line.split() for line in file))


def begun(root: Root, stack: ExitStack, name: str, instance: str = "", more: str = "") -> Unit:
    """A unit that runs until the end of the stack."""
    unit = Unit(root, name, instance)
    unit.settings["ExecStart"] += more
    unit.start()
    stack.callback(unit.process.kill)
    return unit


def units(root: Root, stack: ExitStack) -> None:
    begin = partial(begun, root, stack)
    ports = [root.ports[it] for it in ("8083", "8084")]
    keeper = begin("hegunsap-fleet-keeper")
    until("the keeper listens", lambda: listens(root.ports["8085"]))
    server = begin("hegunsap-map", more=f"+tcp://127.0.0.1:{root.ports['8085']}")
    begin("hegunsap-gateway", more=f" --public-url https://{NAMES[1]}")
    writer = begin("hegunsap-fleet-writer")
    mirrors = [begin("hegunsap-fleet-mirror@", str(port)) for port in ports]
    carriers = [begin("hegunsap-fleet-carrier@", str(port)) for port in ports]
    level = begin("hegunsap-fleet-level")
    until("the mirrors are in", lambda: all(is_in(root, port) for port in ports))
    front = Front(root)
    stack.callback(front.stop)
    until("nginx answers", lambda: front.ask(NAMES[0], "api/0.6/changesets")[0] == 200)
    first = front.change()
    until("all read what is new", lambda: front.all_read(first))
    until("the gateway answers", lambda: "<api>" in front.ask(NAMES[1], "api/0.6/capabilities")[1])
    print("each unit's ExecStart line runs as its user: a change comes through TLS to the server and to both mirrors, and the gateway answers")
    carriers[0].stop()
    second, start = front.change(), time.monotonic()
    until("the mirror is out", lambda: not is_in(root, ports[0]))
    seconds = time.monotonic() - start
    until("all read what is new", lambda: front.all_read(second))
    print(f"a carrier is ended: its mirror is out {seconds:.1f} s behind the next change, and everybody reads that")
    carriers[0].start()
    stack.callback(carriers[0].process.kill)
    until("the mirror is in", lambda: is_in(root, ports[0]))
    mirrors[1].stop()
    until("the mirror is out", lambda: not is_in(root, ports[1]))
    mirrors[1].start()
    stack.callback(mirrors[1].process.kill)
    until("the mirror is in", lambda: is_in(root, ports[1]))
    wait_until("the mirror", 2, ports[1], 60)
    print("a mirror is ended and started: it goes on from its journal, and is in again")
    if root.read("var/lib/hegunsap-fleet-keeper/map.journal") != root.read("var/lib/hegunsap/map.journal"):
        raise Wrong("the keeper's copy is another file than the server's journal")
    print("the keeper has the server's journal, byte for byte")
    for unit in (level, *carriers, writer, *mirrors, server, keeper):
        unit.stop()
    print("each ends in order by SIGTERM")


def tried(words: argparse.Namespace) -> None:
    with tempfile.TemporaryDirectory() as folder, ExitStack() as stack:
        os.chmod(folder, 0o755)
        os.umask(0o022)
        root = Root(folder, words)
        stack.callback(root.redis.kill)
        root.verify()
        root.make_users()
        units(root, stack)


def main() -> int:
    parser = argparse.ArgumentParser(usage=(__doc__ or "").split("\n\n")[0].partition(": ")[2])
    parser.add_argument("--program", default=os.path.join(TOP, "crates", "osm", "out", "osm"))
    parser.add_argument("--mirror", default=os.path.join(TOP, "crates", "osm_mirror", "out", "osm_mirror"))
    words = parser.parse_args()
    if os.geteuid():
        print("it starts services as their users: only root can")
        return 2
    return trial_status(partial(tried, words))


if __name__ == "__main__":
    sys.exit(main())
