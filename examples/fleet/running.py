"""What a trial of the fleet starts and looks at: an engine, the programs of this folder, nginx, and mirrors that are watched."""

from __future__ import annotations

import os
import pwd
import signal
import subprocess
import sys
import threading
import time
from collections.abc import Callable
from typing import Protocol

HERE = os.path.dirname(os.path.abspath(__file__))
sys.path.insert(1, os.path.join(HERE, ".."))

from nginx import MAIN, words_of
from serving import Link, Lost, Server, Unanswered, Wrong, free_port, wait_for_answer

USERS = "1 alicetoken user alice\n2 bobtoken moderator bob\n"
POSTGRES = "/usr/lib/postgresql/15/bin"
MIRROR_WORKERS = 24


def url(port: int) -> str:
    return f"http://127.0.0.1:{port}"


def number(port: int) -> int:
    reply = Link(port, kept=1).ask("GET", "replication/state")
    return int(reply.read()["sequenceNumber"])


def answers(port: int) -> bool:
    """Whether a server, or what stands before it, answers a read, whatever it tells."""
    try:
        Link(port, kept=1).ask("GET", "node/1")
    except (OSError, Lost):
        return False
    return True


def with_token() -> dict[str, str]:
    """The environment with a moderator's token, since the words of a program can be read by everybody."""
    return os.environ | {"HEGUNSAP_TOKEN": "bobtoken"}


class Process:
    """A command that runs from `start` to `kill`, again and again; `said` has the lines of its last run."""

    def __init__(self, words: list[str]) -> None:
        self.words = words
        self.start()

    def start(self) -> None:
        self.process = subprocess.Popen(self.words, stderr=subprocess.PIPE, stdout=subprocess.DEVNULL, text=True, env=with_token())
        self.said: list[str] = []
        self.reader = threading.Thread(target=self.read, args=(self.process, self.said), daemon=True)
        self.reader.start()

    def read(self, process: subprocess.Popen[str], said: list[str]) -> None:
        for line in process.stderr or ():
            said.append(line.rstrip())

    def kill(self) -> None:
        self.process.kill()
        self.process.wait()

    def end(self, seconds: float = 30) -> int:
        """The status with which it ends by itself."""
        status = self.process.wait(seconds)
        self.reader.join()
        return status


def script(name: str, *words: str) -> Process:
    """One of this folder's programs, with a moderator's token."""
    return Process([sys.executable, os.path.join(HERE, name), *words])


class EngineRun(Protocol):
    """An engine that can be killed and started again over what it has on its disk."""

    url: str

    def start(self) -> None:
        ...

    def kill(self) -> None:
        ...


class Redis:
    """With the lines of redis.conf, and some words behind them."""

    def __init__(self, folder: str, name: str = "redis", more: tuple[str, ...] = ()) -> None:
        self.folder, self.port, self.more = os.path.join(folder, name), free_port(), more
        os.mkdir(self.folder)
        self.url = f"redis://127.0.0.1:{self.port}"
        self.start()

    def start(self) -> None:
        words = ["redis-server", os.path.join(HERE, "redis.conf"), "--dir", self.folder, "--port", str(self.port), *self.more]
        self.process = subprocess.Popen(words, stdout=subprocess.DEVNULL)

    def kill(self) -> None:
        self.process.kill()
        self.process.wait()


class Postgres:
    """A cluster of its own, of the user postgres where this is root."""

    def __init__(self, folder: str) -> None:
        self.folder, self.port = os.path.join(folder, "postgres"), free_port()
        os.mkdir(self.folder)
        self.before: list[str] = []
        if os.geteuid() == 0:
            os.chmod(folder, 0o711)
            os.chown(self.folder, pwd.getpwnam("postgres").pw_uid, -1)
            self.before = ["runuser", "-u", "postgres", "--"]
        self.data = os.path.join(self.folder, "data")
        words = [*self.before, f"{POSTGRES}/initdb", "-D", self.data, "-A", "trust", "-U", "postgres"]
        subprocess.run(words, check=True, stdout=subprocess.DEVNULL, cwd=self.folder)
        self.url = f"postgresql://postgres@127.0.0.1:{self.port}/postgres"
        self.start()

    def start(self) -> None:
        options = ["-c", "listen_addresses=127.0.0.1", "-p", str(self.port), "-c", f"unix_socket_directories={self.folder}"]
        words = [*self.before, f"{POSTGRES}/postgres", "-D", self.data, *options]
        for _ in range(20):  # it ends at once while the links of the one before have yet to see that it was killed
            self.process = subprocess.Popen(words, stdout=subprocess.DEVNULL, stderr=subprocess.DEVNULL, cwd=self.folder)
            try:
                self.process.wait(0.3)
            except subprocess.TimeoutExpired:
                return
        raise Wrong("PostgreSQL doesn't start")

    def kill(self) -> None:
        """The first process of the cluster; the others see that and end."""
        with open(os.path.join(self.data, "postmaster.pid"), encoding="utf-8") as file:
            os.kill(int(file.readline()), signal.SIGKILL)
        self.process.wait()


ENGINES: dict[str, Callable[[str], EngineRun]] = {"redis": Redis, "postgresql": Postgres}


class Watch(threading.Thread):
    """Asks a mirror for its number on one link, for as long as that lasts, and keeps what came."""

    def __init__(self, port: int) -> None:
        super().__init__(daemon=True)
        self.link, self.numbers, self.goes_on = Link(port), [0], True
        self.start()

    def run(self) -> None:
        while self.goes_on:
            try:
                self.numbers.append(int(self.link.ask("GET", "replication/state").read()["sequenceNumber"]))
            except (OSError, Lost):
                return
            time.sleep(0.01)

    def judge(self) -> None:
        self.goes_on = False
        self.join()
        for before, after in zip(self.numbers, self.numbers[1:]):
            if after < before:
                raise Wrong(f"port {self.link.port}: the number went back from {before} to {after}")


class Front:
    """nginx before a server and mirrors, which are all in; `key` tells readers apart."""

    def __init__(self, folder: str, server: int, mirrors: list[int], processes: int, key: str = "$remote_addr") -> None:
        self.folder, self.port = folder, free_port()
        self.included, self.pid = os.path.join(folder, "mirrors.conf"), os.path.join(folder, "nginx.pid")
        with open(os.path.join(HERE, "nginx.conf"), encoding="utf-8") as file:
            text = file.read().replace("127.0.0.1:8080;", f"127.0.0.1:{server};").replace("127.0.0.1:8090;", f"127.0.0.1:{self.port};")
        text = text.replace("/var/lib/hegunsap-fleet-level/mirrors.conf", self.included).replace("$remote_addr", key)
        included = "".join(f"server 127.0.0.1:{port} max_fails=1 fail_timeout=2s;\n" for port in mirrors)
        for path, what in (("site.conf", text), ("main.conf", MAIN.format(folder=folder, processes=processes)), ("mirrors.conf", included)):
            with open(os.path.join(folder, path), "w", encoding="utf-8") as file:
                file.write(what)
        os.chmod(folder, 0o755)
        subprocess.run([*words_of(folder), "-t", "-q"], check=True)
        self.process = subprocess.Popen(words_of(folder))

    def __enter__(self) -> Front:
        try:
            wait_for_answer("nginx", self.process, lambda: answers(self.port))
        except Unanswered as why:
            raise Wrong(str(why)) from None
        return self

    def __exit__(self, *_: object) -> None:
        self.process.send_signal(signal.SIGTERM)
        self.process.wait()


def new_mirror(program: str, port: int = 0, until_level: int = 0) -> Server:
    """One that answers reads only while it is known to be level, where there are seconds."""
    words = ("--until-level", str(until_level)) if until_level else ()
    return Server(program, MIRROR_WORKERS, USERS, command=words, port=port)


def is_known(port: int) -> bool:
    """Whether a mirror answers reads, so is known to be level."""
    try:
        reply = Link(port, kept=1).ask("GET", "changesets")
    except (OSError, Lost):
        return False
    if reply.status != 200 and reply.read() != {"error": "not_level"}:
        raise Wrong(f"port {port}: {reply.status} {reply.body.decode()}")
    return reply.status == 200


def wait_until_known(port: int, wanted: bool = True, seconds: float = 60) -> float:
    """Until it answers reads, or until it doesn't, and how long that took."""
    start = time.monotonic()
    while is_known(port) is not wanted:
        if time.monotonic() - start > seconds:
            raise Wrong(f"after {seconds} seconds the mirror {port} {'answers no reads' if wanted else 'still answers reads'}")
        time.sleep(0.01)
    return time.monotonic() - start


def wait_until(what: str, wanted: int, port: int, seconds: float = 300) -> float:
    """Waits until a mirror has that number, and tells how long."""
    start, has = time.monotonic(), -1
    while has != wanted:
        if time.monotonic() - start > seconds:
            raise Wrong(f"{what} has {has} of {wanted} pieces after {seconds} seconds")
        time.sleep(0.01)
        try:
            has = number(port)
        except (OSError, Lost):
            has = -1
    return time.monotonic() - start


def kinds_of_reads(most: int) -> dict[str, list[str]]:
    """The nine kinds of reads, over a map of so many nodes and a way for each ten of them."""
    nodes, ways = range(1, most, 37), range(1, most // 10, 7)
    return {
        "element": [f"node/{it}" for it in nodes] + [f"way/{it}" for it in ways] + ["node/999999"],
        "version": ["node/10/1", "way/1/1", "way/1/2"],
        "history": ["node/10/history", "way/1/history"],
        "many": ["nodes?nodes=1,2,3", "ways?ways=1,2"],
        "full": [f"way/{it}/full" for it in ways],
        "referrers": ["node/10/ways", "node/10/relations", "way/1/relations"],
        "box": ["map?bbox=11.5,48.1,11.6,48.2"],
        "changesets": ["changesets", "changesets?user=1", "changeset/1", "changeset/2", "changeset/1/download"],
        "state": ["replication/state"],
    }


def same_reads(server: int, mirror: int, name: str, most: int) -> int:
    """Compares replies byte for byte, and tells how many kinds of reads they were of."""
    kinds = kinds_of_reads(most)
    links = Link(server), Link(mirror)
    for path in (path for paths in kinds.values() for path in paths):
        wanted, came = (link.ask("GET", path) for link in links)
        if (wanted.status, wanted.body) != (came.status, came.body):
            raise Wrong(f"{name}: GET {path}: {came.status} {came.body[:200]!r} in place of {wanted.status} {wanted.body[:200]!r}")
    return len(kinds)
