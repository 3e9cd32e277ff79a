"""A server that people upload to, and what it asked of the system meanwhile, as strace tells it.

Moments are numbers that grow: a call begins at the one of the trace's line that it begins on, and ends at the one behind that of the line that
it ends on. What one call waits for ends, in the trace too, before that call begins: strace holds a thread at both.
"""

from __future__ import annotations

import bisect
import os
import random
import re
import shutil
import signal
import socket
import stat
import subprocess
import tempfile
import threading
import time
from collections.abc import Callable, Iterable, Iterator
from typing import NamedTuple

from editors import Command, Editor
from kept_file import read
from serving import Lost, Replies, Reply, Server, connect, request

PORTS = range(23000, 24000)
NEVER = 1 << 62  # the moment at which a call ends that doesn't
SYNCS = ("fsync", "fdatasync")
TRACED = (
    "open", "openat", "creat", "write", "writev", "pwrite64", "pwritev", "pwritev2", "fsync", "fdatasync", "truncate", "ftruncate", "fallocate",
    "link", "linkat", "rename", "renameat", "renameat2", "unlink", "unlinkat", "sendto", "sendmsg",
)  # fmt: skip
STRACE = "exec strace -f --seccomp-bpf -q -yy -xx -s 268435456 -e trace={} -o {} {}"
ELSEWHERE = "AAA-11"  # a zone eleven hours east: what counts seconds since 1970 asks nothing of it
BURST = 3  # requests that are sent at once, at most
READS, PAUSE = 900, 0.005  # of one link, and seconds between two
AROUND = 5  # nodes before the newest one that was read, and a tenth of those behind it, of which one is read next
LINE = re.compile(r"(\d+) +(.*)")
UNFINISHED, RESUMED = " <unfinished ...>", re.compile(r"<\.\.\. \w+ resumed>")
CALL = re.compile(r"(\w+)\((.*)\) += (-?\d+)(?:<.*>)?(?: .*)?$")
BYTE = re.compile(r"\\x([0-9a-f]{2})")


# ---- what a trace tells


class Call(NamedTuple):
    name: str
    begun: int
    ended: int
    words: list[str]
    result: int

    def target(self) -> str:
        """The path or the socket that the descriptor stands for."""
        return self.words[0].partition("<")[2].rpartition(">")[0]

    def data(self) -> bytes:
        """What was written, as far as the call took it."""
        return bytes.fromhex(self.words[1].strip('"').replace("\\x", ""))[: max(self.result, 0)]

    def paths(self) -> list[str]:
        return [it.strip('"') for it in self.words if it.startswith('"')]

    def makes(self) -> bool:
        """Whether the last of its paths names a file behind it that it may not have named before."""
        return self.name in ("link", "linkat") or any("O_CREAT" in it for it in self.words[1:] if not it.startswith('"'))


def legible(word: str) -> str:
    """A path or a descriptor's name as it is; bytes that are written stay as strace has them."""
    return os.fsdecode(BYTE.sub(lambda it: chr(int(it[1], 16)), word).encode("latin-1"))


def call_of(text: str, begun: int, ended: int) -> Call | None:
    """What is told of a call; none of one that ended with its thread, or of a thread's end."""
    match = CALL.match(text)
    if match is None:
        return None
    name, words = match[1], match[2].split(", ")
    writes = name.startswith(("write", "pwrite", "send"))
    return Call(name, begun, ended, [it if writes and i == 1 else legible(it) for i, it in enumerate(words)], int(match[3]))


def calls_of(lines: Iterable[str]) -> Iterator[Call]:
    """The calls, in the order in which they end."""
    halves: dict[str, tuple[int, str]] = {}
    for number, line in enumerate(lines):
        match = LINE.match(line)
        thread, text = match.groups() if match else ("", "")
        begun = 2 * number
        if text.endswith(UNFINISHED) and not text.startswith("<..."):
            halves[thread] = begun, text.removesuffix(UNFINISHED)
            continue
        if resumed := RESUMED.match(text):
            begun, half = halves.pop(thread)
            text = half + text[resumed.end() :]
        if call := call_of(text, begun, 2 * number + 1):
            yield call


class Change(NamedTuple):
    """A write at a place of a file, or, without bytes, the file's new length."""

    begun: int
    ended: int
    at: int
    data: bytes | None

    def apply(self, file: bytearray) -> None:
        if self.data is None:
            del file[self.at :]
        end = self.at + len(self.data or b"")
        file.extend(bytes(max(end - len(file), 0)))
        if self.data is not None:
            file[self.at : end] = self.data


def changes_of(calls: list[Call], path: str) -> Iterator[Change]:
    """What is done to the file that is made as `path`.new and then has the name `path`, in the order in which it is done."""
    places: dict[str, int] = {}  # of descriptors
    for call in calls:
        if call.name == "openat" and path in call.paths()[0]:
            places[f"{call.result}<"] = 0
        if call.result < 0 or call.target().removesuffix(".new") != path:
            continue
        number = call.words[0].partition("<")[0] + "<"
        if call.name == "pwrite64":
            yield Change(call.begun, call.ended, int(call.words[3]), call.data())
        if call.name == "write":
            yield Change(call.begun, call.ended, places[number], call.data())
            places[number] += call.result
        if call.name == "ftruncate":
            yield Change(call.begun, call.ended, int(call.words[1]), None)


def syncs_of(calls: list[Call], path: str) -> list[Call]:
    """The syncs of the file or folder that succeeded, in the order in which they began."""
    return sorted((it for it in calls if it.name in SYNCS and it.result == 0 and it.target() == path), key=lambda it: it.begun)


class Sent(NamedTuple):
    moment: int
    """At which the call began that sent the first byte."""
    reply: Reply


def replies_of(calls: list[Call], port: int) -> Iterator[Sent]:
    """What was sent on the link to this port of the other side."""
    sent = (it for it in calls if it.name in ("sendto", "write") and it.target().endswith(f"->127.0.0.1:{port}]"))
    sends = sorted(sent, key=lambda it: it.begun)
    parts = [it.data() for it in sends]
    starts = [0]
    for part in parts:
        starts.append(starts[-1] + len(part))
    replies = Replies(None, b"".join(parts))
    while replies.held:
        place = starts[-1] - len(replies.held)
        yield Sent(sends[bisect.bisect_right(starts, place) - 1].begun, replies.next())


# ---- people who upload


class Done(NamedTuple):
    """A change with its reply, and between which times of the clock it was asked for and answered."""

    command: Command
    since: float
    until: float
    reply: Reply


class Uploader(Editor):
    """An editor with one link until so many uploads are answered, who sends some of them at once, and keeps what was done."""

    def __init__(self, user: int, seed: int, uploads: int) -> None:
        super().__init__(user, seed)
        self.left, self.port = uploads, 0
        self.done: list[Done] = []

    def work(self, port: int, ends: threading.Event) -> None:
        try:
            with connect(port) as stream:
                self.port = stream.getsockname()[1]
                self.upload(stream)
        except (OSError, Lost) as why:
            self.faults.append(f"user {self.user} lost the link: {why!r}")

    def upload(self, stream: socket.socket) -> None:
        replies = Replies(stream)
        while self.left > 0:
            burst, since = self.burst(), time.time()
            stream.sendall(b"".join(request(method, path, f"token{self.user}", body) for method, path, body in map(Command.request, burst)))
            for command in burst:
                reply = replies.next()
                self.done.append(Done(command, since, time.time(), reply))
                self.answered(command, reply)
                self.left -= command.kind == "upload"

    def burst(self) -> list[Command]:
        """The next change, and behind an upload some more, which name nothing that it makes."""
        burst = [self.next()]
        if burst[0].kind == "upload":
            for _ in range(min(self.draw.randrange(BURST), self.left - 1)):
                self.turn += 1
                burst.append(Command("upload", self.changeset, todo=self.creation()))
        return burst

    def after(self, count: int) -> Editor:
        """Who has done no more than so many of the changes."""
        known = Editor(self.user, 0)
        for it in self.done[:count]:
            known.answered(it.command, it.reply)
        return known


class Watcher:
    """Somebody who reads the histories of nodes that the others make, on one link, and keeps the replies."""

    def __init__(self, seed: int) -> None:
        self.draw = random.Random(seed)
        self.newest, self.port = 1, 0
        self.read: list[tuple[int, Reply]] = []
        self.faults: list[str] = []

    def work(self, port: int, ends: threading.Event) -> None:
        try:
            with connect(port) as stream:
                self.port = stream.getsockname()[1]
                replies = Replies(stream)
                while len(self.read) < READS and not ends.wait(PAUSE):
                    number = self.draw.randint(max(1, self.newest - AROUND), self.newest + 10 * AROUND)
                    stream.sendall(request("GET", f"node/{number}/history"))
                    self.took(number, replies.next())
        except (OSError, Lost) as why:
            self.faults.append(f"who reads lost the link: {why!r}")

    def took(self, number: int, reply: Reply) -> None:
        self.read.append((number, reply))
        if reply.status == 200:
            self.newest = max(self.newest, number)


def makers(people: list[Uploader]) -> dict[tuple[int, int], tuple[int, int]]:
    """Of each version of a node the user who made it, and by which of the user's changes, from 1."""
    made = {}
    for it in people:
        for number, done in enumerate(it.done):
            rows = done.reply.read()["diffResult"] if done.command.kind == "upload" else []
            for (_, asked), row in zip(done.command.todo, rows):
                if asked["type"] == "node":
                    version = row.get("new_version") or asked["version"] + 1
                    made[row.get("new_id", row["old_id"]), version] = it.user, number + 1
    return made


# ---- a traced run


class Told(NamedTuple):
    """From a moment on somebody is told of a change: the user who made it, and which of the user's changes it is, from 1."""

    moment: int
    user: int
    number: int


class Traced(NamedTuple):
    """A run on a new file: the file as it was left, the calls, and the people with what they were told."""

    path: str
    file: bytes
    calls: list[Call]
    people: list[Uploader]
    watcher: Watcher

    def replies(self, it: Uploader | Watcher) -> list[Sent]:
        return list(replies_of(self.calls, it.port))

    def reads(self) -> Iterator[Told]:
        """What the replies to reads tell of."""
        made = makers(self.people)
        for (number, _), sent in zip(self.watcher.read, self.replies(self.watcher)):
            for element in sent.reply.read()["elements"] if sent.reply.status == 200 else ():
                yield Told(sent.moment, *made[number, element["version"]])

    def told(self) -> list[Told]:
        """What all replies tell of."""
        own = (Told(sent.moment, it.user, number + 1) for it in self.people for number, sent in enumerate(self.replies(it)))
        return [*own, *self.reads()]


def own_port() -> int:
    """A free one of the trials' own."""
    for port in random.sample(PORTS, len(PORTS)):
        with socket.socket() as free:
            try:
                free.bind(("127.0.0.1", port))
            except OSError:
                continue
            return port
    raise SystemExit(f"no port from {PORTS[0]} to {PORTS[-1]} is free")


def users(links: int) -> str:
    return "".join(f"{i + 1} token{i + 1} user user{i + 1}\n" for i in range(links))


def hindrance(program: str) -> str:
    """Why no traced run of the program can be had; empty where it can."""
    if not os.access(program, os.X_OK):
        return f"there is no program {program}: ./osm build makes it"
    if not shutil.which("strace"):
        return "there is no strace: apt-get install strace"
    tried = subprocess.run(["strace", "-f", "--seccomp-bpf", "-q", "-o", os.devnull, "true"], capture_output=True, text=True, check=False)
    return f"strace may trace nothing here: {tried.stderr.strip()}" if tried.returncode else ""


def tracer(program: str, folder: str) -> tuple[str, str]:
    """A script that runs the program under strace, and where the trace will be."""
    script, trace = os.path.join(folder, "traced"), os.path.join(folder, "trace")
    with open(script, "w") as file:
        file.write(f'#!/bin/sh\nexport TZ={ELSEWHERE}\n{STRACE.format(",".join(TRACED), trace, os.path.abspath(program))} "$@"\n')
    os.chmod(script, stat.S_IRWXU)
    return script, trace


def calls_on(program: str, path: str, links: int, work: Callable[[int], None]) -> list[Call]:
    """The calls of a server that keeps its journal at this path, for so many users, until the work is done that is given its port."""
    with tempfile.TemporaryDirectory() as folder:
        script, trace = tracer(program, folder)
        with Server(script, links + 2, users(links), command=("serve", "--journal", path), port=own_port()) as server:
            work(server.port)
            os.kill(server.pid, signal.SIGTERM)
            server.process.wait()
        with open(trace) as lines:
            return list(calls_of(lines))


def traced(program: str, links: int, uploads: int, seed: int) -> Traced:
    """Has so many uploads go over so many links to a traced server on a new file, while one more reads; none may be refused."""
    shares = [uploads // links + (i < uploads % links) for i in range(links)]
    people = [Uploader(i + 1, seed * 1000 + i, share) for i, share in enumerate(shares)]

    watcher = Watcher(seed)

    def work(port: int) -> None:
        ends = threading.Event()
        threads = [threading.Thread(target=it.work, args=(port, ends)) for it in people]
        reading = threading.Thread(target=watcher.work, args=(port, ends))
        for thread in (reading, *threads):
            thread.start()
        for thread in threads:
            thread.join()
        ends.set()
        reading.join()

    with tempfile.TemporaryDirectory() as folder:
        path = os.path.join(folder, "journal")
        calls = calls_on(program, path, links, work)
        if faults := [fault for it in people for fault in it.faults] + watcher.faults:
            raise SystemExit("\n".join(faults))
        return Traced(path, read(path), calls, people, watcher)
