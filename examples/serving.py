"""What the programs of this folder share: a server that is started, and links to it."""

from __future__ import annotations

import json
import os
import random
import signal
import socket
import subprocess
import tempfile
import time
from collections import deque
from collections.abc import Callable, Iterable, Iterator, Sequence
from contextlib import contextmanager, suppress
from typing import Any, NamedTuple

TICKS: int = os.sysconf("SC_CLK_TCK")
OSM: str = os.path.join(os.path.dirname(os.path.abspath(__file__)), "..", "osm")


class Reply(NamedTuple):
    status: int
    body: bytes
    closes: bool

    def read(self) -> Any:
        return json.loads(self.body)


class Lost(Exception):
    """A link ended before its reply was whole."""


def request(method: str, path: str, token: str = "", body: Any = None, closes: bool = False) -> bytes:
    """The bytes of a request; a body of bytes stands as it is, any other is written as JSON."""
    data = b"" if body is None else body if isinstance(body, bytes) else json.dumps(body, separators=(",", ":")).encode()
    head = f"{method} /api/0.6/{path} HTTP/1.1\r\nHost: localhost\r\n"
    head += f"Authorization: Bearer {token}\r\n" if token else ""
    head += f"Content-Type: application/json\r\nContent-Length: {len(data)}\r\n" if data else ""
    return (head + ("Connection: close\r\n" if closes else "") + "\r\n").encode() + data


def connect(port: int, wait: float = 120) -> socket.socket:
    stream = socket.create_connection(("127.0.0.1", port), wait)
    stream.setsockopt(socket.IPPROTO_TCP, socket.TCP_NODELAY, 1)
    return stream


HELD: deque[socket.socket] = deque()
MOST_HELD = 200  # far fewer than the files that a program may have open; by then a server has its port itself


def free_port() -> int:
    """A port that nobody else is given: a socket has it, beside which a server that is told this port may listen."""
    while len(HELD) >= MOST_HELD:
        HELD.popleft().close()
    held = socket.socket()
    held.setsockopt(socket.SOL_SOCKET, socket.SO_REUSEADDR, 1)
    held.bind(("127.0.0.1", 0))
    HELD.append(held)
    return int(held.getsockname()[1])


class Replies:
    """The replies that come on a stream, one after another, behind the bytes that are held already."""

    def __init__(self, stream: socket.socket | None, held: bytes = b"") -> None:
        self.stream, self.held = stream, held

    def more(self) -> None:
        part = self.stream.recv(1 << 20) if self.stream else b""
        if not part:
            raise Lost(f"after {self.held[:60]!r}")
        self.held += part

    def next(self) -> Reply:
        while b"\r\n\r\n" not in self.held:
            self.more()
        head, _, self.held = self.held.partition(b"\r\n\r\n")
        first, *lines = head.decode().split("\r\n")
        fields = dict(line.lower().split(": ", 1) for line in lines)
        length = int(fields["content-length"])
        while len(self.held) < length:
            self.more()
        body, self.held = self.held[:length], self.held[length:]
        return Reply(int(first.split()[1]), body, fields.get("connection") == "close")


class Link:
    """A kept connection, made anew where the last reply said that it ends, and after so many requests."""

    def __init__(self, port: int, token: str = "", kept: int = 1000) -> None:
        self.port, self.token, self.kept = port, token, kept
        self.stream: socket.socket | None = None
        self.asked = self.links = 0

    def ask(self, method: str, path: str, body: Any = None) -> Reply:
        if self.stream is None:
            self.stream = connect(self.port)
            self.replies, self.asked, self.links = Replies(self.stream), 0, self.links + 1
        self.asked += 1
        self.stream.sendall(request(method, path, self.token, body, self.asked >= self.kept))
        reply = self.replies.next()
        if reply.closes:
            self.close()
        return reply

    def close(self) -> None:
        if self.stream is not None:
            self.stream.close()
            self.stream = None


@contextmanager
def small_disk(folder: str, size: int) -> Iterator[bool]:
    """Whether a disk of so many KiB stands at the folder; without the right to mount one there is none."""
    words = ["mount", "-t", "tmpfs", "-o", f"size={size}k", "none", folder]
    is_mounted = os.geteuid() == 0 and subprocess.run(words, stderr=subprocess.DEVNULL, check=False).returncode == 0
    try:
        yield is_mounted
    finally:
        if is_mounted:
            subprocess.run(["umount", "--lazy", folder], check=True)


def grown_disk(folder: str) -> None:
    """Gives it room for all that is tried."""
    subprocess.run(["mount", "-o", f"remount,size={1 << 20}k", folder], check=True)


class Wrong(Exception):
    """What isn't as it should be."""


def trial_status(play: Callable[[], object], name: str = "") -> int:
    """The status that a trial ends with: 1 where something is wrong, which is told behind its name."""
    try:
        play()
    except Wrong as why:
        print(f"{name}: wrong: {why}" if name else f"wrong: {why}", flush=True)
        return 1
    return 0


def tell_faults(faults: Sequence[str], most: int = 20) -> int:
    """Prints the first of them, and how many there are; with the status that a trial ends with."""
    for fault in faults[:most]:
        print("wrong:", fault)
    print(f"{len(faults)} wrong")
    return 1 if faults else 0


def family(pid: int) -> list[int]:
    """A process and all that it started, the last one last."""
    try:
        with open(f"/proc/{pid}/task/{pid}/children") as file:
            return [pid] + [it for child in file.read().split() for it in family(int(child))]
    except OSError:
        return []


class Unanswered(SystemExit):
    """A program that was started ended before it answered, or took too long."""


def takes_links(port: int) -> bool:
    try:
        connect(port).close()
    except OSError:
        return False
    return True


def wait_for_answer(name: str, process: subprocess.Popen[Any], answers: Callable[[], bool], seconds: float = 60) -> None:
    """Waits until a program that was started answers. One that takes too long is ended, with all that it started."""
    until = time.monotonic() + seconds
    while not answers():
        if process.poll() is not None:
            raise Unanswered(f"{name} ended with status {process.returncode}")
        if time.monotonic() > until:
            for pid in family(process.pid):
                with suppress(ProcessLookupError):
                    os.kill(pid, signal.SIGKILL)
            raise Unanswered(f"{name} doesn't answer within {seconds:g} seconds")
        time.sleep(0.05)


def seconds_of(pid: int) -> tuple[float, float]:
    """The processor time of a process so far, of the program itself and of the kernel for it."""
    with open(f"/proc/{pid}/stat") as file:
        fields = file.read().rpartition(")")[2].split()
    return int(fields[11]) / TICKS, int(fields[12]) / TICKS


class Server:
    """`PROGRAM serve` on a free port or that one, with these users, one line each, until the end of a `with`.

    `pid` is that of the program itself, where PROGRAM is a script that starts it. A mirror's program has no command. `given` is its input.
    """

    def __init__(
        self,
        program: str,
        workers: int,
        users: str,
        wait: float = 60,
        command: tuple[str, ...] = ("serve",),
        port: int = 0,
        given: int = subprocess.DEVNULL,
    ) -> None:
        self.folder = tempfile.TemporaryDirectory()
        path = os.path.join(self.folder.name, "users.txt")
        with open(path, "w") as file:
            file.write(users)
        self.port = port or free_port()
        words = [*command, "--users", path, "--listen", f"127.0.0.1:{self.port}", "--workers", str(workers)]
        self.process = subprocess.Popen([program, *words], stdin=given)
        self.workers = workers
        wait_for_answer(f"{program}, on port {self.port},", self.process, self.answers, wait)
        self.pid: int = family(self.process.pid)[-1]

    def answers(self) -> bool:
        try:
            return Link(self.port, kept=1).ask("GET", "node/1").status in (200, 404, 410, 503)
        except OSError:
            return False

    def __enter__(self) -> Server:
        return self

    def __exit__(self, *_: object) -> None:
        self.process.terminate()
        self.process.wait()
        self.folder.cleanup()

    def descriptors(self) -> int:
        return len(os.listdir(f"/proc/{self.pid}/fd"))

    def seconds(self) -> tuple[float, float]:
        return seconds_of(self.pid)

    def megabytes(self, which: str = "VmRSS") -> float:
        """The memory that is held, or at most was (VmHWM)."""
        with open(f"/proc/{self.pid}/status") as file:
            return next(int(line.split()[1]) for line in file if line.startswith(which)) / 1024


def degrees(value: int) -> str:
    """Units of 1e-7 degrees, not negative, as a decimal."""
    return f"{value // 10_000_000}.{value % 10_000_000:07}"


def boxes(edge: int, side: int, count: int) -> Iterator[str]:
    """So many drawn squares of that side, in units of 1e-7 degrees, within a larger one at the origin, as the parameter `bbox` has them."""
    drawn = random.Random(side)
    for _ in range(count):
        west, south = drawn.randint(0, edge - side), drawn.randint(0, edge - side)
        yield ",".join(map(degrees, (west, south, west + side, south + side)))


def timed(link: Link, paths: Iterable[str], member: str) -> str:
    """How long reads take, and how many rows the member of their replies has on average."""
    times, found = [], 0
    for path in paths:
        before = time.perf_counter()
        reply = link.ask("GET", path)
        times.append(time.perf_counter() - before)
        if reply.status != 200:
            raise SystemExit(f"{reply.status} {reply.body.decode()[:200]}")
        found += len(reply.read()[member])
    times.sort()
    half, most = times[len(times) // 2] * 1e6, times[len(times) * 99 // 100] * 1e6
    return f"half within {half:,.0f} us, 99 of 100 within {most:,.0f} us; {found / len(times):,.0f} {member}"
