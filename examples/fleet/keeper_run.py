"""What the trials of a copy share: a keeper that is started, and a server that is played to it."""

from __future__ import annotations

import os
import signal
import struct
import sys
import time
from collections.abc import Iterable
from typing import ClassVar

from running import HERE, Process
from serving import Wrong, connect

GREETING = b"hegunsap-copy-1\n"
DONE, REFUSED = b"+", b"-"
SECONDS = 60  # for anything that a keeper has to do


def number(value: int) -> bytes:
    return struct.pack(">Q", value)


def greeting(file: bytes) -> bytes:
    return GREETING + number(len(file)) + file


def write(at: int, data: bytes) -> bytes:
    return b"W" + number(at) + number(len(data)) + data


def room(end: int, count: int) -> bytes:
    return b"Z" + number(end) + number(count)


def cut(length: int) -> bytes:
    return b"C" + number(length)


def words_of(path: str, port: int = 0, before: str = "", *, begins: bool = True) -> list[str]:
    """The command of a keeper; `before` is Python that is run in front of it, so that something fails."""
    program = [os.path.join(HERE, "copy_keeper.py")]
    if before:
        text = f"import sys; sys.path.insert(0, {HERE!r})\n{before}\nimport copy_keeper\nsys.exit(copy_keeper.main())"
        program = ["-c", text]
    return [sys.executable, *program, *(["--begin"] if begins else []), path, "--listen", f"127.0.0.1:{port}"]


class KeeperRun(Process):
    """A keeper that listens, at a free port or that one."""

    started: ClassVar[list[KeeperRun]] = []

    def __init__(self, path: str, port: int = 0, before: str = "", *, begins: bool = True) -> None:
        super().__init__(words_of(path, port, before, begins=begins))
        self.started.append(self)
        until = time.monotonic() + SECONDS
        while not self.said:
            if self.process.poll() is not None or time.monotonic() > until:
                self.kill()
                raise Wrong(f"a keeper doesn't listen: {self.said}")
            time.sleep(0.005)
        self.port = int(self.said[0].partition("listens on 127.0.0.1:")[2].partition(";")[0])

    def stop(self, by: signal.Signals = signal.SIGTERM) -> None:
        """Ends it in order."""
        self.process.send_signal(by)
        if status := self.end(SECONDS):
            raise Wrong(f"a keeper ended with status {status} at {by.name}: {self.said[-1:]}")

    @classmethod
    def kill_all(cls) -> None:
        """Those too that were left where something was wrong."""
        while cls.started:
            cls.started.pop().kill()


class Player:
    """The link of a server that is played."""

    def __init__(self, port: int) -> None:
        self.stream = connect(port, SECONDS)

    def __enter__(self) -> Player:
        return self

    def __exit__(self, *_: object) -> None:
        self.stream.close()

    def send(self, *calls: bytes) -> None:
        self.stream.sendall(b"".join(calls))

    def answers(self, count: int) -> bytes:
        """So many answers, or those that came before the end of the link."""
        came = b""
        while len(came) < count:
            try:
                part = self.stream.recv(count - len(came))
            except ConnectionError:
                return came
            except TimeoutError:
                raise Wrong(f"no answer within {SECONDS} seconds behind {came[-9:]!r}") from None
            if not part:
                return came
            came += part
        return came

    def ask(self, *calls: bytes) -> bytes:
        """What all of them are answered, and all that comes behind where one is refused."""
        self.send(*calls)
        came = self.answers(len(calls))
        return came + self.answers(1) if REFUSED in came else came

    def want(self, wanted: bytes, calls: Iterable[bytes], what: str) -> None:
        came = self.ask(*calls)
        if came != wanted:
            raise Wrong(f"{what}: {came[-9:]!r} in the place of {wanted[-9:]!r}")

    def begin(self, file: bytes) -> None:
        self.want(DONE, (greeting(file),), "a beginning")

    def closed(self) -> None:
        """Nothing more may come."""
        try:
            if more := self.stream.recv(1):
                raise Wrong(f"{more!r} comes behind the end")
        except TimeoutError:
            raise Wrong("the link isn't closed") from None
        except ConnectionError:
            pass
