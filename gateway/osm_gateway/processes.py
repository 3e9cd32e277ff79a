"""Several processes at one address, each a gateway of its own with its part of the links and of the room."""

from __future__ import annotations

import asyncio
import ctypes
import fcntl
import hashlib
import mmap
import os
import signal
import socket
import tempfile
from collections.abc import Callable, Hashable

from .log import tell

FIRST_PAUSE, LONGEST_PAUSE = 0.001, 0.02
PLACES = 1 << 62


class Shared:
    """Locks among the processes of one gateway: each key is a byte of a file without a name, which nobody writes."""

    def __init__(self) -> None:
        # pylint: disable-next=consider-using-with
        self.file = tempfile.TemporaryFile()

    @staticmethod
    def place(key: Hashable) -> int:
        return int.from_bytes(hashlib.sha256(repr(key).encode()).digest()[:8], "big") % PLACES

    async def take(self, key: Hashable) -> None:
        """Waits until no other process has it; within a process somebody else sees to that."""
        pause = FIRST_PAUSE
        while True:
            try:
                fcntl.lockf(self.file, fcntl.LOCK_EX | fcntl.LOCK_NB, 1, self.place(key))
                return
            except BlockingIOError:
                await asyncio.sleep(pause)
                pause = min(2 * pause, LONGEST_PAUSE)

    def give(self, key: Hashable) -> None:
        fcntl.lockf(self.file, fcntl.LOCK_UN, 1, self.place(key))


class Columns:
    """So many numbers for each process, which alone writes its own; all read all of them."""

    def __init__(self, count: int, processes: int) -> None:
        column = ctypes.c_double * count
        self.all = [column.from_buffer(mmap.mmap(-1, ctypes.sizeof(column))) for _ in range(processes)]
        self.own = self.all[0]

    def begin(self, process: int) -> None:
        """In a process that was started: which column is its own."""
        self.own = self.all[process]


def is_taken(host: str, port: int) -> bool:
    """Whether somebody else listens there: several processes at one address are let in beside anybody."""
    family = socket.AF_INET6 if ":" in host else socket.AF_INET
    with socket.socket(family, socket.SOCK_STREAM) as there:
        there.setsockopt(socket.SOL_SOCKET, socket.SO_REUSEADDR, 1)
        try:
            there.bind((host, port))
        except OSError as why:
            tell(f"can't listen on {host}:{port}: {why}")
            return True
    return False


def run(count: int, serve: Callable[[int], int]) -> int:
    """Runs it in so many processes, each with its number from 0 on. All end when this one is told to, or where one of them ends by itself; its status is the highest."""
    children = {begin(serve, number) for number in range(count)}
    told = False

    def pass_on(number: int, _: object = None) -> None:
        for child in children:
            os.kill(child, number)

    def end(*_: object) -> None:
        nonlocal told
        told = True
        pass_on(signal.SIGTERM)

    for it in (signal.SIGTERM, signal.SIGINT):
        signal.signal(it, end)
    signal.signal(signal.SIGHUP, pass_on)
    highest = 0
    while children:
        child, status = os.wait()
        children.discard(child)
        code = os.waitstatus_to_exitcode(status)
        if code or not told:
            tell(f"a process ended by itself with status {code}" if not told else f"a process ended with status {code}")
            highest = max(highest, abs(code), 0 if told else 1)
        if not told:
            end()
    return highest


def begin(serve: Callable[[int], int], number: int) -> int:
    child = os.fork()
    if child == 0:
        status = 1
        try:
            status = serve(number)
        except SystemExit as why:
            tell(str(why.code))
        finally:
            os._exit(status)
    return child
