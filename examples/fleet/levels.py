"""Whether level.py takes mirrors out of nginx and puts them back: a part of fleet.py."""

from __future__ import annotations

import socket
import threading
import time
from collections.abc import Callable

from prometheus_client.parser import text_fd_to_metric_families
from running import Front
from serving import Lost, Replies, Wrong, request

READERS = 40  # addresses of the loopback from which is read
SECONDS = 10  # for an answer: a read that nginx sent to a server that is stopped has none
PAUSE = 3.0  # seconds that a mirror isn't started again, as its unit has it


def read_from(place: int, port: int, path: str) -> tuple[int, bytes]:
    """A reader with an address of its own, so that each mirror has some of them."""
    stream = socket.create_connection(("127.0.0.1", port), SECONDS, source_address=(f"127.0.1.{1 + place}", 0))
    with stream:
        stream.sendall(request("GET", path, closes=True))
        reply = Replies(stream).next()
    return reply.status, reply.body


class Readers(threading.Thread):
    """Readers of one element that is there, one after another, until the end; `wrong` has what other answers came.

    Where nginx reads its file again it may end a link on which nothing was answered yet; such a read is sent again.
    """

    def __init__(self, port: int, path: str) -> None:
        super().__init__(daemon=True)
        self.port, self.path, self.goes_on = port, path, True
        self.count = self.ended = 0
        self.wrong: list[tuple[int, bytes]] = []
        self.start()

    def run(self) -> None:
        while self.goes_on:
            try:
                reply = read_from(self.count % READERS, self.port, self.path)
            except (OSError, Lost):
                self.ended += 1
                continue
            self.count += 1
            if reply[0] != 200:
                self.wrong.append(reply)

    def end(self) -> None:
        self.goes_on = False
        self.join()


def lines_of(front: Front) -> dict[int, bool]:
    """By their ports, which mirrors are in."""
    with open(front.included, encoding="utf-8") as file:
        lines = [it.split() for it in file if it.startswith("server ")]
    return {int(it[1].rpartition(":")[2]): "down;" not in it for it in lines}


def wait_for(front: Front, port: int, is_in: bool, seconds: float = 60) -> float:
    start = time.monotonic()
    while lines_of(front).get(port) is not is_in:
        if time.monotonic() - start > seconds:
            raise Wrong(f"after {seconds} seconds the mirror {port} isn't {'in' if is_in else 'out'}")
        time.sleep(0.02)
    return time.monotonic() - start


def numbers_of(path: str) -> dict[tuple[str, str], float]:
    """What a file for Prometheus has, by name and mirror, as its own reader reads it."""
    with open(path, encoding="utf-8") as file:
        families = list(text_fd_to_metric_families(file))
    return {(it.name, it.labels.get("mirror", "")): it.value for family in families for it in family.samples}


def wait_for_numbers(path: str, wanted: dict[tuple[str, str], float], never: tuple[str, str] = ("", ""), seconds: float = 30) -> None:
    """Until the file has these, and one not at all."""
    start = time.monotonic()
    while not wanted.items() <= (found := numbers_of(path)).items() or never in found:
        if time.monotonic() - start > seconds:
            raise Wrong(f"after {seconds} seconds {path} has {found}, and not {wanted}")
        time.sleep(0.1)


def all_find(port: int, path: str) -> bool:
    try:
        return all(read_from(place, port, path)[0] == 200 for place in range(READERS))
    except (OSError, Lost):
        return False


def wait_until_read(port: int, path: str, seconds: float = 60) -> None:
    """Until all readers find it."""
    start = time.monotonic()
    while not all_find(port, path):
        if time.monotonic() - start > seconds:
            raise Wrong(f"after {seconds} seconds not all readers find {path}")


def empty_without(front: Front, restart: Callable[[], None]) -> int:
    """How many readers are answered with an empty map where nobody tells nginx of it, until there is one; nginx waits two seconds first."""
    readers = Readers(front.port, "node/1")
    restart()
    until = time.monotonic() + 20
    while not readers.wrong and time.monotonic() < until:
        time.sleep(0.1)
    readers.end()
    return len(readers.wrong)
