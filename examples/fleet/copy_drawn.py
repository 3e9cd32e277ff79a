"""Drawn trials of a copy's keeper: which files are taken, judged by another program, and kills at drawn moments."""

from __future__ import annotations

import os
import random
import re
import sys
import threading
import time
from collections.abc import Iterator
from unittest.mock import patch

from keeper_run import DONE, HERE, KeeperRun, Player, cut, greeting, room, write
from serving import Wrong

sys.path.insert(1, os.path.join(HERE, "..", "kept"))

import copy_file
from copy_file import CopyFile, Refused
from kept_file import are_zeros, parted

HEADER = b"osm-journal 2\n\n\n"
ROOM = 1 << 12  # zeros that a played server lays by at a time
CHANGES = re.compile(rb"[^\n]*\n+\{")  # a file with changes
LINES = (b"{}\n", b"\n", b'{"at":1}\n', b"{", b"\0", b"#", b"x\n", b"h\n", b"}\n", b'{"at', b"\0\0\0")


class Broken(Exception):
    """The end of a link in the middle of what a server has."""


def drawn_file(drawn: random.Random, most: int) -> bytes:
    """Lines, some torn, with whatever else may stand among them."""
    kinds = LINES if drawn.random() < 0.5 else LINES[:3]
    first = drawn.choice((b"h\n", b"h\n", b"h\n", b"osm-journal 2\n", b"h", b"", b"\n"))
    return first + b"".join(drawn.choice(kinds) for _ in range(drawn.randrange(most))) + bytes(drawn.choice((0, 0, 1, 9)))


def drawn_pair(drawn: random.Random) -> tuple[bytes, bytes]:
    """What a copy has, and what a server has, which often begins alike."""
    theirs = drawn_file(drawn, 9)
    if drawn.random() < 0.2:
        return drawn_file(drawn, 9), theirs
    own = theirs[: drawn.randrange(len(theirs) + 1)] + drawn.choice((b"", b"", drawn_file(drawn, 3)[1:], bytes(7)))
    return own, theirs


def is_fit(own: bytes, theirs: bytes, *, begins: bool) -> bool:
    """By the page, and by the trials of a server's file, which read it otherwise."""
    raw = parted(own).raw
    is_begun = begins or CHANGES.match(own) or not CHANGES.match(theirs)
    return theirs.startswith(raw) and (bool(raw) or are_zeros(own)) and bool(is_begun)


def sent(data: bytes, size: int, until: int) -> Iterator[bytes]:
    """In pieces of that size, to the end or to where the link ends."""
    for at in range(0, len(data), size):
        if at + size > until:
            raise Broken
        yield data[at : at + size]


def take_drawn(path: str, drawn: random.Random) -> str:
    own, theirs = drawn_pair(drawn)
    with open(path, "wb") as file:
        file.write(own)
    begins = drawn.random() < 0.5
    copy, size = CopyFile(path, begins=begins), drawn.randint(1, 9)
    until = drawn.choice((len(theirs) + size, drawn.randrange(len(theirs) + 1)))
    try:
        copy.take(len(theirs), sent(theirs, size, until))
        came = "taken"
    except Refused:
        came = "refused"
    except Broken:
        came = "broken off"
    finally:
        os.close(copy.file)
    with open(path, "rb") as file:
        left = file.read()
    fit = is_fit(own, theirs, begins=begins)
    wanted = {"taken": fit and left == theirs, "refused": not fit and left == own}
    begun = left == own or (fit and theirs.startswith(left) and left.startswith(parted(own).raw))
    if not wanted.get(came, begun) or (came != "refused" and copy.length != len(left)):
        raise Wrong(f"{own!r}, of a server that has {theirs!r}, is {came} and left as {left!r}")
    return came


def taken(folder: str, seed: int, count: int) -> str:
    """Which files are taken, in pieces of a few bytes, to the end or not, and without syncs."""
    drawn, path = random.Random(seed), os.path.join(folder, "copy")
    with patch.object(copy_file, "PIECE", 5), patch.object(copy_file, "STEP", 8), patch.object(os, "fsync"), patch.object(os, "fdatasync"):
        found = [take_drawn(path, drawn) for _ in range(count)]
    return ", ".join(f"{found.count(it)} {it}" for it in ("taken", "refused", "broken off"))


class Playing(threading.Thread):
    """Batches of lines as a server writes them, over room that it lays by, until the link ends."""

    def __init__(self, port: int, file: bytes, drawn: random.Random) -> None:
        super().__init__(daemon=True)
        self.port, self.drawn = port, drawn
        self.file, self.end = bytearray(file), len(file.rstrip(b"\0"))
        self.answered: list[tuple[int, bytes]] = []
        self.owed: list[tuple[int, bytes]] = []

    def run(self) -> None:
        with Player(self.port) as player:
            try:
                if player.ask(greeting(bytes(self.file))) == DONE:
                    self.answered.append((0, bytes(self.file[: self.end])))
                    while self.go_on(player):
                        pass
            except OSError:
                return

    def go_on(self, player: Player) -> bool:
        """Some calls, and then their answers."""
        calls = [self.call() for _ in range(self.drawn.randint(1, 6))]
        player.send(*calls)
        came = player.answers(len(calls))
        self.answered += self.owed[: len(came)]
        self.owed.clear()
        return came == DONE * len(calls)

    def call(self) -> bytes:
        at, length = self.end, len(self.file)
        lines = b"".join(b'{"at":%d}\n' % self.drawn.randrange(10**9) for _ in range(self.drawn.choice((1, 1, 2, 100)))) + b"\n"
        if at + len(lines) <= length:
            self.file[at : at + len(lines)] = lines
            self.end += len(lines)
            self.owed.append((at, lines))
            return write(at, lines)
        if self.drawn.random() < 0.1:
            del self.file[at:]
            self.owed.append((at, b""))
            return cut(at)
        self.file += bytes(ROOM)
        self.owed.append((length + ROOM, b""))
        return room(length, ROOM)


def killed(folder: str, seed: int, rounds: int) -> str:
    """A keeper that is killed at drawn moments: what was answered is in the file, and the next one takes the server's file up."""
    drawn, path, file, calls = random.Random(seed), os.path.join(folder, "copy"), HEADER, 0
    for _ in range(rounds):
        keeper = KeeperRun(path)
        playing = Playing(keeper.port, file, drawn)
        playing.start()
        time.sleep(drawn.uniform(0, 0.3))
        keeper.kill()
        playing.join()
        with open(path, "rb") as found:
            left = found.read()
        for at, lines in playing.answered:
            if left[at : at + len(lines)] != lines:
                raise Wrong(f"{lines[:40]!r} at {at} was answered, and isn't in the file")
        file, text = bytes(playing.file), parted(left).raw
        if not file.startswith(text):
            raise Wrong("the text that is left isn't a beginning of what was sent")
        calls += len(playing.answered)
    keeper = KeeperRun(path)
    with Player(keeper.port) as player:
        player.begin(file)
    keeper.stop()
    with open(path, "rb") as found:
        if found.read() != file:
            raise Wrong("the last keeper's file isn't the server's")
    return f"{rounds} kills, {calls} answered writes"
