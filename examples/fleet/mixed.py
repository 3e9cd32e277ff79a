#!/usr/bin/python3
"""Whether pieces of two journals ever come together: examples/fleet/mixed.py [--runs 200]

Stands for servers and for mirrors that are started anew at any moment, with another journal behind the same address, and whose links end
behind any request. A writer's feed must then have taken a beginning of one journal, and a mirror of the worst kind, which folds whatever
comes next, must have one too. Status 0 where it is so in each run.
"""

from __future__ import annotations

import argparse
import json
import random
import socket
import sys
import threading
from collections.abc import Callable
from functools import partial

import scripts
from feed import Feed, OtherJournal, Taken
from kept_link import Lost
from mirror import Mirror
from running import url
from serving import Wrong, trial_status

Journal = list[bytes]
Answer = tuple[int, dict[str, object] | bytes]


def journal(name: str, length: int, same: int = 0) -> Journal:
    """Pieces that tell which journal they are of, but for the first `same`, which any has."""
    return [b'{"entry":"%b","number":%d,"version":2}' % (name.encode() if it >= same else b"any", it + 1) for it in range(length)]


class Site:
    """Answers on the loopback by a function of method, path and body. `end_links` ends all links, as a restart does."""

    def __init__(self, answer: Callable[[str, str, bytes], Answer], drawn: random.Random) -> None:
        self.answer, self.drawn, self.lock, self.run = answer, drawn, threading.Lock(), 0
        self.listener = socket.create_server(("127.0.0.1", 0))
        self.url = url(self.listener.getsockname()[1])
        threading.Thread(target=self.accept, daemon=True).start()

    def accept(self) -> None:
        while True:
            try:
                stream, _ = self.listener.accept()
            except OSError:
                return
            threading.Thread(target=self.serve, args=(stream,), daemon=True).start()

    def serve(self, stream: socket.socket) -> None:
        run = self.run
        stream.setsockopt(socket.IPPROTO_TCP, socket.TCP_NODELAY, 1)
        with stream, stream.makefile("rb") as requests:
            try:
                while first := requests.readline():
                    length = 0
                    while (line := requests.readline()) not in (b"\r\n", b""):
                        length = int(line[16:]) if line.startswith(b"Content-Length: ") else length
                    method, path = first.decode().split()[:2]
                    if not self.reply(stream, run, method, path.removeprefix("/api/0.6/"), requests.read(length)):
                        return
            except OSError:
                return

    def reply(self, stream: socket.socket, run: int, method: str, path: str, body: bytes) -> bool:
        """Whether the link goes on."""
        with self.lock:
            if run == self.run:
                status, it = self.answer(method, path, body)
            if run != self.run:
                return False
        text = it if isinstance(it, bytes) else json.dumps(it).encode()
        ends = self.drawn.random() < 0.05
        fields = f"Content-Length: {len(text)}\r\n" + ("Connection: close\r\n" if ends else "")
        # A link may end without a word too, before the reply or behind it.
        if self.drawn.random() < 0.03:
            return False
        stream.sendall(f"HTTP/1.1 {status} .\r\n{fields}\r\n".encode() + text)
        return not ends and self.drawn.random() > 0.03

    def end_links(self) -> None:
        """Within `answer` alone."""
        self.run += 1

    def close(self) -> None:
        self.listener.close()


def is_beginning(found: Journal, *whole: Journal) -> bool:
    return any(found == it[: len(found)] for it in whole)


def feed(drawn: random.Random) -> None:
    """A server that grows, and at some request is another one."""
    same = drawn.choice([0, 0, 1, 3])
    old, new = journal("old", 200, same), journal("new", drawn.choice([0, 3, 200, 300]), same)
    held, length, left = old, drawn.randint(0, 60), drawn.randint(1, 150)

    def answer(_: str, path: str, __: bytes) -> Answer:
        nonlocal held, length, left
        left -= 1
        if left == 0:
            held, length = new, drawn.randint(0, len(new))
            site.end_links()
        length = min(len(held), length + drawn.choice([0, 0, 1, 5]))
        number = int(path.rpartition("/")[2])
        if number > length:
            return 404, {"error": "no_piece", "last": length}
        return 200, held[number - 1]

    site = Site(answer, drawn)
    taken: Journal = []
    follower = Feed(site.url, "")
    for _ in range(150):
        try:
            taken += follower.next_pieces()
        except Lost:
            pass
        except OtherJournal:
            break
    site.close()
    if not is_beginning(taken, old, new):
        raise Wrong(f"the pieces taken are of {sorted({it[:14] for it in taken})}")


class Kept:
    """A journal as a mirror is given it."""

    def __init__(self, pieces: Journal) -> None:
        self.pieces = pieces

    def ends(self) -> Taken:
        return Taken(len(self.pieces), self.pieces[0], self.pieces[-1])

    def piece(self, number: int) -> bytes:
        return self.pieces[number - 1]


class Folding:
    """A mirror of the worst kind, which at some requests is started anew: empty, or with a beginning of another journal."""

    def __init__(self, drawn: random.Random) -> None:
        same = drawn.choice([0, 0, 1, 3])
        self.drawn, self.whole, self.other = drawn, journal("old", 200, same), journal("new", 200, same)
        self.has: Journal = drawn.choice([[], self.whole[: drawn.randint(0, 50)]])
        self.wrong: list[int] = []
        self.site = Site(self.answer, drawn)

    def answer(self, method: str, _: str, body: bytes) -> Answer:
        if self.drawn.random() < 0.01:
            self.has = self.drawn.choice([[], self.other[: self.drawn.randint(1, 150)], self.whole[: self.drawn.randint(1, 150)]])
            self.site.end_links()
            return 503, {"error": "memory"}
        if method == "GET":
            return 200, {"sequenceNumber": len(self.has)}
        return self.taken(int(json.loads(body)["number"]), body)

    def taken(self, number: int, body: bytes) -> Answer:
        there = len(self.has)
        if number > there + 1:
            return 409, {"error": "gap", "next": there + 1, "number": number}
        if number <= there:
            is_same = self.has[number - 1] == body
            return (200, {"next": there + 1, "taken": "old"}) if is_same else (409, {"error": "differs", "number": number})
        self.has = [*self.has, body]
        if not is_beginning(self.has, self.whole, self.other):
            self.wrong.append(number)
        return 200, {"next": number + 1, "taken": "folded"}


def mirror(drawn: random.Random) -> None:
    """A carrier's end, beside a mirror that folds whatever comes next."""
    folding = Folding(drawn)
    it = Mirror(folding.site.url, "", Kept(folding.whole))
    for _ in range(80):
        try:
            it.begin()
            it.take(folding.whole[it.number : it.number + drawn.choice([1, 7, 100])])
            it.look()
        except Lost:
            it.close()
        except OtherJournal:
            break
    folding.site.close()
    if folding.wrong:
        raise Wrong(f"a mirror folded piece {folding.wrong[0]} behind those of another journal")


def main() -> int:
    parser = argparse.ArgumentParser(usage=scripts.usage(__doc__))
    parser.add_argument("--runs", type=int, default=200)
    words = parser.parse_args()
    for seed in range(words.runs):
        for name, play in (("feed", feed), ("mirror", mirror)):
            if trial_status(partial(play, random.Random(seed)), f"{name}, seed {seed}"):
                return 1
    print(f"{words.runs} feeds and as many mirrors, started anew at any moment: none has pieces of two journals")
    return 0


if __name__ == "__main__":
    sys.exit(main())
