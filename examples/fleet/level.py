#!/usr/bin/python3
"""Tells nginx which mirrors are level: examples/fleet/level.py --server URL --mirror URL [--mirror URL ..] --write FILE [--pid FILE]
    [--most 100] [--seconds 3] [--metrics FILE]

Asks the server and each mirror for its number every second. A mirror is taken out that doesn't answer within a second, that is more than
--most pieces behind, or that hasn't got after --seconds what the server had then, as one whose carrier has died. It is put back when it
was level at two looks, one behind the other. While the server doesn't answer, the mirrors are held against the one of them that has most.

FILE is what nginx.conf includes, a line for each mirror, with `down` where it is out. It is written anew where it changes, and nginx is
told by SIGHUP to the process that the file of --pid names. Mirrors that FILE has as being in are so at the start.
"""

from __future__ import annotations

import argparse
import os
import signal
import sys
import time
from collections import deque
from collections.abc import Iterator, Sequence
from concurrent.futures import ThreadPoolExecutor
from urllib.parse import urlsplit

import scripts
from kept_link import Lost, Site
from mirror import body_of
from shown import Number, Shown, add_metrics, write_whole

EACH = 1.0  # seconds from one look to the next
WAIT = 1.0  # seconds for an answer
LOOKS = 2  # one behind the other at which a mirror has to be level


class Asked:
    """A server or a mirror, and what it answered last; a kept link has a worker there of its own."""

    def __init__(self, url: str) -> None:
        self.url, self.site = url, Site(url, seconds=WAIT)
        self.number: int | None = None

    def ask(self) -> None:
        try:
            reply = self.site.ask(self.site.get("replication/state"))
            self.number = int(body_of(reply)["sequenceNumber"]) if reply.status == 200 else None
        except (Lost, KeyError, ValueError):
            self.site.close()
            self.number = None


class Mirror(Asked):
    """One that is in or out, with the looks at which it was level since it is out."""

    def __init__(self, url: str, is_in: bool) -> None:
        super().__init__(url)
        self.is_in, self.looks = is_in, 0

    def line(self) -> str:
        down = "" if self.is_in else " down"
        return f"server {urlsplit(self.url).netloc} max_fails=1 fail_timeout=2s{down};\n"


class Level:
    """The last numbers that mirrors have to have, and which of them are in."""

    def __init__(self, server: str, mirrors: Sequence[str], path: str, most: int, seconds: float) -> None:
        self.path, self.most, self.seconds = path, most, seconds
        self.text = read(path)
        self.server = Asked(server)
        self.mirrors = [Mirror(it, f"server {urlsplit(it).netloc} max_fails=1 fail_timeout=2s;\n" in self.text) for it in mirrors]
        self.wanted: deque[tuple[float, int]] = deque()
        self.pool = ThreadPoolExecutor(1 + len(mirrors))

    def look(self, now: float) -> bool:
        """Whether the file was written anew."""
        list(self.pool.map(Asked.ask, (self.server, *self.mirrors)))
        last = self.server.number
        if last is None:
            last = max((it.number or 0 for it in self.mirrors), default=0)
        self.wanted.append((now, last))
        before = min(self.number_before(now), last)
        for it in self.mirrors:
            self.judge(it, last, before)
        return self.write()

    def number_before(self, now: float) -> int:
        """What the server had so many seconds ago, or at the first look: who is asked first has to have all."""
        while len(self.wanted) > 1 and self.wanted[1][0] <= now - self.seconds:
            self.wanted.popleft()
        return self.wanted[0][1]

    def judge(self, it: Mirror, last: int, before: int) -> None:
        is_level = it.number is not None and it.number >= max(before, last - self.most)
        it.looks = it.looks + 1 if is_level else 0
        if it.is_in and not is_level:
            it.is_in = False
            has = "doesn't answer" if it.number is None else f"has {it.number} of {last} pieces"
            scripts.say("level", f"{it.url} {has}: it is taken out")
        elif not it.is_in and it.looks >= LOOKS:
            it.is_in = True
            scripts.say("level", f"{it.url} has {it.number} of {last} pieces: it is put in")

    def write(self) -> bool:
        text = "# By level.py: which mirrors are level.\n" + "".join(it.line() for it in self.mirrors)
        if text == self.text:
            return False
        write_whole(self.path, text.encode())
        self.text = text
        return True

    def numbers(self) -> Iterator[Number]:
        """What whoever watches the fleet is shown; of one that doesn't answer no number of pieces."""
        yield Number("map_server_up", "1 where the server told its number within a second.", self.server.number is not None)
        if self.server.number is not None:
            yield Number("map_server_changes", "The number of its last accepted change.", self.server.number)
        for it in self.mirrors:
            yield Number("map_mirror_up", "1 where a mirror told its number within a second.", it.number is not None, it.url)
            yield Number("map_mirror_level", "1 where nginx has it read.", it.is_in, it.url)
            if it.number is not None:
                yield Number("map_mirror_changes", "The number of a mirror's last change.", it.number, it.url)


def read(path: str) -> str:
    try:
        with open(path, encoding="utf-8") as file:
            return file.read()
    except FileNotFoundError:
        return ""


def reload_nginx(pid: str, trouble: scripts.Trouble) -> bool:
    """nginx reads what it includes again; links that are in use are answered to the end."""
    try:
        number = read(pid).strip()
        if not number.isdigit():
            raise OSError("it names no process, so nginx isn't told")
        os.kill(int(number), signal.SIGHUP)
        trouble.end()
        return True
    except OSError as why:
        trouble.tell(f"{pid}: {why}")
        return False


def run(words: argparse.Namespace) -> None:
    level, shown = Level(words.server, words.mirror, words.write, words.most, words.seconds), Shown("level", words.metrics)
    is_told, trouble, disk = True, scripts.Trouble("level"), scripts.Trouble("level", "it is written again")
    has_begun = False
    while True:
        now = time.monotonic()
        try:
            is_told = not level.look(now) and is_told
            has_begun = True
            disk.end()
        except OSError as why:
            if not has_begun:
                raise
            disk.tell(scripts.unwritten(why, words.write))
        shown.write(level.numbers())
        if not is_told and words.pid:
            is_told = reload_nginx(words.pid, trouble)
        time.sleep(max(0.0, now + EACH - time.monotonic()))


def main() -> int:
    parser = argparse.ArgumentParser(usage=scripts.usage(__doc__))
    parser.add_argument("--server", required=True)
    parser.add_argument("--mirror", required=True, action="append")
    parser.add_argument("--write", required=True, metavar="FILE", help="what nginx includes")
    parser.add_argument("--pid", metavar="FILE", help="the file of nginx's process; it isn't told without one")
    parser.add_argument("--most", type=int, default=100, help="pieces that a mirror may be behind")
    parser.add_argument("--seconds", type=float, default=3, help="within which it has to have what the server has")
    add_metrics(parser)
    words = parser.parse_args()
    if words.most < 0 or words.seconds < EACH:
        parser.error(f"--most is 0 at least, and --seconds {EACH:.0f}")
    return scripts.run("level", lambda: run(words))


if __name__ == "__main__":
    sys.exit(main())
