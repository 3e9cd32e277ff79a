#!/usr/bin/python3
"""Keeps a server's journal in a file, a piece a line: examples/fleet/keep.py FILE --server URL --token-file FILE
Or brings a mirror what such a file has: examples/fleet/keep.py FILE --feed MIRROR --token-file FILE

Lines are written and flushed to the disk (fsync) before more pieces are asked for. A last line that was cut off is cut away. The first and
the last piece of the file are compared with the server's on each link: the file of another journal is left alone, status 3, and so is a
mirror that has another one. Keeping goes on until it is ended; feeding ends with the file.
"""

from __future__ import annotations

import argparse
import json
import os
import sys
import time
from array import array
from typing import BinaryIO

import scripts
from feed import Feed, Taken
from kept_link import Lost
from mirror import Mirror

MANY = 64  # pieces that a mirror is given at once
PAUSE = 0.2  # seconds between two questions where there is nothing new


class Lines:
    """A file's whole lines, as the pieces of a journal."""

    def __init__(self, file: BinaryIO) -> None:
        self.file, self.starts = file, array("Q", [0])
        file.seek(0)
        for line in file:
            if line.endswith(b"\n"):
                self.starts.append(self.starts[-1] + len(line))

    def __len__(self) -> int:
        return len(self.starts) - 1

    def piece(self, number: int) -> bytes:
        self.file.seek(self.starts[number - 1])
        return self.file.read(self.starts[number] - self.starts[number - 1] - 1)

    def ends(self) -> Taken:
        return Taken(len(self), self.piece(1), self.piece(len(self))) if len(self) else Taken()


def keep(path: str, server: str, token: str) -> None:
    trouble = scripts.Trouble("keep")
    with open(path, "ab+") as file:
        lines = Lines(file)
        file.truncate(lines.starts[-1])
        feed = Feed(server, token, lines.ends())
        del lines
        while True:
            try:
                pieces = feed.next_pieces()
                trouble.end()
            except Lost as why:
                trouble.tell(why)
                pieces = []
            if not pieces:
                time.sleep(PAUSE)
                continue
            file.writelines(it + b"\n" for it in pieces)
            file.flush()
            os.fsync(file.fileno())


def give(path: str, url: str, token: str) -> None:
    with open(path, "rb") as file:
        lines = Lines(file)
        mirror = Mirror(url, token, lines)
        mirror.begin()
        while mirror.number < len(lines):
            first = mirror.number + 1
            mirror.take([lines.piece(it) for it in range(first, min(len(lines), first + MANY - 1) + 1)])
    print(json.dumps({"pieces": mirror.number}))


def main() -> int:
    parser = argparse.ArgumentParser(description="Keeps a server's journal in a file, or brings a mirror what such a file has.")
    parser.add_argument("file")
    scripts.add_token(parser)
    which = parser.add_mutually_exclusive_group(required=True)
    which.add_argument("--server")
    which.add_argument("--feed")
    words = parser.parse_args()
    if words.server:
        return scripts.run("keep", lambda: keep(words.file, words.server, words.token))
    try:
        return scripts.run("keep", lambda: give(words.file, words.feed, words.token))
    except Lost as why:
        scripts.say("keep", why)
        return 1


if __name__ == "__main__":
    sys.exit(main())
