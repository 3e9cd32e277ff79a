"""Files of whole hours and days, as planet.openstreetmap.org has them: each has the versions of the smaller files up to its moment.

    hour/state.txt                             the newest number and its moment, a whole hour
    hour/000/000/001.osc.gz                    every version of the files up to it, by kind, id and version
    hour/000/000/001.state.txt                 what state.txt said when it was the newest
    hour/000/000/001.pieces.json               up to which of the smaller files it goes

An hour in which no smaller file lies has no file.
"""

from __future__ import annotations

import gzip
import heapq
import os
import re
import shutil
from collections.abc import Iterator, Sequence

from change_file import packed, text_of, text_of_blocks
from feed import Unusable
from folder import Folder, State, write_whole
from from_gateway import KINDS

HOUR, DAY = 3_600, 86_400
MOST_OPEN = 64  # files that are read at once; a process has 1,024
AT_ONCE = 24  # files that are merged before the next smaller one is written
START = re.compile(r' {4}<(node|way|relation) id="(\d+)" version="(\d+)"')
ACTION = re.compile(r" {2}<(create|modify|delete)>\n")
Block = tuple[tuple[int, int, int], str, str]  # kind, id and version; its action; its lines


def blocks(path: str) -> Iterator[Block]:
    """The versions of a file of this program's, as their lines stand in it."""
    action, place, held, line = "", (0, 0, 0), "", ""
    with gzip.open(path, "rt", encoding="utf-8", newline="\n") as file:
        for line in file:
            start = START.match(line)
            if held and (start or not line.startswith("    ")):
                yield place, action, held
                held = ""
            if start:
                place, held = (KINDS.index(start[1]), int(start[2]), int(start[3])), line
            elif held:
                held += line
            elif found := ACTION.fullmatch(line):
                action = found[1]
    if line != "</osmChange>\n":
        raise Unusable(f"{path} has no end")


def merged(paths: Sequence[str], work: str) -> Iterator[bytes]:
    """One file of the versions of all of these, each of which is sorted; by way of the folder `work` where they are many."""
    shutil.rmtree(work, ignore_errors=True)
    count = 0
    while len(paths) > MOST_OPEN:
        os.makedirs(work, exist_ok=True)
        between = os.path.join(work, f"{count}.osc.gz")
        write_whole(between, merged_few(paths[:MOST_OPEN]))
        paths, count = [*paths[MOST_OPEN:], between], count + 1
    yield from merged_few(paths)
    shutil.rmtree(work, ignore_errors=True)


def merged_few(paths: Sequence[str]) -> Iterator[bytes]:
    versions = heapq.merge(*map(blocks, paths))
    return packed(text_of_blocks((action, text) for _, action, text in versions))


class Merged:
    """The folder of merged files, which follows that of smaller ones."""

    def __init__(self, source: Folder, path: str, seconds: int) -> None:
        self.source, self.folder, self.seconds = source, Folder(path), seconds
        self.own = self.folder.newest()
        self.moment_of: dict[int, int] = {}

    def moment(self, sequence: int) -> int:
        """Of a smaller file."""
        if sequence not in self.moment_of:
            self.moment_of[sequence] = self.source.state(sequence).moment
        return self.moment_of[sequence]

    def begin(self, last: State) -> State:
        """Sequence number 0, without changes, behind the smaller one without changes: behind the last one where that was removed."""
        first = 0 if os.path.exists(self.source.base(0) + ".pieces.json") else last.sequence
        state = State(0, self.moment(first) // self.seconds * self.seconds, first, "")
        self.folder.publish(state, packed(text_of(())))
        return state

    def next_state(self, own: State, last: State) -> State | None:
        """What comes behind its own newest file, where the smaller ones have gone so far."""
        through = own.piece + 1
        if through > last.sequence:
            return None
        end = -(-self.moment(through) // self.seconds) * self.seconds
        if last.moment < end:
            return None
        # The moments of smaller files rise, so nothing more comes that belongs to it.
        while through < last.sequence and self.moment(through + 1) <= end:
            through += 1
        return State(own.sequence + 1, end, through, "")

    def advance(self) -> Iterator[State]:
        """Writes what has become whole, a part of it where it is much, and tells of each file."""
        last = self.source.newest()
        if last is None:
            return
        self.own = self.own or self.begin(last)
        for _ in range(AT_ONCE):
            state = self.next_state(self.own, last)
            if state is None:
                return
            paths = [self.source.base(it) + ".osc.gz" for it in range(self.own.piece + 1, state.piece + 1)]
            self.folder.publish(state, merged(paths, os.path.join(self.folder.path, "merging")))
            self.own = state
            self.moment_of.clear()
            yield state


def hours_and_days(folder: Folder) -> tuple[Merged, Merged]:
    hours = Merged(folder, os.path.join(folder.path, "hour"), HOUR)
    return hours, Merged(hours.folder, os.path.join(folder.path, "day"), DAY)
