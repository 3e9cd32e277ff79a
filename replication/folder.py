"""The folder that followers read: state.txt, and for each sequence number a file of changes with its own state.

    state.txt                                  the newest sequence number and its moment
    000/000/001.osc.gz                         its changes
    000/000/001.state.txt                      what state.txt said when it was the newest
    000/000/001.pieces.json                    up to which piece of the feed it goes, for going on
    changesets/state.yaml                      the newest number and its moment
    changesets/000/000/001.osm.gz              the changesets of that number

Each file is written beside its place, brought to the disk and renamed. state.txt is the last of them, so whoever reads it finds the rest;
until then nothing of a new number counts, and who goes on after a break writes it again.
"""

from __future__ import annotations

import json
import os
import time
from collections.abc import Iterable
from dataclasses import asdict, dataclass
from typing import Any

from feed import Unusable
from from_gateway import sync_folder

CHANGESETS = "changesets"


@dataclass(frozen=True, slots=True)
class State:
    """A sequence number, the moment up to which it goes in seconds since 1970, and of the feed the number of its last piece and
    the SHA-256 over all pieces up to it; how many elements of each kind and changesets these made, and which changesets are open.
    Folders of before don't tell the last two. In a folder of merged files `piece` is the number of the last file that was merged."""

    sequence: int
    moment: int
    piece: int
    digest: str
    ids: dict[str, int] | None = None
    open: tuple[int, ...] = ()

    def text(self) -> str:
        """As planet.openstreetmap.org has it, with the moment in its first line too, so that it is the same whenever it is written."""
        at = time.gmtime(self.moment)
        stamp = time.strftime(r"%Y-%m-%dT%H\:%M\:%SZ", at)
        return f"#{time.strftime('%a %b %d %H:%M:%S UTC %Y', at)}\nsequenceNumber={self.sequence}\ntimestamp={stamp}\n"

    def yaml(self) -> str:
        """As planet.openstreetmap.org has it for changesets."""
        stamp = time.strftime("%Y-%m-%d %H:%M:%S.000000000 Z", time.gmtime(self.moment))
        return f"---\nlast_run: {stamp}\nsequence: {self.sequence}\n"


def write_whole(path: str, parts: Iterable[bytes]) -> None:
    """No reader finds a part of it, and it is on the disk before anything is written behind it."""
    new = path + ".new"
    with open(new, "wb") as file:
        for part in parts:
            file.write(part)
        file.flush()
        os.fsync(file.fileno())
    os.replace(new, path)
    sync_folder(os.path.dirname(path))


class Folder:
    def __init__(self, path: str) -> None:
        self.path = os.path.abspath(path)

    def base(self, sequence: int, *below: str) -> str:
        name = f"{sequence:09}"
        return os.path.join(self.path, *below, name[:3], name[3:6], name[6:])

    def newest(self) -> State | None:
        """What state.txt stands for; none where nothing was written yet."""
        try:
            with open(os.path.join(self.path, "state.txt"), encoding="utf-8") as file:
                fields = dict(line.strip().split("=", 1) for line in file if "=" in line and not line.startswith("#"))
            return self.state(int(fields["sequenceNumber"]))
        except FileNotFoundError:
            return None
        except (KeyError, ValueError) as why:
            raise self.strange(why) from why

    def state(self, sequence: int) -> State:
        """What is known of a number that was written whole."""
        try:
            with open(self.base(sequence) + ".pieces.json", encoding="utf-8") as file:
                known: dict[str, Any] = json.load(file)
            known["open"] = tuple(known.get("open", ()))
            return State(sequence=sequence, **known)
        except (OSError, AttributeError, TypeError, ValueError) as why:
            raise self.strange(why) from why

    def strange(self, why: Exception) -> Unusable:
        return Unusable(f"{self.path} isn't a folder of this program's: {why!r}")

    def publish(self, state: State, changes: Iterable[bytes], changesets: Iterable[bytes] | None = None) -> None:
        """The files of a number, each in the parts that are given; `changes` are read first."""
        base = self.base(state.sequence)
        self.make_folders(os.path.dirname(base))
        write_whole(base + ".osc.gz", changes)
        if changesets is not None:
            beside = self.base(state.sequence, CHANGESETS)
            self.make_folders(os.path.dirname(beside))
            write_whole(beside + ".osm.gz", changesets)
        known = {name: value for name, value in asdict(state).items() if name != "sequence" and value not in (None, ())}
        write_whole(base + ".pieces.json", [(json.dumps(known) + "\n").encode()])
        write_whole(base + ".state.txt", [state.text().encode()])
        write_whole(os.path.join(self.path, "state.txt"), [state.text().encode()])
        if changesets is not None:
            self.tell_changesets(state)

    def tell_changesets(self, state: State) -> None:
        """The state of changesets follows that of the changes, at the next start where a break came between them."""
        path = os.path.join(self.path, CHANGESETS, "state.yaml")
        if os.path.exists(self.base(state.sequence, CHANGESETS) + ".osm.gz") and not has_text(path, state.yaml()):
            write_whole(path, [state.yaml().encode()])

    def make_folders(self, path: str) -> None:
        if not os.path.isdir(path):
            self.make_folders(os.path.dirname(path))
            os.mkdir(path)
            sync_folder(os.path.dirname(path))


def has_text(path: str, text: str) -> bool:
    try:
        with open(path, encoding="utf-8") as file:
            return file.read() == text
    except FileNotFoundError:
        return False
