#!/usr/bin/python3
"""Writes all of a map at one point: examples/dump.py --feed URL [--token-file FILE] [--replication URL] [--mirror COMMAND] FOLDER

FOLDER gets map.osm.pbf, the visible elements; history.osh.pbf, every version of every element, deletions too; and
changesets.osm.bz2. All three are of one piece of the feed, whoever is editing meanwhile: the newest one, or with
--replication, the address of a folder that replication/run writes, the one of its newest number, and the files say so. A
mirror of this program's own is given the pieces, and is read. With --journal FILE in the place of --feed they are taken
from a file that a server or a mirror keeps. The token is a moderator's, and HEGUNSAP_TOKEN of the environment where no
file is named. Versions that are redacted are left out. Needs Debian's python3-pyosmium, and the memory of the whole map.
"""

from __future__ import annotations

import argparse
import bz2
import json
import os
import shlex
import sys
import tempfile
import urllib.request
from collections.abc import Callable, Iterable, Iterator
from itertools import count, islice

TOP = os.path.dirname(os.path.dirname(os.path.abspath(__file__)))
sys.path.append(os.path.join(TOP, "replication"))

import changeset_file
from export_osm import read_kind, replication_headers
from feed import Feed, OtherJournal, Unusable, entry_of
from given_token import add_token
from kept_journal import HEADER, Writing
from kept_link import Lost
from map_client import KINDS, Client, Element, Refused
from osm_file import Box, Writer, box_around, box_of_nodes
from own_mirror import Ended, OwnMirror

BUILT = os.path.join(TOP, "crates", "osm_mirror", "out", "osm_mirror")
MANY = 500  # histories or changesets that are asked for at once
NAMES = ("map.osm.pbf", "history.osh.pbf", "changesets.osm.bz2")


def entries_of_feed(url: str, token: str) -> Iterator[bytes]:
    feed = Feed(url, token)
    while pieces := feed.next_pieces():
        yield from map(entry_of, pieces)


def entries_of_file(path: str) -> Iterator[bytes]:
    """The whole lines, without the empty ones among them (docs/JOURNAL.md); a program may be adding more."""
    with open(path, "rb") as file:
        if file.readline(len(HEADER)) != HEADER:
            raise Unusable(f"{path} isn't a journal in version 2 of its text")
        for line in file:
            if line == b"\n":
                continue
            if not (line.startswith(b"{") and line.endswith(b"\n")) or b"\0" in line:
                return
            yield line[:-1]


def last_of_feed(url: str, token: str) -> int:
    """How far the feed goes, so that an end is found though editing goes on."""
    feed = Feed(url, token)
    last = feed.last()
    feed.site.close()
    return last


def place_of(base_url: str) -> tuple[int, dict[str, str]]:
    """The piece that the newest number of a folder of replication goes to, and what the files say of it."""
    headers = replication_headers(base_url)
    name = f"{int(headers['osmosis_replication_sequence_number']):09}"
    with urllib.request.urlopen(f"{base_url.rstrip('/')}/{name[:3]}/{name[3:6]}/{name[6:]}.pieces.json", timeout=60) as reply:
        return int(json.load(reply)["piece"]), headers


def write_journal(path: str, entries: Iterable[bytes], last: int | None) -> int:
    """The text of the first entries, up to the last that is wanted; answers how many there are."""
    writing, found = Writing(path), 0
    for entry in islice(entries, last):
        writing.add_entry(entry)
        found += 1
    if last is not None and found < last:
        raise Unusable(f"{last} pieces are wanted, and there are {found}")
    writing.end()
    return found


class Map:
    """What a mirror has that nobody changes."""

    def __init__(self, mirror: OwnMirror) -> None:
        self.mirror, self.client = mirror, Client(mirror.site.url)

    def elements(self, kind: str) -> Iterator[Element]:
        """By id, deleted ones too."""
        return read_kind(self.client, kind)

    def histories(self, kind: str) -> Iterator[tuple[Element, list[Element]]]:
        """Each element with all of its versions that nobody has redacted."""
        elements = self.elements(kind)
        while part := list(islice(elements, MANY)):
            longer = self.mirror.bodies([f"{kind}/{it['id']}/history" for it in part if it["version"] > 1])
            for it in part:
                body = next(longer) if it["version"] > 1 else {"elements": [it]}
                yield it, body["elements"] if body else []
            for _ in longer:  # to the end of its link's use
                pass

    def changesets(self) -> Iterator[changeset_file.Changeset]:
        for first in count(1, MANY):
            for body in self.mirror.bodies([f"changeset/{it}" for it in range(first, first + MANY)]):
                if body is None:
                    return
                yield body["changeset"]


def box_of_changesets(the_map: Map) -> Box | None:
    boxes = (it for it in the_map.changesets() if "minlat7" in it)
    return box_around((it["minlon7"], it["minlat7"], it["maxlon7"], it["maxlat7"]) for it in boxes)


def write_elements(the_map: Map, now: str, past: str, headers: dict[str, str]) -> dict[str, int]:
    """The map and its history; answers how many versions of each kind there are in both."""
    box, counts = box_of_nodes(the_map.elements("node")), dict.fromkeys((*KINDS, "versions"), 0)
    with Writer(now, headers, box) as visible, Writer(past, headers, box) as every:
        for kind in KINDS:
            for newest, versions in the_map.histories(kind):
                if newest["visible"]:
                    visible.add(newest)
                    counts[kind] += 1
                for it in versions:
                    every.add(it)
                    counts["versions"] += 1
    return counts


def write_changesets(the_map: Map, path: str) -> int:
    written = 0

    def counted() -> Iterator[changeset_file.Changeset]:
        nonlocal written
        for it in the_map.changesets():
            written += 1
            yield it

    with bz2.open(path, "wt", encoding="utf-8", newline="\n") as file:
        file.writelines(changeset_file.text_of(counted(), box_of_changesets(the_map)))
    return written


def in_place(folder: str, write: Callable[[list[str]], None]) -> None:
    """The files are whole before they stand under their names."""
    new = [os.path.join(folder, f"new-{name}") for name in NAMES]
    for path in new:
        if os.path.exists(path):  # of a break
            os.remove(path)
    write(new)
    for path, name in zip(new, NAMES, strict=True):
        os.replace(path, os.path.join(folder, name))


def dump(words: argparse.Namespace) -> None:
    last, headers = place_of(words.replication) if words.replication else (None, {})
    if words.feed:
        last = last_of_feed(words.feed, words.token) if last is None else last
    entries = entries_of_file(words.journal) if words.journal else entries_of_feed(words.feed, words.token)
    os.makedirs(words.folder, exist_ok=True)
    with tempfile.TemporaryDirectory() as work:
        journal = os.path.join(work, "journal")
        pieces = write_journal(journal, entries, last)
        mirror = OwnMirror(shlex.split(words.mirror), journal)
        try:
            the_map = Map(mirror)

            def write(paths: list[str]) -> None:
                counts = write_elements(the_map, paths[0], paths[1], headers)
                told = ", ".join(f"{number} {name if name == 'versions' else name + 's'}" for name, number in counts.items())
                print(f"to piece {pieces}: {told}, {write_changesets(the_map, paths[2])} changesets")

            in_place(words.folder, write)
        finally:
            mirror.close()


def main() -> int:
    parser = argparse.ArgumentParser(usage=(__doc__ or "").split("\n\n")[0].partition(": ")[2])
    source = parser.add_mutually_exclusive_group(required=True)
    source.add_argument("--feed")
    source.add_argument("--journal")
    add_token(parser, needed=False)
    parser.add_argument("--replication")
    own = BUILT if os.access(BUILT, os.X_OK) else f"{os.path.join(TOP, 'osm')} mirror"
    parser.add_argument("--mirror", default=own, help="the command of a mirror's program; %(default)s")
    parser.add_argument("folder")
    words = parser.parse_args()
    if words.feed and not words.token:
        parser.error("a feed needs a token, by --token-file or by HEGUNSAP_TOKEN of the environment")
    try:
        dump(words)
    except (Lost, Unusable, OtherJournal, Ended, Refused, RuntimeError, OSError, KeyError, ValueError) as why:
        print(f"dump.py: {why}", file=sys.stderr)
        return 1
    return 0


if __name__ == "__main__":
    sys.exit(main())
