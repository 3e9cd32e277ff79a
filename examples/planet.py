#!/usr/bin/env python3
"""A map's memory on paper: examples/planet.py [--planet] [--nodes 1000000] [--versions 1] .. [--program PROGRAM]
examples/planet.py --measured N [--further] [--program PROGRAM]
examples/planet.py --read N [--program PROGRAM]

From the numbers of a map tells, record by record, the bytes that a server takes, that a mirror takes, and that a server takes at most
while it reads its journal at its start, each a node and together. With --planet the numbers are OpenStreetMap's own. With --measured it
fills a server with N nodes and a way over each ten by four links, and tells what the formula says beside what was measured; with --further
each element then gets a second version, and every second one a third. With --read it starts a server on the journal of such a map, which
`PROGRAM export` makes, and tells how long that takes. Status 1 where the two differ by more than a tenth. PROGRAM is the program itself, for these two.

Each term is a record of the source. A block of memory has what malloc adds to it; a list, the room that its growth took.
"""

from __future__ import annotations

import argparse
import os
import random
import subprocess
import sys
import tempfile
import time
from collections.abc import Callable, Iterator
from concurrent.futures import ThreadPoolExecutor
from typing import NamedTuple

from memory import A_WAY, LINKS, MANY, SESSIONS, UPLOADS_A_CHANGESET, USERS
from serving import OSM, Link, Server, request

Shares = dict[int, float]
"""Which share of the elements has so many versions."""
Records = dict[str, float]
"""Bytes, by the name of a record."""

# Records of the source: sizes that it proves, that docs/FIGURES.md tells, or that their fields come to.
ROW, VERSION, LISTED, TABLE = 40, 24, 40, 56  # history_store's History; osm_element's Version, Listed and PlacedTable
HELD, SLOT, KEY = 8, 48, 16  # reverse_refs' Held and Slot; osm_base's Key
TILE, RUN, CHANGESET = 40, 24, 160  # tile_grid's Tile; changeset_core's Run and Changeset
FEW = 4  # FEW of changeset_core
MEMBER, ENDS, KEPT = 40, 8, 24  # osm_element's Member and Ends; packed_entry's PackedEntry
SEGMENT, SHORT = 1024, 4  # FULL of segment_list; SHORT of osm_base, reverse_refs and tile_grid
APART = 1 << 17
"""From how many bytes on glibc asks the kernel for a block of its own, of which only what was written to takes memory."""
PAGE = 4096
ONCE = 3.5e6
"""The program with its threads and tables, behind the first upload of each of four links: measured, as nothing of it grows with the map."""
MARGIN, SQUARE, CELLS = 0.1, 1_000_000, 100
"""What is measured lies in a square of 0.1 degrees, which has so many cells."""


class Kind(NamedTuple):
    """The elements of a kind: how many, what each lists, and the share that has tags, how many, and the bytes of a key with its value."""

    count: float
    listed: float = 0
    tagged: float = 0
    tags: float = 0
    text: float = 0


class Map(NamedTuple):
    nodes: Kind
    ways: Kind
    relations: Kind
    versions: Shares
    changesets: float
    upload: float
    """Elements an upload."""
    runs: float
    """Runs an upload: versions of one number, whose ids follow each other."""
    cells: float
    moved: float
    """The share of further versions of nodes that lie in a cell in which the node never lay."""
    shared: float
    """The share of the nodes that two ways or relations list, now or before."""
    fresh: float
    """The share of what first versions list that the same upload makes."""
    name: float
    """Bytes of a user's name."""
    note: Kind
    """The tags of changesets."""
    is_even: bool = False
    """Whether each cell has as many nodes as the others."""


def at_random(mean: float) -> Shares:
    """A further version comes as likely to an element with many as to one with few."""
    more = 1 - 1 / mean
    return {number: (1 - more) * more ** (number - 1) for number in range(1, 100)}


def nearest(mean: float) -> Shares:
    least = int(mean)
    return {least: 1 - mean + least, least + 1: mean - least}


def block(size: float) -> float:
    """What malloc takes for a block of just that size."""
    return max(32, (size + 23) // 16 * 16) if size else 0


def about(size: float) -> float:
    """The same for blocks of that size on average: a word, and what rounding to 16 bytes adds."""
    return max(32, size + 16) if size else 0


def resident(room: float, used: float, item: int) -> float:
    """A list with that room, of which only what was written to counts where it is a block of its own."""
    return block(room * item) if room * item < APART else used * item + PAGE / 2


def grown(items: float, ahead: Callable[[int], int], least: int = 0) -> int:
    """The room of a list that was promised so many items one by one."""
    room = least
    while room < items:
        room += max(1, ahead(room))
    return room


def by_halves(room: int) -> int:
    """Of Roomy (osm_base) and KeyList (reverse_refs)."""
    return room // 2 if room > SHORT else 1


def by_halves_and_one(room: int) -> int:
    """Of Tile (tile_grid)."""
    return room // 2 + 1 if room > SHORT else 1


def by_doubling(room: int) -> int:
    """Of Vec."""
    return max(4, room)


def rows(count: float, item: int) -> float:
    """A list in segments, each with its place in a list of them."""
    return -(-count // SEGMENT) * (block(item * SEGMENT) + 24)


def mean_versions(shares: Shares) -> float:
    return sum(number * share for number, share in shares.items())


def table_of(kind: Kind) -> float:
    """The tags of a version: its table, the text and the ends."""
    return kind.tagged * (block(TABLE) + about(kind.tags * kind.text) + about(ENDS * kind.tags))


def lists_of(it: Map, item: int) -> float:
    """What a version of each way and relation lists, behind its pointer, with roles of five bytes in blocks of their own."""
    ways = it.ways.count * (block(LISTED) + about(item * it.ways.listed))
    return ways + it.relations.count * (block(LISTED) + it.relations.listed * MEMBER + 16 + it.relations.listed * block(5))


def versions_of(it: Map) -> float:
    """A list apart of each element with more than one version."""
    return sum(share * block(VERSION * grown(number, by_halves, 2)) for number, share in it.versions.items() if number > 1)


def users_of(it: Map) -> float:
    used = rows(it.nodes.count, HELD) + (rows(it.ways.count + it.relations.count, HELD) if it.relations.count else 0)
    return used + it.shared * it.nodes.count * (SLOT + block(2 * KEY))


def cells_of(it: Map) -> float:
    """Where cells differ their room is the mean over what growth by half comes to."""
    each = it.nodes.count * (1 + it.moved * (mean_versions(it.versions) - 1)) / it.cells
    counts = [each] if it.is_even else [each * 1.5 ** (step / 8) for step in range(-4, 4)]
    ids = sum(resident(grown(count, by_halves_and_one), count, 8) * each / count for count in counts) / len(counts)
    return it.cells * (TILE + ids)


def uploads_of(it: Map) -> float:
    return elements_of(it) * mean_versions(it.versions) / it.upload


def elements_of(it: Map) -> float:
    return it.nodes.count + it.ways.count + it.relations.count


def work_of(it: Map) -> float:
    """The runs of a changeset. Before each upload it has room for a run of each of its elements; behind it, where more than half is free, no more than it needs."""
    room, used = 0.0, 0.0
    for _ in range(max(1, round(uploads_of(it) / it.changesets))):
        if room - used < it.upload:
            room = max(2 * room, used + it.upload)
        used += it.runs
        if room // 2 > used + FEW:
            room = used
    return it.changesets * resident(room, used, RUN)


def changesets_of(it: Map) -> float:
    places = resident(grown(it.changesets, by_doubling), it.changesets, CHANGESET)
    return places + it.changesets * (about(it.name) + table_of(it.note))


def copy_of(it: Map) -> Records:
    """One of a server's two copies of the map, or that of a mirror."""
    versions = mean_versions(it.versions)
    return {
        "rows of elements": sum(rows(kind.count, ROW) for kind in (it.nodes, it.ways, it.relations)),
        "further versions": elements_of(it) * versions_of(it),
        "lists of ways and relations": versions * lists_of(it, 8),
        "tags": versions * sum(kind.count * table_of(kind) for kind in (it.nodes, it.ways, it.relations)),
        "rows of users": users_of(it),
        "cells": cells_of(it),
        "changesets' work": work_of(it),
        "changesets": changesets_of(it),
    }


def number(value: float) -> int:
    """The bytes of a number in a packed entry."""
    return 1 if value < 248 else 3 if value < 1 << 16 else 5 if value < 1 << 32 else 9


def packed_tags(kind: Kind) -> float:
    return 1 + kind.tagged * (number(kind.tags * kind.text) + kind.tags * (2 + kind.text))


def packed_head(it: Map) -> float:
    """Session, call, stamp, the user with a name, a flag and no limit, and which command."""
    return 1 + number(uploads_of(it) / LINKS) + 5 + number(it.changesets / 100) + 1 + it.name + 2 + 1


def packed_ops(it: Map, is_first: bool) -> float:
    """A version of each element: an action, which element, for a further version its number, and what it holds."""
    fresh = it.fresh if is_first else 0
    node = fresh * number(2 * min(it.upload, 120)) + (1 - fresh) * number(it.nodes.count)
    held = (8, 1 + it.ways.listed * node, 1 + it.relations.listed * (2 + 5 + number(it.ways.count)))
    total = 0.0
    for kind, bytes_held in zip((it.nodes, it.ways, it.relations), held):
        which = 1 if is_first else number(kind.count) + 1
        total += kind.count * (1 + which + bytes_held + packed_tags(kind))
    return total


def journal_of(it: Map) -> Records:
    """A packed entry for each upload, and one for each changeset that is opened."""
    uploads, further = uploads_of(it), mean_versions(it.versions) - 1
    head = packed_head(it)
    ops = packed_ops(it, True) + further * packed_ops(it, False)
    entries = uploads + it.changesets
    packed = uploads * about(head + number(it.changesets) + number(it.upload) + ops / uploads)
    opened = it.changesets * about(head + 1 + packed_tags(it.note))
    return {"journal": resident(grown(entries, by_doubling), entries, KEPT) + packed + opened}


LINE = (
    '{"at":1700000000,"call":100000,"command":{"act":"upload","changeset":100000,"osmChange":[{"create":[]}]},'
    '"session":1,"user":{"id":100000,"moderator":false,"name":""}}'
)
"""What a line of the journal has besides its operations and the user's name."""


def text_of(it: Map) -> float:
    """The bytes of the journal's file."""
    digits, nodes = len(f"{it.nodes.count:.0f}"), it.ways.count * it.ways.listed
    node = len('{"id":,"lat7":480000000,"lon7":110000000,"type":"node"},') + digits
    way, relation, member = len('{"id":,"nodes":[],"type":"way"},') + digits, len('{"id":,"members":[],"type":"relation"},') + digits, 50 + digits
    first = it.fresh * 3 + (1 - it.fresh) * (digits + 1)
    once = it.nodes.count * node + it.ways.count * way + it.relations.count * (relation + it.relations.listed * member)
    tags = sum(kind.count * kind.tagged * (10 + kind.tags * (6 + kind.text)) for kind in (it.nodes, it.ways, it.relations))
    further = mean_versions(it.versions) - 1
    versions = (1 + further) * (once + tags) + nodes * (first + further * (digits + 1)) + further * elements_of(it) * len(',"version":2')
    return versions + (uploads_of(it) + it.changesets) * (len(LINE) + it.name) + it.changesets * it.note.tags * (6 + it.note.text)


def tell(it: Map, name: str, records: Records) -> None:
    total = sum(records.values())
    print(f"{name}: {total / it.nodes.count:,.1f} bytes a node, {total / 1e12:,.4g} TB")
    for record, size in records.items():
        print(f"  {record:40}{size / it.nodes.count:10,.1f}{size / 1e12:12,.4f}")


def twice(records: Records) -> Records:
    return {f"two copies: {name}": 2 * size for name, size in records.items()}


def server_of(it: Map) -> Records:
    return journal_of(it) | twice(copy_of(it)) | {"once": ONCE}


def mirror_of(it: Map) -> Records:
    """Its list is a journal's."""
    return journal_of(it) | {f"one copy: {name}": size for name, size in copy_of(it).items()} | {"once": ONCE}


def started_of(it: Map) -> Records:
    """At its most, when all of the journal's text was read: the text is still there, and each entry is packed."""
    return server_of(it) | {"text of the journal": text_of(it)}


def filled(nodes: int, versions: float) -> float:
    """What a server takes beyond what it took when each link had sent its first upload."""
    return sum(server_of(drawn(nodes, versions)).values()) - ONCE


def tell_all(it: Map) -> None:
    tell(it, "a server", server_of(it))
    tell(it, "a mirror", mirror_of(it))
    tell(it, "a server that has read its journal, at most", started_of(it))


def planet() -> Map:
    """OpenStreetMap's own numbers, rounded, as its wiki's page "Stats" counts them. What says "assumed" is a guess."""
    return Map(
        # Tags: assumed; taginfo's "Database statistics" tells how many elements have any, and how many.
        nodes=Kind(1e10, 0, 0.025, 3.5, 20),
        # Nodes a way: assumed.
        ways=Kind(1e9, 10.5, 0.96, 2.7, 20),
        # Members a relation: assumed.
        relations=Kind(1.2e7, 10, 0.99, 4.5, 20),
        versions=at_random(2.5),  # the mean, and how they are spread: assumed
        changesets=1.7e8,  # the number of the last one
        upload=160,  # one upload a changeset: assumed; it is all versions by all changesets
        runs=100,  # first versions in few runs, further ones each a run: assumed
        cells=1e8,  # of 6.48 * 10^8, of which three tenths are land: assumed
        moved=0.02,  # assumed
        shared=0.15,  # assumed
        fresh=0.8,  # assumed
        name=10,  # assumed
        note=Kind(0, 0, 1, 5, 35),  # assumed: a comment, the editor, its version, the imagery and the language
    )


def drawn(nodes: int, versions: float) -> Map:
    """The map that is measured."""
    ways = nodes // A_WAY
    changesets = ways * versions / UPLOADS_A_CHANGESET
    return Map(
        nodes=Kind(nodes),
        ways=Kind(ways, A_WAY),
        relations=Kind(0),
        versions=nearest(versions),
        changesets=max(LINKS, changesets),
        upload=A_WAY + 1,
        runs=2,
        cells=CELLS,
        moved=1 - 1 / CELLS,
        shared=0,
        fresh=1,
        name=len("alice"),
        note=Kind(0),
        is_even=True,
    )


def of_words(words: argparse.Namespace) -> Map:
    """A map of which only what the words tell is known: one upload a changeset, and its new elements in runs of ten."""
    return Map(
        nodes=Kind(words.nodes, 0, words.tagged, words.tags, words.tag_bytes),
        ways=Kind(words.ways, words.nodes_a_way, 1, words.tags, words.tag_bytes),
        relations=Kind(words.relations, words.nodes_a_way, 1, words.tags, words.tag_bytes),
        versions=at_random(words.versions),
        changesets=words.changesets,
        upload=words.upload,
        runs=words.upload / 10,
        cells=max(1, words.nodes / 100),
        moved=0.02,
        shared=0.15,
        fresh=0.8,
        name=10,
        note=Kind(0, 0, 1, 5, 35),
    )


NODE_TEXT = '{{"type":"node","id":{},"lat7":48%07d,"lon7":11%07d{}}}'


def text_with(action: str, nodes: list[int], way: int, version: str) -> str:
    """The body of an upload of ten nodes and a way over them, of which the places are still to be drawn."""
    told_nodes = ",".join(NODE_TEXT.format(node, version) for node in nodes)
    listed = ",".join(map(str, nodes))
    return f'{{"osmChange":[{{"{action}":[{told_nodes},{{"type":"way","id":{way},"nodes":[{listed}]{version}}}]}}]}}'


NEW = text_with("create", list(range(-1, -A_WAY - 1, -1)), -1, "")


def new_texts(count: int) -> Iterator[str]:
    for _ in range(count):
        yield NEW


def further_texts(first: int, count: int, step: int, version: int) -> Iterator[str]:
    """Further versions of ways, each with the ten nodes that came with it: the ids of an upload follow each other."""
    for way in range(first, first + count, step):
        nodes = list(range((way - 1) * A_WAY + 1, way * A_WAY + 1))
        yield text_with("modify", nodes, way, f',"version":{version}')


def send(port: int, seed: int, texts: Iterator[str], count: int) -> None:
    """So many uploads on one link, fifty at a time, and a changeset for each 900."""
    numbers = random.Random(seed)
    places = range(SQUARE)
    for before in range(0, count, UPLOADS_A_CHANGESET):
        left = min(UPLOADS_A_CHANGESET, count - before)
        link = Link(port, "alicetoken")
        path = f"changeset/{link.ask('PUT', 'changeset/create').body.decode()}/upload"
        while left:
            some = min(50, left)
            bodies = [(next(texts) % tuple(numbers.choices(places, k=2 * A_WAY))).encode() for _ in range(some)]
            ask_all(link, [request("POST", path, "alicetoken", body) for body in bodies])
            left -= some
        link.close()


def ask_all(link: Link, requests: list[bytes]) -> None:
    assert link.stream
    link.stream.sendall(b"".join(requests))
    for _ in requests:
        reply = link.replies.next()
        if reply.status != 200:
            raise SystemExit(f"{reply.status} {reply.body[:200]!r}")


def compared(nodes: float, name: str, said: float, taken: float) -> bool:
    """Whether what was measured is what the formula says, but for a tenth."""
    off = said / taken - 1
    measured = f"measured {taken / nodes:,.1f} bytes a node, {taken / 1e6:,.0f} MB"
    print(f"{name}: {measured}; the formula {said / nodes:,.1f}, {100 * off:+.1f} in a hundred", flush=True)
    return abs(off) <= MARGIN


def measure(program: str, nodes: int, is_further: bool) -> bool:
    share = nodes // A_WAY // LINKS
    with Server(program, LINKS, USERS) as server, ThreadPoolExecutor(LINKS) as pool:

        def fill(texts: Callable[[int], Iterator[str]], count: int, seed: int) -> float:
            list(pool.map(lambda link: send(server.port, seed + link, texts(link), count), range(LINKS)))
            return server.megabytes("VmHWM") * 1024 * 1024

        before = fill(lambda _: new_texts(1), 1, 30)
        taken = fill(lambda _: new_texts(share), share, 0) - before
        all_nodes = share * LINKS * A_WAY
        is_right = compared(all_nodes, f"{all_nodes:,} nodes of one version", filled(all_nodes, 1), taken)
        if is_further:
            fill(lambda link: further_texts(LINKS + link * share + 1, share, 1, 1), share, 10)
            taken = fill(lambda link: further_texts(LINKS + link * share + 1, share, 2, 2), -(-share // 2), 20) - before
            is_right = compared(all_nodes, f"{all_nodes:,} nodes of 2.5 versions", filled(all_nodes, 2.5), taken) and is_right
    return is_right


def read_at_start(program: str, nodes: int) -> bool:
    """The peak of a server that begins with a journal that `export` makes, in a changeset for each of its sessions."""
    words = ("export", "--seed", "1", "--sessions", str(SESSIONS), "--uploads", str(nodes // A_WAY))
    it = drawn(nodes, 1)._replace(changesets=SESSIONS)
    with tempfile.TemporaryDirectory() as folder:
        path = os.path.join(folder, "read.journal")
        with open(path, "wb") as file:
            subprocess.run((program, *words), stdout=file, check=True)
        megabytes, begun = os.path.getsize(path) / 1e6, time.monotonic()
        with Server(program, LINKS, USERS, wait=3600, command=("serve", "--journal", path)) as server:
            seconds = time.monotonic() - begun
            most, then = server.megabytes("VmHWM") * 1024 * 1024, server.megabytes() * 1024 * 1024
    print(f"a journal of {megabytes:,.0f} MB: it serves behind {seconds:.2f} seconds, {1000 * seconds / megabytes:.1f} milliseconds a megabyte")
    print(f"once it serves it holds {then / nodes:,.1f} bytes a node")
    return compared(nodes, f"{nodes:,} nodes read at the start", sum(started_of(it).values()), most)


def words_of() -> argparse.Namespace:
    parser = argparse.ArgumentParser(description=(__doc__ or "").split("\n")[0])
    parser.add_argument("--program", default=OSM)
    parser.add_argument("--planet", action="store_true")
    parser.add_argument("--measured", type=int, default=0)
    parser.add_argument("--further", action="store_true")
    parser.add_argument("--read", type=int, default=0)
    defaults = {"nodes": 1e6, "ways": 1e5, "relations": 1e3, "versions": 1, "nodes-a-way": 10, "tagged": 0.03, "tags": 3, "tag-bytes": 20}
    for name, value in (defaults | {"changesets": 1e4, "upload": 100}).items():
        parser.add_argument(f"--{name}", type=float, default=value)
    words = parser.parse_args()
    if words.read > MANY:
        parser.error(f"--read takes at most {MANY}")
    return words


def main() -> int:
    words = words_of()
    if words.read:
        return 0 if read_at_start(os.path.abspath(words.program), words.read) else 1
    if words.measured:
        return 0 if measure(os.path.abspath(words.program), words.measured, words.further) else 1
    tell_all(planet() if words.planet else of_words(words))
    return 0


if __name__ == "__main__":
    sys.exit(main())
