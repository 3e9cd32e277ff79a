#!/usr/bin/python3
"""What a file costs to load and to write back: examples/file_costs.py --box WEST,SOUTH,EAST,NORTH [--program ./osm]
    [--workers 8] [--links 1,2,4] FILE

Starts `PROGRAM serve` on a free port for each number of links, loads FILE over so many, and writes the map back, whole and
of the box; at the end once more, with the importer killed in the middle and started again. What comes back is compared by
same_osm.py with what the file has, but for references to what it hasn't. Needs Debian's python3-pyosmium and python3-tqdm.
Status 0 where all is as it must be.
"""

from __future__ import annotations

import argparse
import os
import re
import resource
import shutil
import signal
import sys
import tempfile
import time
from functools import partial

import osm_file
import same_osm
import serving
from export_osm import Box, box_of, degrees
from map_client import Element, Key, references
from round_trip import USERS, lines_with, run, start, url
from serving import Server, Wrong, trial_status

Map = dict[Key, Element]


class Costs:
    """The time that something takes, and how much of the processor the server and its clients have of it."""

    def __init__(self, server: Server) -> None:
        self.server = server
        self.begun = self.now()

    def now(self) -> tuple[float, ...]:
        clients = resource.getrusage(resource.RUSAGE_CHILDREN)
        return time.monotonic(), *self.server.seconds(), clients.ru_utime + clients.ru_stime

    def told(self, count: int) -> str:
        wall, own, kernel, client = (end - begin for begin, end in zip(self.begun, self.now(), strict=True))
        rate = f"{count:,} elements in {wall:.2f} s, {count / wall:,.0f} a second"
        return f"{rate}; processor time: server {own:.2f} + {kernel:.2f} s, client {client:.2f} s"


def listing(elements: Map, kind: str, listed: set[Key]) -> set[Key]:
    return {name for name, it in elements.items() if name[0] == kind and not listed.isdisjoint(references(it))}


def inside(elements: Map, box: Box) -> Map:
    """What the map of a box has: its nodes, the ways over them with all their nodes, the relations that list any of
    these, and those that list such relations."""
    west, south, east, north = box
    nodes = {name for name, it in elements.items() if west <= it.get("lon7", -(10**10)) <= east and south <= it["lat7"] <= north}
    ways = listing(elements, "way", nodes)
    nodes |= {ref for name in ways for ref in references(elements[name])} & elements.keys()
    relations = listing(elements, "relation", nodes | ways)
    return {name: elements[name] for name in nodes | ways | relations | listing(elements, "relation", relations)}


def importing(server: Server, links: int, path: str) -> tuple[str, ...]:
    return ("--server", url(server.port), "--links", str(links), path)


def check_export(server: Server, what: str, wanted: Map, path: str, *more: str) -> None:
    """Writes the map, and compares it with the wanted one."""
    costs = Costs(server)
    run("export_osm.py", "--server", url(server.port), *more, path)
    told = costs.told(len(wanted))
    if any(same_osm.alone([wanted, osm_file.read(path)], True)):
        raise Wrong(f"{what}: what comes back isn't what was sent")
    print(f"{what}: {told}", flush=True)


def loaded(server: Server, links: int, path: str, box: Box) -> None:
    elements = osm_file.read(path)
    costs = Costs(server)
    told = run("import_osm.py", *importing(server, links, path))
    print(f"links {links}, loaded: {costs.told(len(elements))}; at the end the server holds {server.megabytes():.0f} MB")
    for line in re.findall(r"^left out: .*|^\d+ operations in .*", told, re.MULTILINE):
        print(f"  {line}")
    check_export(server, f"links {links}, written back", elements, f"{path}.whole.osm.pbf")
    edges = ",".join(degrees(it) for it in box)
    check_export(server, "the box", inside(elements, box), f"{path}.box.osm.pbf", f"--box={edges}")


def broken_off(server: Server, links: int, path: str, uploads: int) -> None:
    """Kills the importer once so many uploads came back, and starts it again."""
    process = start("import_osm.py", *importing(server, links, path))
    while process.poll() is None and lines_with(f"{path}.sent", '"made"') < uploads:
        time.sleep(0.001)
    process.send_signal(signal.SIGKILL)
    process.communicate()
    if process.returncode != -signal.SIGKILL:
        raise Wrong(f"the importer was done before {uploads} uploads were")
    made, sent = (lines_with(f"{path}.sent", word) for word in ('"made"', '"before"'))
    print(f"killed: {sent} uploads were sent, and of {made} the reply was noted")
    told = run("import_osm.py", *importing(server, links, path))
    again = lines_with(f"{path}.sent", '"before"') - lines_with(f"{path}.sent", '"made"')
    print(f"  started again: {again} of them hadn't come, and were sent anew; " + re.findall(r"\d+ operations in .*", told)[0])
    check_export(server, "written back", osm_file.read(path), f"{path}.again.osm.pbf")


def tried(it: argparse.Namespace, links: list[int], number: int) -> None:
    """Loads over so many links, or breaks off where it is none."""
    with tempfile.TemporaryDirectory() as folder, Server(it.program, it.workers, USERS) as server:
        path = shutil.copy(it.file, os.path.join(folder, os.path.basename(it.file)))
        if number:
            loaded(server, number, path, it.box)
        else:
            broken_off(server, links[-1], path, uploads=15)


def main() -> int:
    parser = argparse.ArgumentParser(usage=(__doc__ or "").split("\n\n")[0].partition(": ")[2])
    parser.add_argument("--program", default=serving.OSM)
    parser.add_argument("--workers", type=int, default=8)
    parser.add_argument("--links", default="1,2,4")
    parser.add_argument("--box", type=box_of, required=True)
    parser.add_argument("file")
    it = parser.parse_args()
    links = [int(number) for number in it.links.split(",")]
    return next(filter(None, (trial_status(partial(tried, it, links, number)) for number in (*links, 0))), 0)


if __name__ == "__main__":
    sys.exit(main())
