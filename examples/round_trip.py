#!/usr/bin/python3
"""Files there and back: examples/round_trip.py [--program ./osm] [--blocks 5] [PART ..]

Starts `PROGRAM serve` on a free port for each part, and compares what comes by same_osm.py. Needs Debian's
python3-pyosmium and python3-tqdm, and for `drawn` python3-matplotlib. Status 0 where all parts are as they must be:

- apart: same_osm.py tells a map from others that differ little;
- whole: a made-up town is imported and exported, all of it, and by a box that is too large for one call;
- drawn: the picture of the town has the colours of what the town has;
- killed: the importer is killed on its way, twice, and started again;
- lost: requests come half, and replies don't come;
- changed: a .osc is applied by the table of an import;
- met: a .osc meets somebody else's change.
"""

from __future__ import annotations

import argparse
import os
import signal
import socket
import subprocess
import sys
import tempfile
import threading
import time
from collections.abc import Callable
from functools import partial
from typing import BinaryIO
from xml.sax.saxutils import quoteattr

import import_osm
import osm_file
import same_osm
import serving
from map_client import KINDS, Client, Element, Key, key
from serving import Server, Wrong, trial_status

HERE = os.path.dirname(os.path.abspath(__file__))
USERS = "1 alicetoken user alice\n2 bobtoken user bob\n"
SMALL_BOX, LARGE_BOX = "-30.1,44.9,-29.9,45.1", "-31,44,-29,46"


def start(name: str, *words: str) -> subprocess.Popen[str]:
    """One of this folder's programs, with a user's token."""
    environment = os.environ | {"HEGUNSAP_TOKEN": "alicetoken"}
    return subprocess.Popen([os.path.join(HERE, name), *words], stdout=subprocess.PIPE, stderr=subprocess.PIPE, text=True, env=environment)


def run(name: str, *words: str, status: int = 0) -> str:
    process = start(name, *words)
    out, err = process.communicate()
    if process.returncode != status:
        raise Wrong(f"{name} {' '.join(words)} ended with status {process.returncode}: {err[-2000:]}{out[-500:]}")
    return out + err


def url(port: int) -> str:
    return f"http://127.0.0.1:{port}"


def importing(port: int, *more: str) -> tuple[str, ...]:
    return ("--server", url(port), "--links", "3", "--size", "300", *more)


def check_map(port: int, wanted: str, folder: str) -> None:
    """The whole map is that of the file."""
    found = os.path.join(folder, f"found{len(os.listdir(folder))}.osm.pbf")
    run("export_osm.py", "--server", url(port), found)
    run("same_osm.py", "--clipped", wanted, found)


def next_request(stream: BinaryIO) -> bytes:
    """Head and body of a request; nothing at the end of the link."""
    head, length = b"", 0
    while (line := stream.readline()) not in (b"", b"\r\n"):
        head += line
        if line.lower().startswith(b"content-length:"):
            length = int(line.partition(b":")[2])
    return head + line + stream.read(length) if head else b""


class Lossy:
    """A port before a server's. Of the uploads, counted from 1, some come only half, and of some the reply is lost."""

    def __init__(self, port: int, halved: set[int], unheard: set[int]) -> None:
        self.server, self.halved, self.unheard = port, halved, unheard
        self.lock, self.uploads = threading.Lock(), 0
        self.listener = socket.create_server(("127.0.0.1", 0))
        self.port: int = self.listener.getsockname()[1]
        threading.Thread(target=self.accept, daemon=True).start()

    def accept(self) -> None:
        while True:
            stream, _ = self.listener.accept()
            threading.Thread(target=self.serve, args=(stream,), daemon=True).start()

    def serve(self, client: socket.socket) -> None:
        with client, serving.connect(self.server) as server, client.makefile("rb") as requests:
            replies = serving.Replies(server)
            while request := next_request(requests):
                number = self.count(request)
                server.sendall(request[: len(request) // 2] if number in self.halved else request)
                if number in self.halved:
                    return
                reply = replies.next()
                if number in self.unheard:
                    return
                end = "Connection: close\r\n" if reply.closes else ""
                told = f"HTTP/1.1 {reply.status} .\r\nContent-Length: {len(reply.body)}\r\n{end}\r\n"
                client.sendall(told.encode() + reply.body)

    def count(self, request: bytes) -> int:
        """The number of an upload; 0 of any other request."""
        if not request.partition(b"\r\n")[0].endswith(b"/upload HTTP/1.1"):
            return 0
        with self.lock:
            self.uploads += 1
            return self.uploads


# ---- the parts


def apart(_: Server, town: str, __: str) -> None:
    """same_osm.py tells a map from those that differ in one thing, and not from one with other ids."""
    elements = osm_file.read(town)
    end = {kind: max(number for name, number in elements if name == kind) for kind in KINDS}
    turned = [with_ids(it, lambda kind, number: end[kind] + 1 - number) for it in elements.values()]
    renamed = {key(it): it for it in turned}
    others = [{**elements, **changed} for changed in one_changes(elements)]
    found = [any(same_osm.alone([elements, it], True)) for it in (renamed, *others)]
    if found != [False] + [True] * len(others):
        raise Wrong(f"of the same map and of {len(others)} others it says {found}")


def with_ids(it: Element, new: Callable[[str, int], int]) -> Element:
    nodes = {"nodes": [new("node", number) for number in it["nodes"]]} if "nodes" in it else {}
    members = {"members": [{**one, "ref": new(one["type"], one["ref"])} for one in it["members"]]} if "members" in it else {}
    return {**it, "id": new(it["type"], it["id"]), **nodes, **members}


def one_changes(elements: dict[Key, Element]) -> list[dict[Key, Element]]:
    """A node moved, with a tag, and twice; a way turned round, and with a node of its own where it shared one; another
    role, and members in another order."""
    node, way, relation = (next(it for name, it in elements.items() if name[0] == kind) for kind in KINDS)
    twin = {**node, "id": max(number for kind, number in elements if kind == "node") + 1}
    user = next(it for it in elements.values() if node["id"] in it.get("nodes", ()))
    of_twin = {**user, "nodes": [twin["id"] if number == node["id"] else number for number in user["nodes"]]}
    members = relation["members"]
    changed: list[list[Element]] = [
        [{**node, "lat7": node["lat7"] + 1}],
        [{**node, "tags": {"a": "b"}}],
        [twin],
        [{**way, "nodes": way["nodes"][::-1]}],
        [twin, of_twin],
        [{**relation, "members": [{**members[0], "role": "x"}, *members[1:]]}],
        [{**relation, "members": members[::-1]}],
    ]
    return [{key(it): it for it in some} for some in changed]


def whole(server: Server, town: str, folder: str) -> None:
    """The second import finds that all was sent."""
    for _ in range(2):
        run("import_osm.py", *importing(server.port, town))
    check_map(server.port, town, folder)
    small, large = (os.path.join(folder, name) for name in ("small.osm", "large.osm"))
    run("export_osm.py", "--server", url(server.port), f"--box={SMALL_BOX}", small)
    run("export_osm.py", "--server", url(server.port), f"--box={LARGE_BOX}", large)
    run("same_osm.py", small, large)
    run("same_osm.py", small, town, status=1)


def drawn(server: Server, town: str, folder: str) -> None:
    """An area has the colour of its fill, whether a way or a multipolygon is filled, and a line that of its stroke."""
    run("import_osm.py", *importing(server.port, town))
    picture = os.path.join(folder, "town.svg")
    run("draw.py", "--server", url(server.port), "--box=-30.003,44.998,-29.993,45.006", picture)
    with open(picture, encoding="utf-8") as file:
        text = file.read()
    fills = {"house": "#c9b8ab", "water": "#9cc5e0", "park": "#bfe0a8", "wood": "#93bf86", "islet": "#b9d9a0", "tree": "#4f8a45"}
    strokes = {"primary": "#e8925a", "secondary": "#f4d06f", "footway": "#c08457", "coastline": "#5b93b8"}
    wanted = {name: f"fill: {it}" for name, it in fills.items()} | {name: f"stroke: {it}" for name, it in strokes.items()}
    missing = [name for name, it in wanted.items() if it not in text]
    if missing:
        raise Wrong(f"the picture has no {', '.join(missing)}")


def killed(server: Server, town: str, folder: str) -> None:
    """Ends the importer behind its second and its fifth upload, and starts it again."""
    notes = f"{town}.sent"
    for uploads in (2, 5):
        process = start("import_osm.py", *importing(server.port, town))
        while process.poll() is None and lines_with(notes, '"made"') < uploads:
            time.sleep(0.001)
        process.send_signal(signal.SIGKILL)
        process.communicate()
        if process.returncode != -signal.SIGKILL:
            raise Wrong(f"the importer was done before {uploads} uploads were")
    run("import_osm.py", *importing(server.port, town))
    check_map(server.port, town, folder)


def lines_with(path: str, text: str) -> int:
    if not os.path.exists(path):
        return 0
    with open(path, encoding="utf-8") as file:
        return sum(text in line for line in file)


def lost(server: Server, town: str, folder: str) -> None:
    lossy = Lossy(server.port, {2, 6}, {1, 5, 8})
    run("import_osm.py", *importing(lossy.port, town))
    check_map(server.port, town, folder)
    again = lines_with(f"{town}.sent", '"changeset"') - lines_with(f"{town}.sent", '"made"')
    if again != 2:
        raise Wrong(f"{again} uploads were sent again, where 2 hadn't come whole")


def changes(elements: dict[Key, Element]) -> tuple[list[str], dict[Key, Element]]:
    """The lines of a .osc, and what the elements are after it: a node moved, a way turned round over a new node, the
    circle of sites deleted, and a fence with its nodes."""
    after = dict(elements)
    ways = [it for it in elements.values() if it["type"] == "way"]
    house = next(it for it in ways if "building" in it["tags"])
    fence = next(it for it in ways if it["tags"].get("barrier") == "fence")
    sites = [name for name, it in elements.items() if it["tags"].get("type") == "site"]
    corner = elements["node", house["nodes"][0]]
    after["node", corner["id"]] = {**corner, "lat7": corner["lat7"] + 5, "tags": {"entrance": "yes"}}
    after["node", -1] = {"type": "node", "id": -1, "lat7": 450000000, "lon7": -300000000, "tags": {"new": "ü"}}
    after["way", house["id"]] = {**house, "nodes": [*house["nodes"][::-1], -1]}
    gone = [*sites, ("way", fence["id"]), *(("node", number) for number in set(fence["nodes"]))]
    for name in gone:
        del after[name]
    written = [xml(after[name]) for name in (("node", corner["id"]), ("node", -1), ("way", house["id"]))]
    deleted = "".join(f'<{kind} id="{number}" version="2"/>' for kind, number in reversed(gone))
    blocks = [*(f"<modify>{it}</modify>" for it in written), f"<delete>{deleted}</delete>"]
    return ["<osmChange version='0.6'>", *blocks, "</osmChange>"], after


def xml(it: Element) -> str:
    """A node or a way of a .osc."""
    place = f' lat="{it["lat7"] / 1e7:.7f}" lon="{it["lon7"] / 1e7:.7f}"' if it["type"] == "node" else ""
    parts = "".join(f'<nd ref="{number}"/>' for number in it.get("nodes", ()))
    parts += "".join(f"<tag k={quoteattr(name)} v={quoteattr(value)}/>" for name, value in it["tags"].items())
    return f'<{it["type"]} id="{it["id"]}" version="2"{place}>{parts}</{it["type"]}>'


def changed(server: Server, town: str, folder: str) -> None:
    run("import_osm.py", *importing(server.port, town))
    lines, after = changes(osm_file.read(town))
    wanted, change = (os.path.join(folder, name) for name in ("after.osm.pbf", "change.osc"))
    osm_file.write(wanted, after.values())
    with open(change, "w", encoding="utf-8") as file:
        file.writelines(lines)
    run("import_osm.py", *importing(server.port, "--ids", f"{town}.ids", change))
    check_map(server.port, wanted, folder)


def met(server: Server, town: str, folder: str) -> None:
    """Somebody moves the node that a .osc changes; it is refused, and taken with the table set to what was found."""
    run("import_osm.py", *importing(server.port, town))
    elements, table = osm_file.read(town), import_osm.read_table(f"{town}.ids")
    name = next(name for name, it in elements.items() if it["tags"].get("natural") == "tree")
    bob = Client(url(server.port), "bobtoken")
    changeset = bob.ask("PUT", "changeset/create")
    number, version = table[name]
    bob.ask("PUT", f"node/{number}", {"changeset": changeset, "version": version, "lat7": 1, "lon7": 1})
    change = os.path.join(folder, "met.osc")
    with open(change, "w", encoding="utf-8") as file:
        file.write(f"<osmChange version='0.6'><modify>{xml(elements[name])}</modify></osmChange>")
    words = importing(server.port, "--ids", f"{town}.ids", change)
    told = run("import_osm.py", *words, status=1)
    if f"node {name[1]} of the file: 409 version (found 2" not in told:
        raise Wrong(f"the refusal isn't told: {told}")
    import_osm.write_table(f"{town}.ids", {**table, name: (number, 2)})
    run("import_osm.py", *words)
    check_map(server.port, town, folder)


PARTS = {it.__name__: it for it in (apart, whole, drawn, killed, lost, changed, met)}


def tried(it: argparse.Namespace, name: str) -> None:
    begun = time.monotonic()
    with tempfile.TemporaryDirectory() as folder, Server(it.program, 4, USERS) as server:
        town = os.path.join(folder, "town.osm.pbf")
        count = run("town.py", "--blocks", str(it.blocks), town).split()[1]
        PARTS[name](server, town, folder)
    print(f"{name}: {count} elements, as they must be ({time.monotonic() - begun:.1f} s)")


def main() -> int:
    parser = argparse.ArgumentParser(usage=(__doc__ or "").split("\n\n")[0].partition(": ")[2])
    parser.add_argument("--program", default=serving.OSM)
    parser.add_argument("--blocks", type=int, default=5)
    parser.add_argument("parts", nargs="*", metavar="PART")
    it = parser.parse_args()
    if not PARTS.keys() >= set(it.parts):
        parser.error(f"the parts are {', '.join(PARTS)}")
    return max([trial_status(partial(tried, it, name), name) for name in it.parts or PARTS])


if __name__ == "__main__":
    sys.exit(main())
