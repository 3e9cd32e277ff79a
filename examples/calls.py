"""What calls of the program cost: python3 examples/calls.py [PROGRAM]

Runs `pipe` on pipelined requests from a file, and gives for each kind of work the least processor time
of some runs, less that of the same run without it: the start of the program, and the making of the map
that is read. PROGRAM is crates/osm/out/osm where none is named.
"""

from __future__ import annotations

import json
import os
import sys
import tempfile
from collections.abc import Iterator
from typing import Any

RUNS = 5
USERS = "1 alicetoken user alice\n"
NODES = 9_999
MEMBERS = 32_000


def request(method: str, path: str, body: Any = None) -> bytes:
    head = f"{method} /api/0.6/{path} HTTP/1.1\r\nAuthorization: Bearer alicetoken\r\n"
    if body is None:
        return (head + "\r\n").encode()
    text = json.dumps(body, separators=(",", ":"))
    return f"{head}Content-Type: application/json\r\nContent-Length: {len(text)}\r\n\r\n{text}".encode()


def opened(count: int = 1) -> bytes:
    return request("PUT", "changeset/create") * count


def upload(changeset: int, action: str, elements: list[dict[str, Any]]) -> bytes:
    return request("POST", f"changeset/{changeset}/upload", {"osmChange": [{action: elements}]})


def node(number: int, tags: dict[str, str] | None = None) -> dict[str, Any]:
    place = {"lat7": 481_000_000 + number * 7, "lon7": 115_000_000 + number}
    return {"type": "node", "id": -number, **place, **({"tags": tags} if tags else {})}


def nodes(changeset: int, count: int = NODES, tags: dict[str, str] | None = None) -> bytes:
    return upload(changeset, "create", [node(i + 1, tags) for i in range(count)])


def eleven() -> bytes:
    way = {"type": "way", "id": -1, "nodes": [-i for i in range(1, 11)]}
    return upload(1, "create", [node(i) for i in range(1, 11)] + [way])


def single() -> bytes:
    return request("PUT", "node/create", {**node(1), "changeset": 1})


def gets(path: str, count: int = 998) -> bytes:
    return request("GET", path) * count


def relation(version: int) -> bytes:
    """A relation of the first nodes; a later version is without the one in its middle."""
    refs = [i + 1 for i in range(MEMBERS) if not version or i != MEMBERS // 2]
    members = [{"type": "node", "ref": ref} for ref in refs]
    if version:
        return upload(5, "modify", [{"type": "relation", "id": 1, "version": version, "members": members}])
    return upload(5, "create", [{"type": "relation", "id": -1, "members": members}])


def works() -> Iterator[tuple[str, bytes, bytes]]:
    """For each work its name, what comes before it, and its requests."""
    two = {"highway": "bus_stop", "name": "Marienplatz"}
    one = opened() + eleven()
    many = opened() + nodes(1)
    ten = "nodes?nodes=" + ",".join(str(i) for i in range(1, 11))
    yield "1,000 creations of changesets", b"", opened(1_000)
    yield "an upload of 9,999 nodes with two tags each", opened(), nodes(1, tags=two)
    for count in (249, 499, 908):
        yield f"{count} uploads of 11 elements each", opened(), eleven() * count
    yield "999 creations of single nodes", opened(), single() * 999
    for path in ("node/1", "node/1/1", "node/1/history", ten, "node/77", "nowhere"):
        yield f"998 GETs of {path}", one, gets(path)
    for path in ("changeset/1", "changesets", "node/1/ways", "way/1/full"):
        yield f"998 GETs of {path}", one, gets(path)
    yield "20 maps of 9,999 nodes", many, gets("map?bbox=11.4,48,11.6,48.2", 20)
    yield "20 downloads of 9,999 versions", many, gets("changeset/1/download", 20)
    whole = opened(5) + b"".join(nodes(i) for i in range(1, 5))
    yield "a relation of 32,000 members", whole, relation(0)
    yield "one member of 32,000 taken out", whole + relation(0), relation(1)


def run(program: str, folder: str, requests: bytes) -> tuple[float, int]:
    """The processor time in milliseconds, and the bytes written."""
    paths = [f"{folder}/{name}" for name in ("in", "out", "users")]
    for path, data in zip(paths, (requests, b"", USERS.encode())):
        with open(path, "wb") as it:
            it.write(data)
    words = [program, "pipe", "--users", paths[2], "--at", "1700000000"]
    streams = [(os.POSIX_SPAWN_OPEN, it, paths[it], (os.O_RDONLY, os.O_WRONLY)[it], 0o600) for it in (0, 1)]
    _, status, used = os.wait4(os.posix_spawn(program, words, os.environ, file_actions=streams), 0)
    if status:
        sys.exit(f"{program} ended with status {os.waitstatus_to_exitcode(status)}")
    return 1000 * (used.ru_utime + used.ru_stime), os.path.getsize(paths[1])


def least(program: str, folder: str, requests: bytes) -> tuple[float, int]:
    return min(run(program, folder, requests) for _ in range(RUNS))


def main() -> None:
    here = os.path.dirname(os.path.abspath(__file__))
    program = sys.argv[1] if len(sys.argv) > 1 else f"{here}/../crates/osm/out/osm"
    if not os.access(program, os.X_OK):
        sys.exit(f"there is no program {program}: ./osm build makes it")
    with tempfile.TemporaryDirectory() as folder:
        for name, before, requests in works():
            took, written = least(program, folder, before)
            time, size = least(program, folder, before + requests)
            print(f"{name}: {time - took:.1f} ms, {len(requests):,} bytes read, {size - written:,} written")


if __name__ == "__main__":
    main()
