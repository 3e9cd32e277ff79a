#!/usr/bin/env python3
"""Where an upload's instructions go: examples/instructions.py [--program PROGRAM] [--few 200] [--many 600]

Counts by valgrind's callgrind what `osm pipe` does for so few and for so many uploads, of ten new nodes and a way, and of ten new
versions and one. Prints the instructions of one upload, which are the difference by the uploads between, and how they are shared among
functions, in hundredths: each with all that it calls, but for the last rows, which stand for themselves wherever they are called. An
indented row is part of the one above it. Then it prints, in the same way, the instructions of each node in a map of 1,000 nodes, with
its share of the request. PROGRAM is crates/osm/out/osm where none is named. Needs Debian's valgrind.
"""

from __future__ import annotations

import argparse
import os
import re
import shutil
import subprocess
import sys
import tempfile
from collections import Counter
from concurrent.futures import ThreadPoolExecutor
from typing import NamedTuple

# Callgrind counts a repeated instruction once for each byte, so the C library is to fill and copy by other ones.
NO_REPEATS = {"GLIBC_TUNABLES": "glibc.cpu.hwcaps=-ERMS"}
HERE = os.path.dirname(os.path.abspath(__file__))
USERS = "1 alicetoken user alice\n"
UPLOADS = ("new", "versions")
"""Each kind of upload."""
NODES = 1_000
"""How many nodes the map has that is read."""
LINE = re.compile(r"\s*([\d,]+) \([ .\d]+%\)\s+[^ :]*:(.*?)(?:::<.*?)?(?: \[[^\]]*\])?$")


class Row(NamedTuple):
    """A row of the table."""

    name: str
    functions: tuple[str, ...]
    """Patterns of names, of which the first counts that is found: a function may be built into the one that calls it."""
    without: str = ""
    """What they call, and isn't part of the row."""
    alone: bool = False
    """Whether it is without all that they call."""


MACHINE = "map_machine::machine::MapMachineMachine::"
PLAN = f"{MACHINE}plan|map_machine::planning::plan_command"
REQUEST = "api_desk::requests::request_of"
ANSWER = r"api_desk::hub_desk::HubDesk\w*::answer"
ROWS = (
    Row("reading the message", (r"http_wire::wire::Wire::read_message",)),
    Row("reading the request", (REQUEST,)),
    Row("  reading the body", ("osm_json::blocks::blocks", "osm_json::change::read_change")),
    Row("planning", ("snapshot_hub::session::Session::plan", PLAN)),
    Row("committing", (ANSWER,), without=f"{REQUEST}|snapshot_hub::session::Session::plan"),
    Row("  judging", (r"hub_core::\w+::(\w+::)?(judge|settle_by)", f"{MACHINE}(still|settle)|map_machine::machine::settle_upload")),
    Row("    the answer's bytes", ("map_machine::answers::bytes_of", "map_machine::machine::bytes_from")),
    Row("  publishing", ("snapshot_hub::held::Held::publish", "snapshot_hub::press::Press::publish", "snapshot_hub::held::publish_for")),
    Row("    test of the entry", (f"{MACHINE}accepts", "map_machine::acceptance::takes")),
    Row("    room", (f"{MACHINE}make_room", "osm_world::worlds::World::make_room")),
    Row("    applying", (f"{MACHINE}apply", "osm_world::worlds::World::apply")),
    Row("  copies of the entry", (f"{MACHINE}copy", "osm_model::commands::EntryTryCopy::copy")),
    Row("memcpy, memmove", (".*mem(cpy|move).*",), alone=True),
    Row("memset", (".*memset.*",), alone=True),
    Row("malloc and its kin", ("(.*_)?(malloc|free|realloc|calloc)(_.*)?|unlink_chunk.*|rattle_(|re|de)alloc.*",), alone=True),
)


def matched(costs: Counter[str], pattern: str) -> int:
    return sum(count for name, count in costs.items() if re.fullmatch(pattern, name))


class Costs(NamedTuple):
    """Instructions by function, with what each calls and without."""

    whole: Counter[str]
    alone: Counter[str]

    def of(self, row: Row) -> int:
        among = self.alone if row.alone else self.whole
        return next(filter(None, (matched(among, it) for it in row.functions)), 0) - matched(among, row.without)


def output(*words: str, given: str = "") -> str:
    done = subprocess.run(words, input=given, capture_output=True, text=True, check=False, env=os.environ | NO_REPEATS)
    if done.returncode:
        raise SystemExit(f"{words[0]} ended with status {done.returncode}: {done.stderr[-600:]}")
    return done.stdout


def costs_in(path: str, inclusive: str) -> Counter[str]:
    """By the names of functions, without their files and without what stands for their types."""
    costs: Counter[str] = Counter()
    for line in output("callgrind_annotate", f"--inclusive={inclusive}", "--threshold=100", "--auto=no", path).splitlines():
        found = LINE.match(line)
        if found:
            costs[found[2]] += int(found[1].replace(",", ""))
    return costs


def request(method: str, path: str, body: str) -> str:
    head = f"{method} /api/0.6/{path} HTTP/1.1\r\nAuthorization: Bearer alicetoken\r\n"
    return f"{head}Content-Length: {len(body)}\r\n\r\n{body}"


def eleven(number: int, version: int = 0) -> str:
    """An upload of ten nodes and a way over them: new ones, or versions behind this one of the first that were made."""
    sign, action = (1, "modify") if version else (-1, "create")
    old = f',"version":{version}' if version else ""
    places = ((480_000_000 + (7_919 * number + 104_729 * i) % 1_000_000, 110_000_000 + (104_729 * number + 7_919 * i) % 1_000_000) for i in range(1, 11))
    elements = [f'{{"type":"node","id":{sign * i}{old},"lat7":{lat7},"lon7":{lon7}}}' for i, (lat7, lon7) in enumerate(places, 1)]
    way = ",".join(str(sign * i) for i in range(1, 11))
    elements.append(f'{{"type":"way","id":{sign}{old},"nodes":[{way}]}}')
    return request("POST", "changeset/1/upload", f'{{"osmChange":[{{"{action}":[{",".join(elements)}]}}]}}')


def sent(kind: str, uploads: int) -> str:
    """So many uploads of a kind to one changeset. Before new versions the elements are made."""
    made = [request("PUT", "changeset/create", ""), eleven(0)]
    versions = kind == "versions"
    return "".join(made + [eleven(number, number if versions else 0) for number in range(1, uploads + 1)])


def read(times: int) -> str:
    """A map of nodes with a tag each, read so many times."""
    nodes = [f'{{"type":"node","id":{-i},"lat7":{480_000_000 + 97 * i},"lon7":{110_000_000 + 89 * i},"tags":{{"natural":"tree"}}}}' for i in range(1, NODES + 1)]
    made = [request("PUT", "changeset/create", ""), request("POST", "changeset/1/upload", f'{{"osmChange":[{{"create":[{",".join(nodes)}]}}]}}')]
    return "".join(made + [request("GET", "map?bbox=11,48,11.1,48.1", "")] * times)


def counted(program: str, given: str, wanted: int) -> Costs:
    """The costs of requests, so many of which must be answered with 200."""
    with tempfile.TemporaryDirectory() as folder:
        path = os.path.join(folder, "callgrind.out")
        users = os.path.join(folder, "users.txt")
        with open(users, "w", encoding="ascii") as file:
            file.write(USERS)
        words = ("valgrind", "-q", "--tool=callgrind", f"--callgrind-out-file={path}", program, "pipe", "--users", users)
        replies = output(*words, given=given).count("HTTP/1.1 200 OK")
        if replies != wanted:
            raise SystemExit(f"{replies} of {wanted} requests were answered with 200")
        return Costs(costs_in(path, "yes"), costs_in(path, "no"))


def of_one(program: str, kind: str, few: int, many: int) -> Costs:
    """What one upload costs, in thousandths of an instruction."""
    less, more = (counted(program, sent(kind, uploads), uploads + 2) for uploads in (few, many))
    return Costs(*(Counter({name: 1000 * (count - old[name]) // (many - few) for name, count in new.items()}) for old, new in zip(less, more)))


def of_node(program: str, few: int, many: int) -> float:
    """The instructions of each node of a map that is read, by so few reads and so many."""
    less, more = (counted(program, read(times), times + 2).alone.total() for times in (few, many))
    return (more - less) / (many - few) / NODES


def table(columns: dict[str, Costs]) -> None:
    print(f"{'':24}" + "".join(f"{name:>16}" for name in columns))
    alls = [costs.alone.total() for costs in columns.values()]
    print(f"{'instructions':24}" + "".join(f"{count / 1000:16,.0f}" for count in alls))
    for row in ROWS:
        shares = (100 * costs.of(row) / count for costs, count in zip(columns.values(), alls))
        print(f"{row.name:24}" + "".join(f"{share:16.1f}" if share else f"{'-':>16}" for share in shares))


def main() -> int:
    parser = argparse.ArgumentParser(description=(__doc__ or "").split("\n")[0])
    parser.add_argument("--program", default=os.path.join(HERE, "..", "crates", "osm", "out", "osm"))
    parser.add_argument("--few", type=int, default=200)
    parser.add_argument("--many", type=int, default=600)
    words = parser.parse_args()
    if not os.access(words.program, os.X_OK):
        parser.error(f"there is no program {words.program}: rt ci builds it")
    if not shutil.which("valgrind"):
        parser.error("there is no valgrind (apt-get install)")
    if words.many <= words.few:
        parser.error("--many has to be above --few")
    with ThreadPoolExecutor(2) as pool:
        costs = pool.map(lambda kind: of_one(words.program, kind, words.few, words.many), UPLOADS)
        node = pool.submit(of_node, words.program, 5, 25)
        table(dict(zip(UPLOADS, costs)))
        print(f"{'a node of a map':24}{node.result():16,.0f}")
    return 0


if __name__ == "__main__":
    sys.exit(main())
