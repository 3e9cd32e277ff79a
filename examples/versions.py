#!/usr/bin/env python3
"""What new versions cost beside new elements: examples/versions.py [--program PROGRAM] [--workers 1,4] [--seconds 3]

Fills a square of 0.1 degrees with 50,000 nodes and ways over ten of them each. Then a link for each worker uploads ten new nodes and a way
over them, over and over, and after that new versions of ten of the nodes, moved within the square, and of their way. Prints uploads a
second of both kinds, and the second by the first. Needs wrk.
"""

from __future__ import annotations

import argparse
import os
import subprocess
import tempfile

from load import CHANGESETS, LUA, TOKEN, threads_for, told, wrk
from serving import OSM, Link, Server

USERS = f"1 {TOKEN} user alice\n"
WAYS = 5_000
FILLS = 20
"""How many uploads fill the square."""
CHANGES = """
local threads = 0
function setup(thread) thread:set("number", threads); threads = threads + 1 end
function init(args)
  math.randomseed(number + 1)
  at, left, bodies = tonumber(args[1]) + number * tonumber(args[2]), 900, {}
  -- wrk asks its first thread for one request that it doesn't send
  turn = number == 0 and -1 or 0
  ways = tonumber(args[3])
  for k = 1, ways do
    local way, parts, refs = number * ways + k, {}, {}
    for i = 1, 10 do
      local node = 10 * (way - 1) + i
      refs[i] = node
      parts[i] = string.format('{"type":"node","id":%d,"version":%%d,"lat7":%d,"lon7":%d}', node, 480000000 + math.random(1000000), 110000000 + math.random(1000000))
    end
    parts[11] = string.format('{"type":"way","id":%d,"version":%%d,"nodes":[%s]}', way, table.concat(refs, ","))
    bodies[k] = '{"osmChange":[{"modify":[' .. table.concat(parts, ",") .. ']}]}'
  end
end
function request()
  if left == 0 then at, left = at + 1, 900 end
  local v, body = math.floor(turn / ways) + 1, bodies[turn % ways + 1]
  left, turn = left - 1, turn + 1
  return wrk.format("POST", "/api/0.6/changeset/" .. at .. "/upload", {["Authorization"] = "Bearer alicetoken"}, string.format(body, v, v, v, v, v, v, v, v, v, v, v))
end
"""


def block(first: int, count: int) -> list[dict[str, object]]:
    """So many ways with ten nodes each, whose ids follow each other in the order of creation."""
    made: list[dict[str, object]] = []
    for way in range(first, first + count):
        nodes = [-10 * way - i for i in range(1, 11)]
        made += [{"type": "node", "id": node, "lat7": 480000000 - 37 * node % 1000000, "lon7": 110000000 - 101 * node % 1000000} for node in nodes]
        made.append({"type": "way", "id": -1 - way, "nodes": nodes})
    return made


def fill(port: int) -> None:
    """The square, and the changesets of the uploads behind those that fill it."""
    link = Link(port, TOKEN)
    for number in range(1, FILLS + 1):
        link.ask("PUT", "changeset/create")
        count = WAYS // FILLS
        reply = link.ask("POST", f"changeset/{number}/upload", {"osmChange": [{"create": block((number - 1) * count, count)}]})
        if reply.status != 200:
            raise SystemExit(f"{reply.status} {reply.body[:200]!r}")
    for _ in range(CHANGESETS):
        link.ask("PUT", "changeset/create")
    link.close()


def rate(port: int, script: str, workers: int, seconds: int, first: int) -> float:
    threads = threads_for(workers)
    line = wrk(port, "", workers, seconds, "-s", script, str(first), str(CHANGESETS // 2 // threads), str(WAYS // threads))
    run = told(subprocess.run(line, capture_output=True, text=True, check=True).stdout)
    if run.refused:
        raise SystemExit(f"{run.refused} uploads were refused")
    return run.rate


def main() -> None:
    parser = argparse.ArgumentParser(description=(__doc__ or "").split("\n")[0])
    parser.add_argument("--program", default=OSM)
    parser.add_argument("--workers", default="1,4")
    parser.add_argument("--seconds", type=int, default=3)
    words = parser.parse_args()
    with tempfile.TemporaryDirectory() as folder:
        scripts = []
        for name, text in ("create.lua", LUA), ("change.lua", CHANGES):
            scripts.append(os.path.join(folder, name))
            with open(scripts[-1], "w", encoding="utf-8") as file:
                file.write(text)
        for workers in map(int, words.workers.split(",")):
            with Server(words.program, workers, USERS) as server:
                fill(server.port)
                firsts = FILLS + 1, FILLS + 1 + CHANGESETS // 2
                new, changed = (rate(server.port, script, workers, words.seconds, first) for script, first in zip(scripts, firsts))
            print(f"{workers} workers: {new:,.0f} uploads of new elements a second, {changed:,.0f} of new versions, {changed / new:.2f} times")


if __name__ == "__main__":
    main()
