"""A server with a journal that is killed, or ended in order, and started again under eight clients of the gateway.

Each draws places that nobody else has. What was answered with 200 is there once, with the ids and places that were told; what was refused,
with 503 or 409, isn't there; what nobody can know (424) is there once or not at all.
"""

from __future__ import annotations

import json
import os
import random
import re
import tempfile
import threading
import time
from collections import Counter
from dataclasses import dataclass, field

from behind import ALICE, USERS, Came, Gateway, want
from serving import Server, Wrong, free_port

SEED, CLIENTS = 20261201, 8
AWAY = (0.0, 0.5, 2.0, 0.2)
"""Seconds between an end and the next start; every second end is an orderly one."""
BETWEEN = 1.5
REFUSED, UNKNOWN = (409, 503), 424


@dataclass
class Told:
    """What all clients were told: ids with their places, and the places of what was refused, and of what nobody knows."""

    made: dict[int, int] = field(default_factory=dict)
    refused: set[int] = field(default_factory=set)
    unknown: set[int] = field(default_factory=set)
    counts: Counter[int] = field(default_factory=Counter)
    wrong: list[str] = field(default_factory=list)
    lock: threading.Lock = field(default_factory=threading.Lock)

    def keep(self, came: Came, places: list[int], ids: list[int]) -> None:
        with self.lock:
            self.counts[came.status] += 1
            if came.status == 200 and len(ids) == len(places):
                self.made.update(zip(ids, places))
            elif came.status in REFUSED:
                self.refused.update(places)
            elif came.status == UNKNOWN:
                self.unknown.update(places)
            else:
                self.wrong.append(f"{came.status} {came.text[:300]}")


def degrees(units: int) -> str:
    return f"{units / 10_000_000:.7f}"


def sent(gateway: Gateway, changeset: int, places: list[int], draw: random.Random) -> tuple[Came, list[int]]:
    """A change in one of its forms, and the ids that it made."""
    if len(places) == 1:
        came = gateway.api("PUT", "node/create", f'<osm><node changeset="{changeset}" lat="{degrees(places[0])}" lon="1"/></osm>', ALICE)
        return came, [int(came.text)] if came.status == 200 else []
    path, form = f"changeset/{changeset}/upload", draw.choice(("xml", "blocks", "elements"))
    if form == "xml":
        rows = "".join(f'<node id="{-place}" changeset="{changeset}" lat="{degrees(place)}" lon="1"/>' for place in places)
        came = gateway.api("POST", path, f"<osmChange><create>{rows}</create></osmChange>", ALICE)
    else:
        nodes = [f'"type":"node","id":{-place},"changeset":{changeset},"lat":{degrees(place)},"lon":1}}' for place in places]
        rows = ",".join(("{" if form == "blocks" else '{"action":"create",') + node for node in nodes)
        body = f'{{"osmChange":[{{"create":[{rows}]}}]}}' if form == "blocks" else f'{{"version":"0.6","osmChange":[{rows}]}}'
        came = gateway.api("POST", path, body, ALICE, Content_Type="application/json")
    return came, [int(it) for it in re.findall(r'new_id="([0-9]+)"', came.text)]


def client(gateway: Gateway, number: int, told: Told, ended: threading.Event) -> None:
    draw, changeset, next_place = random.Random(f"{SEED}/{number}"), 0, number
    while not ended.is_set():
        if not changeset:
            came = gateway.api("PUT", "changeset/create", "<osm><changeset/></osm>", ALICE)
            if came.status != 200:
                told.keep(came, [], [])
                continue
            changeset = int(came.text)
        count = draw.choice((1, 1, 2, 40))
        places = [next_place + CLIENTS * step for step in range(1, count + 1)]
        next_place = places[-1]
        came, ids = sent(gateway, changeset, places, draw)
        told.keep(came, places, ids)
        changeset = 0 if came.status == 409 else changeset


def there(gateway: Gateway, most: int) -> dict[int, int]:
    """All nodes with their places; ids have no gaps, and behind the largest that was told others may follow."""
    calls = [f"nodes.json?nodes={','.join(map(str, range(start, min(start + 500, most + 1))))}" for start in range(1, most + 1, 500)]
    texts = [gateway.well("GET", it) for it in calls]
    while (came := gateway.api("GET", f"node/{most + 1}.json")).status == 200:
        texts, most = [*texts, came.text], most + 1
    rows = [it for text in texts for it in json.loads(text, parse_float=str)["elements"]]
    return {it["id"]: int(it["lat"].replace(".", "")) for it in rows}


def run(program: str) -> str:
    told, ended, port = Told(), threading.Event(), free_port()
    with tempfile.TemporaryDirectory() as folder:
        command = ("serve", "--journal", os.path.join(folder, "map.journal"))
        server = Server(program, 12, USERS, command=command, port=port)
        with Gateway(port) as gateway:
            clients = [threading.Thread(target=client, args=(gateway, number, told, ended)) for number in range(CLIENTS)]
            for it in clients:
                it.start()
            for place, pause in enumerate(AWAY):
                time.sleep(BETWEEN)
                (server.process.terminate if place % 2 else server.process.kill)()
                server.process.wait()
                time.sleep(pause)
                server = Server(program, 12, USERS, command=command, port=port)
            time.sleep(BETWEEN)
            ended.set()
            for it in clients:
                it.join()
            with server:
                judge(gateway, told)
    rest = ", ".join(f"{count} with {status}" for status, count in sorted(told.counts.items()))
    return f"a server that ended {len(AWAY)} times under {CLIENTS} clients goes on from its journal: {rest}; {len(told.made)} nodes, each once"


def judge(gateway: Gateway, told: Told) -> None:
    if told.wrong or not told.made:
        raise Wrong(f"answers that say something else: {told.wrong[:5]}")
    found = there(gateway, max(told.made))
    want([it for it in told.made.items() if found.get(it[0]) != it[1]][:5], [], "nodes that were told and aren't there so")
    counts = Counter(found.values())
    want([place for place, count in counts.items() if count > 1][:5], [], "places of several nodes")
    want([place for place in told.refused if place in counts][:5], [], "places of what was refused")
    own = set(told.made.values()) | told.unknown
    want([place for place in counts if place not in own][:5], [], "places of what nobody was told of")


__all__ = ["run"]
