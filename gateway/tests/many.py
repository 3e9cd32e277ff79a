"""A thousand clients that keep their links, on the gateway's eight links to the server: how long each waits for an answer.

Each asks for a node, reads the answer, and asks again after a pause that is drawn around PAUSE seconds.
"""

from __future__ import annotations

import asyncio
import os
import random
import time
from dataclasses import dataclass, field

from behind import ALICE, Gateway, Site, want
from other_calls import NODE
from serving import Wrong

CLIENTS, SECONDS, PAUSE, LONGEST = 1000, 15.0, 4.0, 1.0


@dataclass
class Waits:
    seconds: list[float] = field(default_factory=list)
    faults: list[str] = field(default_factory=list)

    def within(self, part: float) -> float:
        return sorted(self.seconds)[min(len(self.seconds) - 1, int(len(self.seconds) * part))]


async def ask(reader: asyncio.StreamReader, writer: asyncio.StreamWriter, path: str) -> int:
    writer.write(f"GET {path} HTTP/1.1\r\nHost: localhost\r\n\r\n".encode())
    head = (await reader.readuntil(b"\r\n\r\n")).decode("latin-1")
    length = next(int(line[15:]) for line in head.split("\r\n") if line.lower().startswith("content-length:"))
    await reader.readexactly(length)
    return int(head.split(" ", 2)[1])


async def client(gateway: Gateway, number: int, until: float, pause: float, waits: Waits) -> None:
    draw = random.Random(number)
    try:
        reader, writer = await asyncio.open_connection("127.0.0.1", gateway.port)
        await asyncio.sleep(draw.uniform(0, pause))
        while time.monotonic() < until:
            before = time.monotonic()
            status = await ask(reader, writer, f"/api/0.6/node/{1 + number % 50}")
            waits.seconds.append(time.monotonic() - before)
            if status != 200:
                waits.faults.append(f"status {status}")
            await asyncio.sleep(draw.uniform(pause / 2, pause * 3 / 2))
        writer.close()
    except (OSError, asyncio.IncompleteReadError) as why:
        waits.faults.append(f"client {number}: {type(why).__name__}: {why}")


async def load(gateway: Gateway, clients: int, seconds: float, pause: float) -> Waits:
    waits, until = Waits(), time.monotonic() + seconds
    await asyncio.gather(*(client(gateway, number, until, pause, waits) for number in range(clients)))
    return waits


def links_to(port: int) -> int:
    """Links that are open to the server's port just now."""
    with open("/proc/net/tcp") as file:
        rows = [line.split() for line in file.readlines()[1:]]
    return sum(row[2].endswith(f":{port:04X}") and row[3] == "01" for row in rows)


def run(program: str) -> str:
    with Site(program, more=("--quiet",)) as gateway:
        changeset = gateway.changeset()
        for number in range(50):
            gateway.well("PUT", "node/create", NODE.format(changeset, f"0.{number}", "1"), ALICE)
        waits = asyncio.run(load(gateway, CLIENTS, SECONDS, PAUSE))
        links = links_to(gateway.server)
    want(waits.faults[:3], [], f"faults of {len(waits.seconds)} requests")
    longest, loaded, processors = max(waits.seconds), os.getloadavg()[0], os.cpu_count() or 1
    is_late, is_busy = longest > LONGEST, loaded > processors
    if is_late and not is_busy or links > 8:
        raise Wrong(f"of {len(waits.seconds)} requests one waited {longest:.2f} s, 99 of 100 {waits.within(0.99):.2f} s; {links} links")
    shown = f"half within {waits.within(0.5) * 1000:.0f} ms, 99 of 100 within {waits.within(0.99) * 1000:.0f} ms, all within {longest * 1000:.0f} ms"
    shown += f", with a load of {loaded:.0f} on {processors} processors" + (", so that isn't judged" if is_late else "")
    return f"{CLIENTS} clients on {links} links, {len(waits.seconds) / SECONDS:.0f} requests a second: {shown}"
