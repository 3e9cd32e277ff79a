"""Whether mirrors answer reads only while they are known to be level, without anybody who tells nginx: a part of fleet.py."""

from __future__ import annotations

import argparse
import time
from typing import TYPE_CHECKING

from levels import READERS, Readers, wait_until_read
from running import Front, is_known, wait_until_known
from serving import Wrong

if TYPE_CHECKING:
    from fleet import Fleet

SECONDS = 3  # for which a mirror counts as level here
SLACK = 2.0  # seconds beside them: moments are whole ones


def known(fleet: Fleet, _: argparse.Namespace) -> None:
    fleet.edit_through(fleet.server.port)
    fleet.upload(20)
    for place in range(len(fleet.ports)):
        fleet.restart_empty(place, SECONDS)
    with Front(fleet.folder, fleet.server.port, fleet.ports, 2) as front:
        told = [none_known(fleet, front), fresh_one(fleet, front), carrier_dies(fleet, front), carriers_die(fleet, front)]
    print("; ".join(told), flush=True)
    for place, carrier in enumerate(fleet.carriers):
        fleet.restart_empty(place)
        carrier.start()
    fleet.level("a mirror")


def none_known(fleet: Fleet, front: Front) -> str:
    """All mirrors are fresh, and the server is read."""
    if any(is_known(port) for port in fleet.ports):
        raise Wrong("a fresh mirror answers reads")
    wait_until_read(front.port, f"node/{fleet.uploads}")
    for carrier in fleet.carriers:
        carrier.start()
    fleet.level("a mirror")
    return "where no mirror is known to be level the server is read"


def fresh_one(fleet: Fleet, front: Front) -> str:
    """It stays in rotation, and nobody is answered from its empty map."""
    readers = Readers(front.port, "node/1")
    fleet.restart_empty(0, SECONDS)
    time.sleep(2 * SECONDS)
    if is_known(fleet.ports[0]):
        raise Wrong("a fresh mirror answers reads")
    fleet.carriers[0].start()
    seconds = wait_until_known(fleet.ports[0])
    time.sleep(2 * SECONDS)
    readers.end()
    if readers.wrong or readers.count < READERS:
        raise Wrong(f"{len(readers.wrong)} of {readers.count} reads: {readers.wrong[:1]}")
    return f"a fresh mirror in rotation: none of {readers.count} replies is of an empty map, and it answers {seconds:.1f} s behind its carrier's start"


def carrier_dies(fleet: Fleet, front: Front) -> str:
    """What is changed behind that is found by everybody once its mirror is out."""
    wait_until_known(fleet.ports[1])
    fleet.carriers[1].kill()
    fleet.edit_through(fleet.server.port)  # the link of before has been silent for long
    fleet.upload(5)
    seconds = wait_until_known(fleet.ports[1], False)
    if seconds > SECONDS + SLACK:
        raise Wrong(f"a killed carrier's mirror answers reads for {seconds:.1f} s")
    wait_until_read(front.port, f"node/{fleet.uploads}")
    fleet.carriers[1].start()
    again = wait_until_known(fleet.ports[1])
    return f"a killed carrier's mirror is out {seconds:.1f} s behind, and in again {again:.1f} s behind its start"


def carriers_die(fleet: Fleet, front: Front) -> str:
    """All of them: the server is read."""
    for carrier in fleet.carriers:
        carrier.kill()
    for port in fleet.ports:
        wait_until_known(port, False)
    fleet.edit_through(fleet.server.port)
    fleet.upload(5)
    wait_until_read(front.port, f"node/{fleet.uploads}")
    for carrier in fleet.carriers:
        carrier.start()
    fleet.level("a mirror")
    return "where all carriers are killed the server is read"
