"""A server that is quiet, and one that is dead: what followers are told of each."""

from __future__ import annotations

import gzip
import json
import os
import time
import xml.etree.ElementTree as xml
from typing import Any

import edits
import followers
from edits import Session
from parts import USERS, Programs, Running, export, url
from serving import Server, Wrong

QUIET = 4  # intervals without a change
LATE = 30  # seconds that a busy machine may take to write a file or to ask


def wait_until(running: Running, sequence: int, seconds: float = 60) -> None:
    until = time.monotonic() + seconds
    while True:
        state = running.folder.newest()
        if state is not None and state.sequence >= sequence:
            return
        if time.monotonic() > until or running.process.poll() is not None:
            raise Wrong(f"sequence {sequence} doesn't come; there is {state}")
        time.sleep(0.05)


def moment_of(running: Running, sequence: int) -> float:
    """What the state of a sequence number tells, in seconds since 1970."""
    with open(running.folder.base(sequence) + ".state.txt", encoding="utf-8") as file:
        fields = dict(line.strip().split("=", 1) for line in file if "=" in line)
    return time.mktime(time.strptime(fields["timestamp"], r"%Y-%m-%dT%H\:%M\:%SZ")) - time.timezone


def empty_files(running: Running, first: int, end: int) -> None:
    """These files have no change, and their moments rise and are those of the clock."""
    for sequence in range(first, end):
        with gzip.open(running.folder.base(sequence) + ".osc.gz") as file:
            root = xml.parse(file).getroot()
        if root.tag != "osmChange" or len(root):
            raise Wrong(f"file {sequence} of a quiet server has {len(root)} changes")
        moment, before = moment_of(running, sequence), moment_of(running, sequence - 1)
        written = os.stat(running.folder.base(sequence) + ".state.txt").st_mtime
        if moment < before + 1 or abs(written - moment) > LATE:
            raise Wrong(f"the moment of {sequence} is {moment} behind {before}, and it was written at {written}")


def ages(database: followers.Database) -> tuple[int, int]:
    """The server's sequence number and the age of its data, as osm2pgsql-replication tells them."""
    told: dict[str, Any] = json.loads(database.status())["server"]
    return int(told["sequence"]), int(told["age_sec"])


def quiet(programs: Programs, folder: str) -> str:
    www, base = os.path.join(folder, "www"), os.path.join(folder, "base.osm.pbf")
    with Server(programs.server, 8, USERS) as server, Running(programs, server.port, www) as running, followers.Files(www) as files:
        session = Session(url(server.port))
        edits.first_edits(session)
        state = running.wait_for(session)
        wait_until(running, state.sequence + QUIET)
        empty_files(running, state.sequence + 1, state.sequence + QUIET)
        export(server.port, base, files.url)
        with followers.Database(folder) as database:
            database.load(base, "planet_osm")
            database.follow("init", "--osm-file", base)
            begun, young = ages(database)
            server.process.kill()
            server.process.wait()
            time.sleep(2)
            last = running.folder.newest()
            time.sleep(8)
            ended, old = ages(database)
    if begun <= state.sequence or young > LATE:
        raise Wrong(f"of a quiet server osm2pgsql-replication tells sequence {begun}, {young} seconds old")
    if last is None or ended != last.sequence or old < 8:
        raise Wrong(f"of a dead server osm2pgsql-replication tells sequence {ended}, {old} seconds old; the folder has {last}")
    return (
        f"{QUIET} intervals without a change are empty files with rising moments; osm2pgsql-replication tells data of {young} s "
        f"where the server is quiet, and of {old} s where it is dead for ten"
    )
