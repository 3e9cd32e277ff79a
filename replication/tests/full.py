"""A disk that gets full under the folder, and then under the mirror's file: it is told once, and gone on with once there is room."""

from __future__ import annotations

import os
import subprocess
import sys
import time

import edits
from edits import Session
from parts import TOP, USERS, Programs, Running, compare, export, from_nothing, url, whole_files
from serving import Server, Wrong, grown_disk, small_disk

KEEP = os.path.join(TOP, "examples", "fleet", "keep.py")
KIB = {"folder": 200, "journal": 700}
"""Of the disk; a mirror lays 256 KiB of room by at a time."""
LATE = 60.0
QUIET = 4.0
"""Seconds in which nothing is to be told anew, and few mirrors are started."""


def filled(session: Session, running: Running, told: str, log: str) -> None:
    """Edits until it tells that the disk is full."""
    until = time.monotonic() + LATE
    while told not in said(log):
        if time.monotonic() > until or running.process.poll() is not None:
            raise Wrong(f"of a full disk nothing is told, but {said(log)[-600:]!r}; its status is {running.process.poll()}")
        session.create(*[edits.node(-number, number, text=os.urandom(60).hex()) for number in range(1, 201)])
        time.sleep(0.1)


def said(log: str) -> str:
    with open(log, encoding="utf-8") as file:
        return file.read()


def gone_on(programs: Programs, folder: str, what: str, told: str) -> str:
    """With the folder or the mirror's file on a small disk."""
    disk, log = os.path.join(folder, what), os.path.join(folder, f"{what}.log")
    os.mkdir(disk)
    with small_disk(disk, KIB[what]) as is_mounted:
        if not is_mounted:
            return f"{what}: not tried, since no disk may be mounted here"
        www = os.path.join(disk if what == "folder" else folder, "www")
        journal = os.path.join(disk if what == "journal" else folder, f"of_{what}.journal")
        with Server(programs.server, 8, USERS) as server, Running(programs, server.port, www, "--mirror-journal", journal, log=log) as running:
            session = Session(url(server.port))
            edits.first_edits(session)
            running.wait_for(session)
            filled(session, running, told, log)
            versions = whole_files(running.folder)
            lines = said(log).count("\n")
            time.sleep(QUIET)
            if said(log).count("\n") > lines + 1 or running.process.poll() is not None:
                raise Wrong(f"on a full disk it goes on to tell {said(log)[-900:]}")
            grown_disk(disk)
            running.wait_for(session, LATE)
            wanted = os.path.join(folder, f"{what}.osm.pbf")
            export(server.port, wanted)
            found = os.path.join(folder, f"{what}_followed.osm.pbf")
            from_nothing(running.folder, found)
            compare(f"behind a full disk under the {what}", found, wanted)
            return f"under the {what} behind {versions} versions, and {whole_files(running.folder) - versions} more once there was room"


def kept(programs: Programs, folder: str) -> str:
    """examples/fleet/keep.py ends with a line, and goes on behind what it has once there is room."""
    disk, log = os.path.join(folder, "kept"), os.path.join(folder, "kept.log")
    os.mkdir(disk)
    with small_disk(disk, KIB["folder"]) as is_mounted, Server(programs.server, 8, USERS) as server:
        if not is_mounted:
            return "keep.py: not tried"
        session, path = Session(url(server.port)), os.path.join(disk, "journal.txt")
        words = [sys.executable, KEEP, path, "--server", url(server.port)]
        with open(log, "w", encoding="utf-8") as file:
            process = subprocess.Popen(words, stderr=file, env={**os.environ, "HEGUNSAP_TOKEN": "bobtoken"})
        until = time.monotonic() + LATE
        while process.poll() is None and time.monotonic() < until:
            session.create(*[edits.node(-number, number, text=os.urandom(60).hex()) for number in range(1, 201)])
            time.sleep(0.1)
        if (process.poll(), said(log).count("\n")) != (1, 1) or "No space left" not in said(log):
            process.kill()
            raise Wrong(f"keep.py on a full disk: status {process.returncode}, {said(log)[-600:]!r}")
        grown_disk(disk)
        process = subprocess.Popen(words, env={**os.environ, "HEGUNSAP_TOKEN": "bobtoken"})
        try:
            wait_for_lines(path, session.number())
        finally:
            process.terminate()
            process.wait()
    return "keep.py ends with a line, and goes on"


def wait_for_lines(path: str, count: int) -> None:
    until = time.monotonic() + LATE
    while time.monotonic() < until:
        with open(path, "rb") as file:
            if file.read().count(b"\n") == count:
                return
        time.sleep(0.1)
    raise Wrong(f"keep.py doesn't come to {count} pieces behind a full disk")


def full(programs: Programs, folder: str) -> str:
    told = gone_on(programs, folder, "folder", "No space left on device"), gone_on(programs, folder, "journal", "can't be written")
    return f"a disk that gets full: {'; '.join((*told, kept(programs, folder)))}"
