"""The parts of the test: each is given the programs and an empty folder, and tells in a line what was found right."""

from __future__ import annotations

import gzip
import hashlib
import os
import random
import shutil
import signal
import socket
import subprocess
import sys
import threading
import time
import uuid
import xml.etree.ElementTree as xml
from collections.abc import Callable
from contextlib import ExitStack
from dataclasses import dataclass

import change_file
import edits
import followers
import kept_link
import osm_file
import same
from edits import Session
from folder import Folder, State
from serving import Server, Wrong, free_port

HERE = os.path.dirname(os.path.abspath(__file__))
TOP = os.path.dirname(os.path.dirname(HERE))
RUN = os.path.join(os.path.dirname(HERE), "run")
EXPORT = os.path.join(TOP, "examples", "export_osm.py")
USERS = "1 alicetoken user alice\n2 bobtoken moderator bob\n"
MARK = "REPLICATION_TEST"


@dataclass(frozen=True)
class Programs:
    server: str
    mirror: str


def url(port: int) -> str:
    return f"http://127.0.0.1:{port}"


class Running:
    """replication/run on a server and a folder, until the end of a `with`."""

    def __init__(self, programs: Programs, port: int, folder: str, *more: str, killed_at: int = 0, script: str = RUN, log: str = "") -> None:
        """What it says goes into the file `log` where one is named."""
        command = [os.path.join(HERE, "killed.py"), str(killed_at)] if killed_at else [script]
        words = ["--feed", url(port), "--folder", folder, "--mirror", programs.mirror, "--every", "1", *more]
        self.folder, self.mark = Folder(folder), uuid.uuid4().hex
        with ExitStack() as stack:
            self.process = subprocess.Popen(
                [sys.executable, *command, *words],
                stdout=subprocess.DEVNULL,
                stderr=stack.enter_context(open(log, "w", encoding="utf-8")) if log else subprocess.PIPE,
                text=True,
                env={**os.environ, "HEGUNSAP_TOKEN": "bobtoken", MARK: self.mark},
            )

    def __enter__(self) -> Running:
        return self

    def __exit__(self, *_: object) -> None:
        self.process.terminate()
        self.process.communicate(timeout=30)

    def end(self, seconds: float = 60) -> tuple[int, str]:
        """Its status and what it said, at its own end."""
        _, said = self.process.communicate(timeout=seconds)
        return self.process.returncode, said

    def wait_for(self, session: Session, seconds: float = 60) -> State:
        """Until the folder has all pieces that made something so far."""
        session.create(edits.node(-1, 999))
        wanted, until = session.number(), time.monotonic() + seconds
        while True:
            state = self.folder.newest()
            if state is not None and state.piece >= wanted:
                return state
            if time.monotonic() > until or self.process.poll() is not None:
                raise Wrong(f"the folder has {state} in place of {wanted} pieces")
            time.sleep(0.05)

    def is_all_gone(self, seconds: float = 5) -> bool:
        """Whether no process is left that it started."""
        until = time.monotonic() + seconds
        while any(has_mark(it, self.mark) for it in os.listdir("/proc") if it.isdigit()):
            if time.monotonic() > until:
                return False
            time.sleep(0.02)
        return True


def has_mark(process: str, mark: str) -> bool:
    try:
        with open(f"/proc/{process}/environ", "rb") as file:
            return f"{MARK}={mark}".encode() in file.read()
    except OSError:
        return False


def export(port: int, path: str, replication: str = "") -> None:
    more = ["--replication", replication] if replication else []
    followers.run([EXPORT, "--server", url(port), *more, path])


def compare(name: str, found: str, wanted: str) -> None:
    wrong = same.differences(found, wanted)
    if wrong:
        raise Wrong(f"{name}: {len(wrong)} elements differ: " + "; ".join(wrong[:3]))


def whole_files(folder: Folder) -> int:
    """Reads each file up to the newest number as a reader would, and answers how many versions they have."""
    state = folder.newest()
    count = 0
    for sequence in range(state.sequence + 1 if state else 0):
        with gzip.open(folder.base(sequence) + ".osc.gz") as file:
            count += sum(len(part) for part in xml.parse(file).getroot())
        with open(folder.base(sequence) + ".state.txt", encoding="utf-8") as text:
            if f"sequenceNumber={sequence}\n" not in text.read():
                raise Wrong(f"the state of {sequence} is another one's")
    return count


def from_nothing(folder: Folder, out: str) -> None:
    """The map that all files make, one after another, on an empty one."""
    with followers.Files(folder.path) as files:
        headers = {"base_url": files.url, "sequence_number": "0", "timestamp": "2026-01-01T00:00:00Z"}
        osm_file.write(out, (), {f"osmosis_replication_{name}": value for name, value in headers.items()})
        followers.run(["pyosmium-up-to-date", out], statuses=(0, 1))


def cut(_: Programs, __: str) -> str:
    """Replies of one link, small and large, that come in pieces of any length."""
    drawn = random.Random(7)
    bodies = [bytes([65 + it % 26]) * drawn.choice([0, 1, 300, 70_000, 300_000]) for it in range(500)]
    text = b"".join(b"HTTP/1.1 200 OK\r\nContent-Type: application/json\r\nContent-Length: %d\r\n\r\n%b" % (len(it), it) for it in bodies)
    with socket.create_server(("127.0.0.1", 0)) as listener:

        def answer() -> None:
            stream, _ = listener.accept()
            with stream:
                place = 0
                while place < len(text):
                    end = place + drawn.choice([1, 7, 100, 5_000, 200_000])
                    stream.sendall(text[place:end])
                    place = end
                while stream.recv(1 << 16):
                    pass

        threading.Thread(target=answer, daemon=True).start()
        site = kept_link.Site(url(listener.getsockname()[1]))
        found = [reply.body for reply in site.exchange([site.get("node/1")] * len(bodies))]
        site.close()
    if found != bodies:
        raise Wrong("bodies come out otherwise than they were sent")
    return f"{len(bodies)} replies come out whole, however they were cut"


def written(_: Programs, folder: str) -> str:
    who = {"changeset": 7, "timestamp": "2026-11-29T00:00:00Z", "uid": 2, "user": 'Jo "&" <Al>\n'}
    place = {"type": "node", "id": 4, "version": 1, "visible": True, "lat7": -5, "lon7": 1800000000, **who}
    elements: list[change_file.Element] = [
        {**place, "tags": {"a\0": "1\ufffe", "a\1": "2", "b": "\U0001f333"}},
        {"type": "node", "id": 4, "version": 2, "visible": False, **who},
        {"type": "way", "id": 9, "version": 3, "visible": True, "nodes": [4, 4], "tags": {}, **who},
    ]
    shown = 'changeset="7" uid="2" user="Jo &quot;&amp;&quot; &lt;Al&gt;&#10;"'
    moment = 'timestamp="2026-11-29T00:00:00Z"'
    wanted = f"""<?xml version="1.0" encoding="UTF-8"?>
<osmChange version="0.6" generator="hegunsap">
  <create>
    <node id="4" version="1" {moment} {shown} lat="-0.0000005" lon="180.0000000">
      <tag k="a\ufffd" v="1\ufffd"/>
      <tag k="b" v="\U0001f333"/>
    </node>
  </create>
  <delete>
    <node id="4" version="2" {moment} {shown}/>
  </delete>
  <modify>
    <way id="9" version="3" {moment} {shown}>
      <nd ref="4"/>
      <nd ref="4"/>
    </way>
  </modify>
</osmChange>
"""
    found = gzip.decompress(b"".join(change_file.packed(change_file.text_of(elements)))).decode()
    if found != wanted:
        raise Wrong(f"it is {found}")
    state = State(1234567, 1700000000, 5, "")
    if state.text() != "#Tue Nov 14 22:13:20 UTC 2023\nsequenceNumber=1234567\ntimestamp=2023-11-14T22\\:13\\:20Z\n":
        raise Wrong(f"a state is {state.text()}")
    if not Folder(folder).base(1234567).endswith("/001/234/567"):
        raise Wrong("a number has another place")
    return "a file of changes and a state are as OpenStreetMap's are"


def edited(running: Running, session: Session, port: int, base: str, begun: str, address: str) -> tuple[State, State]:
    """Edits of every kind: some before the file `base` is made, at the state `begun`, and some behind it; answers two states of then."""
    edits.first_edits(session)
    redaction = session.moderator.ask("POST", "redactions", {"title": "private"})
    running.wait_for(session)
    export(port, base, address)
    shutil.copy(os.path.join(running.folder.path, "state.txt"), begun)
    many = edits.several_versions(session)
    edits.unless_used(session)
    edits.at_once(session)
    running.wait_for(session)
    edits.brought_back(session)
    hidden = edits.redacted(session, redaction)
    edits.single_calls(session)
    state = running.wait_for(session)
    # One that is long in a file is hidden now, and one that never came out is shown again.
    session.moderator.ask("POST", f"node/{many}/1/redact?redaction={redaction}")
    session.moderator.ask("POST", f"node/{hidden}/1/redact")
    edits.with_what_was_there(session)
    edits.unless_used(session)
    return state, running.wait_for(session)


def followed(programs: Programs, folder: str) -> str:
    www, base, wanted = (os.path.join(folder, it) for it in ("www", "base.osm.pbf", "wanted.osm.pbf"))
    begun = os.path.join(folder, "begun.txt")
    with Server(programs.server, 8, USERS) as server, followers.Files(www) as files:
        session = Session(url(server.port))
        with Running(programs, server.port, www) as running:
            state, last = edited(running, session, server.port, base, begun, files.url)
        # No more files come, which a slow follower would go on after.
        export(server.port, wanted)
        by = {name: os.path.join(folder, f"{name}.osm.pbf") for name in ("pyosmium", "osmosis", "osmupdate", "nothing")}
        followers.by_pyosmium(base, by["pyosmium"])
        followers.by_osmosis(base, by["osmosis"], files.url, begun, os.path.join(folder, "osmosis"))
        followers.by_osmupdate(base, by["osmupdate"], files.url, os.path.join(folder, "osmupdate"))
        rows = followers.by_osm2pgsql(base, wanted, folder)
        from_nothing(running.folder, by["nothing"])
        for name, path in by.items():
            compare(name, path, wanted)
        pieces, versions = session.number(), whole_files(running.folder)
    if last.moment <= state.moment:
        raise Wrong(f"the moments of files don't rise: {state}, {last}")
    told = ", ".join(f"{count} {table}" for table, count in rows.items())
    return (
        f"{pieces} pieces, {versions} versions in {last.sequence} files: the {len(same.elements(wanted))} elements are the server's "
        f"in pyosmium, osmosis, osmupdate and from nothing; osm2pgsql's tables are a fresh import's ({told})"
    )


def kill_at_each_step(programs: Programs, port: int, folder: str, session: Session) -> int:
    """Until the program comes to its end before it is killed; answers how many steps it has."""
    step = 0
    while True:
        edits.at_once(session)
        running = Running(programs, port, folder, "--once", killed_at=step + 1)
        status, said = running.end()
        if not running.is_all_gone():
            raise Wrong(f"killed at step {step + 1} it leaves a mirror behind")
        whole_files(running.folder)
        if status == 0:
            return step
        if status != -signal.SIGKILL or said:
            raise Wrong(f"at step {step + 1} it ends with status {status}: {said}")
        step += 1


def killed(programs: Programs, folder: str) -> str:
    www = os.path.join(folder, "www")
    with Server(programs.server, 8, USERS) as server:
        session = Session(url(server.port))
        edits.first_edits(session)
        # First in a new folder, then in one that has something.
        counts = [kill_at_each_step(programs, server.port, www, session) for _ in range(2)]
        wanted, found = os.path.join(folder, "wanted.osm.pbf"), os.path.join(folder, "found.osm.pbf")
        export(server.port, wanted)
        from_nothing(Folder(www), found)
        compare("after all kills", found, wanted)
        count = len(same.elements(wanted))
    steps = " and then ".join(map(str, counts))
    return f"killed at each of {steps} steps, each time with new edits; nothing half was read, and the {count} elements are the server's"


def checksum(folder: str) -> str:
    """Over each file's name, time and bytes."""
    found = hashlib.sha256()
    for place, folders, names in os.walk(folder):
        folders.sort()
        for name in sorted(names):
            path = os.path.join(place, name)
            with open(path, "rb") as file:
                found.update(f"{path} {os.stat(path).st_mtime_ns}".encode() + file.read())
    return found.hexdigest()


def restarted(programs: Programs, folder: str) -> str:
    www, port = os.path.join(folder, "www"), free_port()
    with Server(programs.server, 8, USERS, port=port) as server:
        running = Running(programs, port, www)
        session = Session(url(port))
        edits.first_edits(session)
        running.wait_for(session)
        end_mirror(running)
        edits.unless_used(session)
        running.wait_for(session)
        pieces = session.number()
        server.process.kill()
        server.process.wait()
        time.sleep(1.5)
        before = checksum(www)
    for count in (0, pieces + 5):
        with Server(programs.server, 8, USERS, port=port):
            if count:
                other = Session(url(port))
                while other.number() < count:
                    other.create(edits.node(-1, 0))
                running = Running(programs, port, www)
            status, said = running.end()
        lines = [it for it in said.splitlines() if "another journal" in it]
        if status != 3 or len(lines) != 1 or checksum(www) != before:
            raise Wrong(f"with another server of {count} pieces it ends with status {status}: {said}")
    return (
        "a mirror that is killed is filled anew; of a new server's journal, shorter or longer, it says so in a line, and the folder stays"
    )


def end_mirror(running: Running) -> None:
    """Kills the mirror of a program, which is the only process that it has."""
    pid = running.process.pid
    with open(f"/proc/{pid}/task/{pid}/children", encoding="utf-8") as file:
        for child in file.read().split():
            os.kill(int(child), signal.SIGKILL)


PARTS: dict[str, Callable[[Programs, str], str]] = {
    "cut": cut,
    "written": written,
    "followed": followed,
    "killed": killed,
    "restarted": restarted,
}
