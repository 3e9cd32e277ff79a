"""What the mirror keeps: starts that ask the server for what is new alone, and files that are gone, cut, damaged or another one's."""

from __future__ import annotations

import os
import re
import shutil
import signal
import socket
import threading
from collections.abc import Callable

import edits
from edits import Session
from folder import Folder
from parts import HERE, RUN, USERS, Programs, Running, compare, export, from_nothing, url
from serving import Server, Wrong

FAR = os.path.join(HERE, "far.py")
ASKED = re.compile(rb"GET /api/0\.6/replication/(\d+) ")


class Listening:
    """A port before a server, which notes the pieces that are asked for, until the end of a `with`."""

    def __init__(self, port: int) -> None:
        self.port_behind, self.asked = port, set[int]()
        self.listener = socket.create_server(("127.0.0.1", 0))
        self.port = int(self.listener.getsockname()[1])
        threading.Thread(target=self.serve, daemon=True).start()

    def serve(self) -> None:
        while True:
            try:
                client, _ = self.listener.accept()
            except OSError:
                return
            server = socket.create_connection(("127.0.0.1", self.port_behind))
            threading.Thread(target=self.pump, args=(client, server, True), daemon=True).start()
            threading.Thread(target=self.pump, args=(server, client, False), daemon=True).start()

    def pump(self, source: socket.socket, target: socket.socket, notes: bool) -> None:
        held = b""
        try:
            while part := source.recv(1 << 16):
                if notes:
                    held += part
                    self.asked.update(int(it) for it in ASKED.findall(held))
                    held = held[-100:]
                target.sendall(part)
            target.shutdown(socket.SHUT_WR)
        except OSError:
            pass

    def __enter__(self) -> Listening:
        return self

    def __exit__(self, *_: object) -> None:
        self.listener.close()


def once(programs: Programs, port: int, folder: str, *more: str) -> tuple[int, str]:
    return Running(programs, port, folder, "--once", *more).end()


def remove(path: str) -> None:
    os.remove(path)


def cut(path: str) -> None:
    """Half of its text: more than a break can take."""
    with open(path, "r+b") as file:
        file.truncate(len(file.read().rstrip(b"\0")) // 2)


def empty(path: str) -> None:
    os.truncate(path, 0)


def damage(path: str) -> None:
    """Another letter in the first entry."""
    with open(path, "r+b") as file:
        text = file.read()
        place = text.index(b"edits of every kind")
        file.seek(place)
        file.write(b"E")


def of_before(path: str) -> None:
    """A folder of before, which doesn't tell how many elements there are."""
    folder = Folder(path.removesuffix(".mirror.journal"))
    state = folder.newest()
    assert state is not None
    name = folder.base(state.sequence) + ".pieces.json"
    with open(name, "w", encoding="utf-8") as file:
        file.write(f'{{"moment": {state.moment}, "piece": {state.piece}, "digest": "{state.digest}"}}\n')


SPOILS: tuple[Callable[[str], None], ...] = (remove, cut, empty, damage, of_before)


def refused(programs: Programs, port: int, folder: str, wanted: str, *more: str) -> None:
    status, said = once(programs, port, folder, *more)
    if status not in (1, 2) or wanted not in said:
        raise Wrong(f"{' '.join(more)} ends with status {status}: {said}")


def other_files(programs: Programs, port: int, folder: str, www: str) -> None:
    """Files that are named by mistake stay as they are."""
    strange, served = os.path.join(folder, "strange.txt"), os.path.join(www, "x.journal")
    with open(strange, "w", encoding="utf-8") as file:
        file.write("a diary\n")
    refused(programs, port, www, "isn't the journal of a mirror", "--mirror-journal", strange)
    refused(programs, port, www, "no file of the folder", "--mirror-journal", served)
    with open(strange, encoding="utf-8") as file:
        if file.read() != "a diary\n" or os.path.exists(served):
            raise Wrong("a file that is none of the mirror's is changed")
    others = os.path.join(folder, "other.journal")
    shutil.copy(www + ".mirror.journal", others)
    status, said = once(programs, port, os.path.join(folder, "new"), "--mirror-journal", others)
    with open(others + ".old", "rb") as left, open(www + ".mirror.journal", "rb") as right:
        if status or left.read() != right.read():
            raise Wrong(f"a new folder with the journal of another one ends with status {status}: {said}")


def kept(programs: Programs, folder: str) -> str:
    www, journal = (os.path.join(folder, it) for it in ("www", "www.mirror.journal"))
    with Server(programs.server, 8, USERS) as server, Listening(server.port) as listening:
        session = Session(url(server.port))
        edits.first_edits(session)
        edits.several_versions(session)
        again = []
        for script, signal_number in ((RUN, signal.SIGTERM), (FAR, signal.SIGKILL), (RUN, signal.SIGKILL), (FAR, signal.SIGTERM)):
            running = Running(programs, listening.port, www, script=script)
            running.wait_for(session)
            running.process.send_signal(signal_number)
            running.process.communicate(timeout=30)
            before = session.number()
            edits.unless_used(session)
            listening.asked.clear()
            status, said = once(programs, listening.port, www)
            old = sorted(it for it in listening.asked if it <= before)
            if status or old != [1, before]:
                raise Wrong(f"a start behind signal {signal_number} asks for {old} of {before} old pieces; status {status}: {said}")
            again.append(before)
        if os.stat(journal).st_mode & 0o077:
            raise Wrong("others may read what the mirror keeps")
        for spoil in SPOILS:
            spoil(journal)
            edits.at_once(session)
            listening.asked.clear()
            status, said = once(programs, listening.port, www)
            if status or not set(range(1, session.number() + 1)) <= listening.asked:
                raise Wrong(f"behind {spoil.__name__} a start asks for {len(listening.asked)} pieces; status {status}: {said}")
        other_files(programs, listening.port, folder, www)
        wanted, found = os.path.join(folder, "wanted.osm.pbf"), os.path.join(folder, "found.osm.pbf")
        export(server.port, wanted)
    from_nothing(Folder(www), found)
    compare("behind all starts", found, wanted)
    return (
        f"behind {', '.join(map(str, again))} pieces a start asks for two of them and what is new; with a file that is gone, cut, empty, "
        "damaged or of before for all, and the map is the server's; other files stay"
    )
