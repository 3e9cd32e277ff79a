#!/usr/bin/env python3
"""Whether notes outlive their program: examples/kept/notes.py [--program PROGRAM] [--rounds 20] [--links 4] [--seed 1]

Starts `PROGRAM serve-notes --journal FILE` on a new file. On each link a user opens notes, and comments, closes and reopens those of its own.
After a drawn time the program is ended by SIGKILL and started again on the same file. Each note that a reply told of has to be there as the
last reply told it, but for the one request whose reply was cut off, and the file has to begin with what stood for the text in the round before
and the two empty lines of a start.

PROGRAM is crates/osm/out/osm where none is named. Status 0 where all holds, 1 where something doesn't, 2 where it can't be run.
"""

from __future__ import annotations

import argparse
import os
import random
import signal
import sys
import tempfile
import threading
import time
from typing import Any

HERE = os.path.dirname(os.path.abspath(__file__))
sys.path.insert(1, os.path.join(HERE, ".."))

from kept_file import NOTES_HEADER, SEAL, parted, read, refusal  # noqa: E402
from kill import PROGRAM  # noqa: E402
from serving import Link, Lost, Server, tell_faults  # noqa: E402

LONGEST = 0.8  # seconds of a round
NEXT = {"open": ("comment", "close"), "closed": ("reopen",)}  # what may be asked of a note by its status
TEXTS = ("a bench is missing", 'the "gate" is locked\n', "Straße gesperrt", "\u200b\\ \x7f", "")


class Writer:
    """A user who writes notes on one link, with each as it was told last."""

    def __init__(self, user: int, seed: int) -> None:
        self.user, self.draw = user, random.Random(seed)
        self.notes: dict[int, Any] = {}
        self.touched: int | None = None
        self.accepted, self.faults = 0, []  # type: int, list[str]

    def request(self) -> tuple[str, Any]:
        text = self.draw.choice(TEXTS)
        if not self.notes or self.draw.random() < 0.3:
            place = {name: self.draw.randint(-(10**8), 10**8) for name in ("lat7", "lon7")}
            self.touched = None
            return "notes", place | {"text": text or "x"}
        self.touched = self.draw.choice(list(self.notes))
        act = self.draw.choice(NEXT[self.notes[self.touched]["status"]])
        return f"notes/{self.touched}/{act}", {"text": text or "x"}

    def work(self, port: int) -> None:
        """Writes until the link is lost."""
        link = Link(port, f"token{self.user}")
        try:
            while True:
                reply = link.ask("POST", *self.request())
                if reply.status != 200:
                    self.faults.append(f"{reply.status} {reply.body.decode()[:100]}")
                    return
                note = reply.read()["note"]
                self.notes[note["id"]] = note
                self.accepted, self.touched = self.accepted + 1, None
        except (OSError, Lost):
            pass
        finally:
            link.close()

    def check(self, link: Link) -> None:
        """Each note against the server that reads the file again; the one that was asked for last may have one comment more."""
        for number, told in self.notes.items():
            note = link.ask("GET", f"notes/{number}").read()["note"]
            more = number == self.touched and note["comments"][:-1] == told["comments"]
            if note != told and not more:
                self.faults.append(f"note {number} is {note}, and was told as {told}")
            self.notes[number] = note
        self.touched = None


def serve(program: str, path: str, writers: list[Writer]) -> Server:
    users = "".join(f"{it.user} token{it.user} user user{it.user}\n" for it in writers)
    return Server(program, len(writers) + 1, users, command=("serve-notes", "--journal", path))


def round_of(program: str, path: str, writers: list[Writer], seconds: float) -> None:
    """Checks what was told, writes for so long, and has the program killed."""
    with serve(program, path, writers) as server:
        link = Link(server.port)
        for writer in writers:
            writer.check(link)
        link.close()
        threads = [threading.Thread(target=it.work, args=(server.port,)) for it in writers]
        for thread in threads:
            thread.start()
        time.sleep(seconds)
        os.kill(server.pid, signal.SIGKILL)
        server.process.wait()
        for thread in threads:
            thread.join()


def main() -> int:
    parser = argparse.ArgumentParser(usage=(__doc__ or "").split("\n\n")[0].partition(": ")[2])
    parser.add_argument("--program", default=PROGRAM)
    for name, usual in (("rounds", 20), ("links", 4), ("seed", 1)):
        parser.add_argument(f"--{name}", type=int, default=usual)
    it = parser.parse_args()
    if not os.access(it.program, os.X_OK):
        print(f"there is no program {it.program}: ./osm build makes it", file=sys.stderr)
        return 2
    draw, faults, before = random.Random(it.seed), [], NOTES_HEADER  # type: random.Random, list[str], bytes
    writers = [Writer(i + 1, it.seed * 1000 + i) for i in range(it.links)]
    with tempfile.TemporaryDirectory() as folder:
        path = os.path.join(folder, "journal")
        for _ in range(it.rounds):
            round_of(it.program, path, writers, draw.uniform(0.02, LONGEST))
            file = read(path)
            left = parted(file)
            if not left.raw.startswith(before + SEAL) or refusal(file, NOTES_HEADER):
                faults.append("the file doesn't begin with the text of the round before and the empty lines of a start, or is damaged")
            before = left.raw
        round_of(it.program, path, writers, 0)
    faults += [fault for writer in writers for fault in writer.faults]
    accepted, notes = sum(it.accepted for it in writers), sum(len(it.notes) for it in writers)
    print(f"{it.rounds} kills, {accepted} requests, {notes} notes, {parted(before).entries()} entries")
    return tell_faults(faults)


if __name__ == "__main__":
    sys.exit(main())
