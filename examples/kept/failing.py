#!/usr/bin/env python3
"""What a failing disk does to a journal: examples/kept/failing.py [--program PROGRAM] [--parts new,begun,existing,torn,older,uploads,notes]
    [--links 4] [--changes 5] [--turn 0] [--seed 1]

Has the Nth call fail that the program makes for its journal's file, one N a run, for each N from 1 to the last that a run makes: with EIO and
with ENOSPC by turns, and with nothing, half or all of the call done all the same by turns, which --turn, 0 to 5, begins elsewhere. A sync that
fails loses what was written since the last one, or a part of it. fail_calls.c is compiled with cc and preloaded.

new       a start where there is no file, and a stop; `begun` where another one was cut off that made it
existing  the same on a file with entries; `torn` on one behind whose text stands what a crash left of a batch, `older` on one of an older version
uploads   four links upload, some of it larger than the room that is laid by, and one more reads; from the first call behind the start on
notes     the same of a server of notes

A start has to end with status 3, and what serves, or stops, with status 9; behind the call that failed nothing more is asked of the file. Where
a look at which file has the path fails, what serves goes on. A file that was there stands for the same text, by the same bytes and empty lines
behind them, and no start refuses it. Then the program is started on what is left without the library: it has all of which a reply had told, by
the change's own reply or a read, nothing half, and goes on.

Then the same with calls that are interrupted, which may also be tried again; and once with reads and writes that are short, where nothing may
differ. A read that tells the file's end before it comes, within a line or between two, has the file refused with status 3. At last a sync loses
the batch that was written and tells that it succeeded, which has to be found wrong.

PROGRAM is crates/osm/out/osm where none is named. Status 0 where all holds, 1 where something doesn't, 2 where it can't be run.
"""

from __future__ import annotations

import argparse
import collections
import contextlib
import errno
import os
import shutil
import stat
import subprocess
import sys
import tempfile
import threading
from typing import NamedTuple

HERE = os.path.dirname(os.path.abspath(__file__))
sys.path.insert(1, os.path.join(HERE, ".."))

from editors import Editor, Todo  # noqa: E402
from kept_file import HEADER, NOTES_HEADER, OLDER_END, SEAL, UNOPENED, batched, parted, read, refusal, text_of  # noqa: E402
from kill import END_WAIT, PROGRAM, UNKEPT, Run  # noqa: E402
from notes import Writer  # noqa: E402
from serving import Link, Lost, Server, tell_faults  # noqa: E402
from traced import own_port, users  # noqa: E402

LARGE, MANY = 0.2, 1500  # of uploads that many have so many nodes more
TORN = b'\0"at":1}\n{"at":1}\n\n'  # what a crash left of a batch
ERRORS, DONE = (errno.EIO, errno.ENOSPC), 3
SHORT = 700  # bytes
LOOK = "statx of the path"
"""By which a start looks for a file, and what serves tells whether another one has the path: where that fails it isn't known, and it goes on."""
TRIED_AGAIN = ("read", "write", "pwrite", "fsync", "fdatasync", "ftruncate", "flock", "open", "open of the folder", "fsync of the folder")


# ---- calls that fail


class Fault(NamedTuple):
    at: int = 0
    error: int = errno.EIO
    done: int = 0
    lies: bool = False
    short: int = 0

    def words(self) -> str:
        names = f"FAIL_AT={self.at} FAIL_WITH={self.error} FAIL_DONE={self.done} FAIL_SHORT={self.short}"
        return names + (" FAIL_LIES=1" if self.lies else "")

    def __str__(self) -> str:
        done = ("nothing", "half", "all")[self.done]
        return f"call {self.at}, {errno.errorcode[self.error]}, {done} of it done"


class Way:
    """By which calls fail: an error and how much of each is done, by turns, or always the same error."""

    def __init__(self, turn: int, error: int = 0) -> None:
        self.turn, self.error = turn, error

    def fault(self, at: int) -> Fault:
        if self.error:
            return Fault(at, self.error)
        turn = at + self.turn
        return Fault(at, ERRORS[turn % len(ERRORS)], turn // len(ERRORS) % DONE)


class Made:
    """A folder with the library, a script that has the program fail, and a journal's file for one run after another."""

    def __init__(self, program: str, folder: str) -> None:
        self.program, self.folder = os.path.abspath(program), os.path.realpath(folder)
        self.library, self.script, self.log = (os.path.join(self.folder, name) for name in ("fail.so", "failing", "calls"))
        self.disk = os.path.join(self.folder, "disk")
        self.path = os.path.join(self.disk, "journal")
        source = os.path.join(HERE, "fail_calls.c")
        subprocess.run(["cc", "-shared", "-fPIC", "-O2", source, "-o", self.library], check=True)

    def failing(self, fault: Fault) -> str:
        """The program with that fault."""
        names = f"FAIL_PATH={self.path} FAIL_LOG={self.log} LD_PRELOAD={self.library} {fault.words()}"
        with open(self.script, "w") as file:
            file.write(f'#!/bin/sh\nexec env {names} {self.program} "$@"\n')
        os.chmod(self.script, stat.S_IRWXU)
        return self.script

    def lay(self, files: dict[str, bytes]) -> None:
        """The disk has these files and no others, and no call was made."""
        shutil.rmtree(self.disk, ignore_errors=True)
        os.mkdir(self.disk)
        for end, data in files.items():
            with open(self.path + end, "wb") as file:
                file.write(data)
        with contextlib.suppress(FileNotFoundError):
            os.remove(self.log)

    def calls(self) -> list[str]:
        with open(self.log) as lines:
            return [line.rstrip("\n").partition(" ")[2] for line in lines]

    def first_read(self) -> int:
        """The number of the first call of a start that reads."""
        start(self.failing(Fault()), self.path)
        return self.calls().index("read") + 1

    def until_served(self, command: str = "serve") -> int:
        """How many calls a start makes."""
        with Server(self.failing(Fault()), 1, users(1), command=(command, "--journal", self.path), port=own_port()):
            return len(self.calls())

    def failed(self) -> str:
        """The name of the call that failed; empty where none did."""
        return next((it.removesuffix(" fails") for it in self.calls() if it.endswith(" fails")), "")

    def asked_on(self) -> list[str]:
        """What wrongly followed the call that failed: any but a look at the path."""
        calls = self.calls()
        at = next(i for i, it in enumerate(calls) if it.endswith(" fails"))
        behind = [it for it in calls[at + 1 :] if it != LOOK]
        return [f"behind {calls[at]} it goes on with {behind[:5]}"] if behind else []


# ---- a start


def start(program: str, path: str, command: str = "serve") -> int | None:
    """The status of a program that begins on a file and ends at once, or none."""
    words = [command, "--listen", f"127.0.0.1:{own_port()}", "--workers", "1", "--users", os.devnull, "--journal", path, "--until-input-ends"]
    try:
        return int(subprocess.run([program, *words], stdin=subprocess.DEVNULL, timeout=END_WAIT, check=False).returncode)
    except subprocess.TimeoutExpired:
        return None


class Part:
    """What is begun anew for each N, and judged."""

    def __init__(self, made: Made) -> None:
        self.made = made

    def first(self) -> int:
        """The first call that fails."""
        return 1

    def ends(self, at: int) -> int:
        """The status with which the program ends where that call fails."""
        return UNKEPT

    def run(self, fault: Fault) -> tuple[int | None, list[str]]:
        """The status, none where the program goes on, and what is wrong with what is left."""
        raise NotImplementedError


class Start(Part):
    """And a stop, on these files, of which it makes a file with that text."""

    def __init__(self, made: Made, files: dict[str, bytes], text: bytes) -> None:
        super().__init__(made)
        self.files, self.text = files, text
        self.of_start = 0

    def first(self) -> int:
        self.made.lay(self.files)
        self.of_start = self.made.until_served()
        return 1

    def ends(self, at: int) -> int:
        return UNOPENED if at <= self.of_start else UNKEPT

    def run(self, fault: Fault) -> tuple[int | None, list[str]]:
        self.made.lay(self.files)
        status = start(self.made.failing(fault), self.made.path)
        return status, self.wrong_left() + self.wrong_later()

    def wrong_left(self) -> list[str]:
        if not os.path.exists(self.made.path):
            return ["the file is gone"] if "" in self.files else []
        now, before = read(self.made.path), parted(self.files.get("", self.text)).raw
        more = parted(now).raw.removeprefix(before)
        if refusal(now) is not None or before + more != parted(now).raw or not (SEAL + SEAL).startswith(more):
            return [f"the file is now {now[:40]!r}.., with {more[:40]!r} behind what it had"]
        return []

    def wrong_later(self) -> list[str]:
        status = start(self.made.program, self.made.path)
        if status != 0:
            return [f"a start on what is left ends with status {status}"]
        return [] if text_of(read(self.made.path)) == self.text else ["a start on what is left makes another text of it"]


# ---- people who change something


class Few(Editor):
    """An editor who ends behind so many changes."""

    def __init__(self, user: int, seed: int, changes: int) -> None:
        super().__init__(user, seed)
        self.left = changes

    def work(self, port: int, ends: threading.Event) -> None:
        self.link = Link(port, f"token{self.user}")
        try:
            while self.left:
                self.left -= 1
                self.send(self.next())
        except (OSError, Lost):
            pass
        finally:
            self.link.close()

    def creation(self) -> Todo:
        more = MANY if self.draw.random() < LARGE else 0
        return [("create", self.node(-100 - i)) for i in range(more)] + super().creation()


class Uploads(Part):
    def __init__(self, made: Made, links: int, changes: int, seed: int) -> None:
        super().__init__(made)
        self.links, self.changes, self.seed = links, changes, seed

    def first(self) -> int:
        self.made.lay({"": HEADER})
        return self.made.until_served() + 1

    def run(self, fault: Fault) -> tuple[int | None, list[str]]:
        self.made.lay({"": HEADER})
        run = Run(self.made.failing(fault), self.made.path, self.links, self.seed)
        people = [Few(it.user, self.seed * 1000 + it.user, self.changes) for it in run.editors]
        run.editors = [*people]
        with run.server() as server:
            *threads, reading = run.begin(server)
            for thread in threads:
                thread.join()
            status = ended(server, any(it.sent for it in people))
            reading.join()
        run.program = self.made.program
        run.look()
        go_on(run, people)
        return status, run.wrong()


def ended(server: Server, is_lost: bool) -> int | None:
    """The status with which the server ends where a link was lost; else it is ended, with none."""
    with contextlib.suppress(subprocess.TimeoutExpired):
        return int(server.process.wait(END_WAIT if is_lost else 0))
    server.process.terminate()
    server.process.wait()
    return None


def go_on(run: Run, people: list[Few]) -> None:
    """A server is started on the file, has all that was told, and takes a change more of each."""
    try:
        with run.server() as server:
            run.check(server.port)
            for it in people:
                it.left = 1
                it.work(server.port, threading.Event())
                if it.sent:
                    run.faults.append(f"user {it.user} can't go on")
    except SystemExit as why:
        run.faults.append(f"a start on what is left is refused: {why}")


class FewNotes(Writer):
    """Somebody who ends behind so many requests for notes."""

    def __init__(self, user: int, seed: int, changes: int) -> None:
        super().__init__(user, seed)
        self.left = changes

    def request(self) -> tuple[str, object]:
        if not self.left:
            raise Lost("done")
        self.left -= 1
        return super().request()


class Notes(Uploads):
    def first(self) -> int:
        self.made.lay({"": NOTES_HEADER})
        return self.made.until_served("serve-notes") + 1

    def server(self, program: str) -> Server:
        return Server(program, self.links + 1, users(self.links), command=("serve-notes", "--journal", self.made.path), port=own_port())

    def run(self, fault: Fault) -> tuple[int | None, list[str]]:
        self.made.lay({"": NOTES_HEADER})
        people = [FewNotes(i + 1, self.seed * 1000 + i, self.changes) for i in range(self.links)]
        with self.server(self.made.failing(fault)) as server:
            write(server.port, people)
            status = ended(server, any(it.accepted < self.changes for it in people))
        try:
            with self.server(self.made.program) as server:
                link = Link(server.port)
                for it in people:
                    it.check(link)
                    it.left = 1
                link.close()
                write(server.port, people)
        except SystemExit as why:
            return status, [f"a start on what is left is refused: {why}"]
        faults = [fault for it in people for fault in it.faults]
        return status, faults + ["somebody can't go on" for it in people if it.left or not it.accepted]


def write(port: int, people: list[FewNotes]) -> None:
    threads = [threading.Thread(target=it.work, args=(port,)) for it in people]
    for thread in threads:
        thread.start()
    for thread in threads:
        thread.join()


# ---- all of it


class Trial:
    def __init__(self, it: argparse.Namespace, made: Made) -> None:
        self.it, self.made = it, made
        self.faults: list[str] = []

    def uploads(self) -> Uploads:
        return Uploads(self.made, self.it.links, self.it.changes, self.it.seed)

    def kept(self) -> bytes:
        """The text of a usual run."""
        self.uploads().run(Fault())
        return text_of(read(self.made.path))

    def parts(self, kept: bytes) -> dict[str, Part]:
        return {
            "new": Start(self.made, {}, HEADER),
            "begun": Start(self.made, {".new": HEADER[:8]}, HEADER),
            "existing": Start(self.made, {"": batched(kept) + bytes(999)}, kept),
            "torn": Start(self.made, {"": batched(kept) + TORN + bytes(999)}, kept),
            "older": Start(self.made, {"": kept + OLDER_END + b'"at":1}\n' + bytes(999)}, kept),
            "uploads": self.uploads(),
            "notes": Notes(self.made, self.it.links, self.it.changes, self.it.seed),
        }

    def sweep(self, name: str, part: Part, way: Way) -> None:
        """Each call fails once, in a run of its own."""
        counts: collections.Counter[tuple[int | None, str]] = collections.Counter()
        at = part.first()
        while True:
            fault = way.fault(at)
            status, faults = part.run(fault)
            call = self.made.failed()
            if not call:
                break
            counts[status, call] += 1
            goes_on = status in (0, None)
            if call == LOOK and (goes_on or part.ends(at) == UNKEPT):
                faults += [] if goes_on else [f"status {status}: it doesn't go on"]
            elif status == part.ends(at):
                faults += self.made.asked_on()
            elif way.error != errno.EINTR or call not in TRIED_AGAIN or not goes_on:
                faults.append(f"status {status}, not {part.ends(at)}")
            self.faults += [f"{name}, {fault} ({call}): {it}" for it in faults]
            at += 1
        self.tell(name, counts)

    def tell(self, name: str, counts: collections.Counter[tuple[int | None, str]]) -> None:
        print(f"{name}: {sum(counts.values())} runs")
        for status in sorted({status for status, _ in counts}, key=str):
            calls = ", ".join(f"{count} {call}" for (its, call), count in counts.items() if its == status)
            print(f"  {'goes on' if status in (0, None) else f'status {status}'}: {calls}", flush=True)

    def try_short(self, parts: dict[str, Part]) -> None:
        for name, part in parts.items():
            status, faults = part.run(Fault(short=SHORT))
            if status not in (0, None):
                faults.append(f"status {status}")
            self.faults += [f"{name}, short: {it}" for it in faults]
        print(f"{len(parts)} runs whose reads and writes are of {SHORT} bytes at most: all as usual")

    def try_early_ends(self, kept: bytes) -> None:
        """The second read tells the file's end, where the first one stopped."""
        between = len(HEADER + SEAL) + kept.index(b"\n", len(HEADER)) + 1 - len(HEADER)  # no more than the first read asks for
        file = batched(kept) + bytes(999)
        for name, at in (("within a line", between - 9), ("between two lines", between)):
            self.made.lay({"": file})
            reads = self.made.first_read()
            self.made.lay({"": file})
            status = start(self.made.failing(Fault(reads + 1, lies=True, short=at)), self.made.path)
            now = read(self.made.path)
            if status != UNOPENED or now != file:
                self.faults.append(f"where a file's end is told {name} the status is {status}, or the file isn't as it was")
        print(f"2 reads that tell the file's end too early: status {UNOPENED}, and the file as it was")

    def try_lies(self) -> None:
        """Two syncs of batches lose what was written and tell that they succeeded."""
        part = self.uploads()
        first = part.first()
        part.run(Fault())
        calls = self.made.calls()
        # Zeros that are laid by come in several writes, and a batch in one.
        syncs = [at for at in range(first + 2, len(calls) + 1) if calls[at - 3 : at] == [LOOK, "pwrite", "fdatasync"]]
        middle, lied = len(syncs) // 2, 0
        for at in syncs[middle : middle + 2]:
            faults = part.run(Fault(at, lies=True))[1]
            # A run may come to fewer batches than the one before.
            lied += bool(self.made.failed())
            if self.made.failed() and not faults:
                self.faults.append(f"a sync that lies, call {at}, isn't found")
        print(f"{lied} syncs that lose what was written and tell that they succeeded are found")
        if not lied:
            self.faults.append("no sync lied")


def tried(trial: Trial, chosen: list[str]) -> None:
    kept = trial.kept()
    parts = {name: part for name, part in trial.parts(kept).items() if name in chosen}
    for name, part in parts.items():
        trial.sweep(name, part, Way(trial.it.turn))
    for name, part in parts.items():
        trial.sweep(f"{name}, interrupted", part, Way(0, errno.EINTR))
    trial.try_short(parts)
    trial.try_early_ends(kept)
    trial.try_lies()


def main() -> int:
    parser = argparse.ArgumentParser(usage=(__doc__ or "").split("\n\n")[0].partition(": ")[2])
    parser.add_argument("--program", default=PROGRAM)
    parser.add_argument("--parts", default="new,begun,existing,torn,older,uploads,notes")
    for name, usual in (("links", 4), ("changes", 5), ("turn", 0), ("seed", 1)):
        parser.add_argument(f"--{name}", type=int, default=usual)
    it = parser.parse_args()
    if not os.access(it.program, os.X_OK):
        print(f"there is no program {it.program}: ./osm build makes it", file=sys.stderr)
        return 2
    if not shutil.which("cc"):
        print("there is no cc: apt-get install gcc", file=sys.stderr)
        return 2
    with tempfile.TemporaryDirectory() as folder:
        trial = Trial(it, Made(it.program, folder))
        tried(trial, it.parts.split(","))
    return tell_faults(trial.faults)


if __name__ == "__main__":
    sys.exit(main())
