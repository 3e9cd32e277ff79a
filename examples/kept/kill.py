#!/usr/bin/env python3
"""Whether a map outlives its program: examples/kept/kill.py [--program PROGRAM] [--seconds 60] [--rounds N] [--links 4]
    [--full 512] [--seed 1]

Starts `PROGRAM serve --journal FILE` on a new file. Each link is that of a user who edits, and one more reads what they make. After a drawn
time the program is ended by SIGKILL. In some rounds what stands behind the file's text is changed as a crash of the machine may leave it.
Then it is started again on the same file, and goes on, where all of this holds:

- the file begins with what stood for the text in the round before and the two empty lines of a start, and behind its text stands no more than
  a beginning of a batch and zeros;
- each changeset has each accepted upload once, whole and in order, and nothing else but, whole or not at all, the one whose reply was cut off;
- elements that were changed have the versions that were accepted, and no others;
- each version that a reply told of is there;
- `PROGRAM replay` reads the text, and tells as many entries and as many visible elements.

Before, it is tried which files are refused; at last the same is done on a disk of --full KiB, a tmpfs where that may be mounted and else a
limit on the file's length: the program has to end with status 9, and to go on from the file once there is room. 0 leaves that out.

PROGRAM is crates/osm/out/osm where none is named. Status 0 where all holds, 1 where something doesn't, 2 where it can't be run. A kill ends
the program and not the machine: what a failing machine leaves is proved of the file, and drawn by power_loss.py.
"""

from __future__ import annotations

import argparse
import contextlib
import os
import random
import signal
import subprocess
import sys
import tempfile
import threading
import time
from collections.abc import Callable

HERE = os.path.dirname(os.path.abspath(__file__))
sys.path.insert(1, os.path.join(HERE, ".."))

from editors import Editor, Reader  # noqa: E402
from kept_file import HEADER, REFUSED, SEAL, UNOPENED, parted, read, refusal  # noqa: E402
from serving import Link, Lost, Server, free_port, grown_disk, small_disk, tell_faults  # noqa: E402

PROGRAM = os.path.join(HERE, "..", "..", "crates", "osm", "out", "osm")
TEXT_LIMIT = 1 << 28  # bytes that `replay` reads
LONGEST = 1.5  # seconds of a round
END_WAIT = 60  # seconds until a program has to have ended
LIMITED = 'ulimit -f {}; trap "" XFSZ; exec "$0" "$@"'
UNKEPT = 9  # the status where a journal can't be kept
TORN = b'{"at":1,"call":1}\n{"at":1,"call":2}\n\n'  # a batch of which a crash leaves no line


UNFIT = (
    ("foreign", b"#!/bin/sh\necho\n", REFUSED),
    ("empty", b"", REFUSED),
    ("damaged", HEADER + b'x"at":1}\n', REFUSED),
    ("damaged by one byte", HEADER + SEAL + b"x", REFUSED),
    ("damaged in a batch before the last", HEADER + SEAL + b'{"at":\0}\n\n{}\n\n', REFUSED),
    ("damaged in a batch before the last, whose beginning is lost", HEADER + SEAL + b'\0"at":1}\n\n{}\n\n', REFUSED),
    ("damaged behind the end of an older version", HEADER + b"#\n\n{}\n", REFUSED),
    ("damaged in its last batch, and sealed", HEADER + SEAL + b'{"at":\0}\n\n' + SEAL, REFUSED),
    ("illegal", HEADER + b"{}\n", REFUSED),
    ("of an older version, with a zero in a line", HEADER + b'{"at":\0}\n{}\n#', UNOPENED),
    ("of an older version, with a zero before a line", HEADER + b'\0"at":1}\n{}\n#', UNOPENED),
    ("of an older version, with a line that isn't whole", HEADER + b'{"at":1', UNOPENED),
)
"""Files that are refused, with the status."""


class Run:
    """A journal's file and its people, over one program after another."""

    def __init__(self, program: str, path: str, links: int, seed: int) -> None:
        self.program, self.path, self.draw = program, path, random.Random(seed)
        self.editors = [Editor(i + 1, seed * 1000 + i) for i in range(links)]
        self.reader = Reader(seed)
        self.users = "".join(f"{i + 1} token{i + 1} user user{i + 1}\n" for i in range(links))
        self.raw = HEADER
        """What stood for the text, as the last program left it."""
        self.rounds = 0
        self.faults: list[str] = []

    def server(self, blocks: int = 0) -> Server:
        """The program on the file, which may have no more than so many blocks of 512 bytes, unless that is 0."""
        command: tuple[str, ...] = ("serve", "--journal", self.path)
        program = self.program
        if blocks:
            program, command = "/bin/sh", ("-c", LIMITED.format(blocks), self.program, *command)
        return Server(program, len(self.editors) + 2, self.users, command=command)

    def begin(self, server: Server) -> list[threading.Thread]:
        works: list[Callable[[int, threading.Event], None]] = [*(it.work for it in self.editors), self.reader.work]
        threads = [threading.Thread(target=work, args=(server.port, threading.Event())) for work in works]
        for thread in threads:
            thread.start()
        return threads

    # ---- rounds

    def round(self, seconds: float) -> None:
        """Edits for so long, has the program killed, and looks at the file."""
        self.rounds += 1
        with self.server() as server:
            self.check(server.port)
            threads = self.begin(server)
            time.sleep(seconds)
            if server.process.poll() is not None:
                self.faults.append(f"the program ended with status {server.process.returncode}")
            elif not all(thread.is_alive() for thread in threads):
                self.faults.append("a link was lost while the program ran")
            self.kill(server)
            for thread in threads:
                thread.join()
        self.look()

    def kill(self, server: Server) -> None:
        with contextlib.suppress(ProcessLookupError):
            os.kill(server.pid, signal.SIGKILL)
        server.process.wait()

    def look(self) -> None:
        """The file as it was left, against what it was and what was accepted."""
        file = read(self.path)
        left = parted(file)
        if status := refusal(file):
            self.faults.append(f"behind the text stands {left.rest[:40]!r}, for which a start ends with status {status}")
        if not left.raw.startswith(self.raw + SEAL):
            self.faults.append("the text of the round before and the empty lines of a start aren't there")
        least = sum(it.entries for it in self.editors)
        most = least + sum(it.sent is not None for it in self.editors)
        if not least <= left.entries() <= most:
            self.faults.append(f"the file has {left.entries()} entries, and {least} to {most} were accepted")
        self.raw = left.raw

    def tear(self) -> None:
        """Changes what stands behind the text, as a crash of the machine may leave it, or not at all."""
        junk = self.draw.randbytes(self.draw.randrange(400)).replace(b"\n", b"") + b'{"at":1}\n'
        end = self.draw.choice((None, None, b"", b"{", b"#", b"#" + junk, bytes(self.draw.randrange(999)), self.torn()))
        if end is not None:
            with open(self.path, "r+b") as file:
                file.truncate(len(self.raw))
                file.seek(0, os.SEEK_END)
                file.write(end)

    def torn(self) -> bytes:
        """A batch over zeros, each byte written or not, and one of its first line's not."""
        left = bytearray(it if self.draw.random() < 0.8 else 0 for it in TORN)
        left[self.draw.randrange(TORN.index(b"\n"))] = 0
        return bytes(left) + bytes(self.draw.randrange(999))

    # ---- checks

    def check(self, port: int) -> None:
        """All that was changed in the round before, against the server that reads the file again."""
        link = Link(port, "token1")
        try:
            for editor in self.editors:
                editor.settle(link)
                editor.check(link)
        except (OSError, Lost) as why:
            self.faults.append(f"a link was lost at a check: {why!r}")
            return
        finally:
            link.close()
        self.faults += self.reader.lacks(self.editors)
        text = parted(self.raw).text()
        if len(text) <= TEXT_LIMIT:
            self.check_replay(text)

    def check_replay(self, text: bytes) -> None:
        run = subprocess.run([self.program, "replay"], input=text, stdout=subprocess.PIPE, check=False)
        told = dict(line.split(" ", 1) for line in run.stdout.decode().splitlines())
        wanted = {"entries": sum(it.entries for it in self.editors)}
        wanted |= {kind + "s": sum(it.visible[kind] for it in self.editors) for kind in ("node", "way")}
        if run.returncode or any(told.get(name) != str(count) for name, count in wanted.items()):
            self.faults.append(f"replay ends with status {run.returncode} and tells {told}, not {wanted}")

    def wrong(self) -> list[str]:
        return self.faults + [fault for editor in self.editors for fault in editor.faults]

    # ---- files that are refused

    def status_on(self, path: str) -> int | None:
        """The status with which the program ends on a file at once, or none."""
        words = ["serve", "--listen", f"127.0.0.1:{free_port()}", "--workers", "1", "--users", os.path.devnull, "--journal", path]
        with subprocess.Popen([self.program, *words], stdin=subprocess.DEVNULL) as process:
            try:
                return process.wait(END_WAIT)
            except subprocess.TimeoutExpired:
                process.kill()
                return None

    def refuses(self, name: str, file: bytes, wanted: int) -> None:
        """The program ends with that status on a file with these bytes, and leaves it as it is."""
        path = f"{self.path}.{name}"
        with open(path, "wb") as out:
            out.write(file)
        status = self.status_on(path)
        if status != wanted or read(path) != file:
            self.faults.append(f"on a file that is {name} the status is {status}, not {wanted}, or the file was changed")
        os.remove(path)

    def try_refusals(self) -> None:
        with self.server():
            if self.status_on(self.path) != UNOPENED:
                self.faults.append("the file is opened twice")
        if self.status_on(os.path.join(self.path, "journal")) != UNOPENED:
            self.faults.append("a file without a folder is opened")
        for name, file, wanted in UNFIT:
            self.refuses(name, file, wanted)
        self.raw = parted(read(self.path)).raw


# ---- a disk that gets full


def fill(run: Run, blocks: int) -> None:
    """Edits until the disk is full, which has to end the program with its status."""
    with run.server(blocks) as server:
        threads = run.begin(server)
        try:
            status: int | None = server.process.wait(END_WAIT)
        except subprocess.TimeoutExpired:
            status = None
            run.kill(server)
        for thread in threads:
            thread.join()
    if status != UNKEPT:
        run.faults.append(f"on a full disk the status is {status}, not {UNKEPT}" if status else "a full disk doesn't end the program")
    run.look()


def try_full(program: str, folder: str, size: int, links: int, seed: int) -> Run:
    """Fills a small disk, and goes on from its file once there is room."""
    with small_disk(folder, size) as is_mounted:
        run = Run(program, os.path.join(folder, "journal"), links, seed)
        fill(run, 0 if is_mounted else 2 * size)
        if is_mounted:
            grown_disk(folder)
        run.round(LONGEST)
        finish(run)
    return run


# ---- all of it


def finish(run: Run) -> None:
    with run.server() as server:
        run.check(server.port)


def try_kills(run: Run, seconds: float, rounds: int) -> None:
    run.try_refusals()
    until = time.monotonic() + seconds
    while time.monotonic() < until and not run.wrong() and (not rounds or run.rounds < rounds):
        run.round(run.draw.uniform(0.02, LONGEST))
        run.tear()
    finish(run)


def tell(name: str, run: Run) -> int:
    versions = sum(map(len, (known for editor in run.editors for known in editor.versions.values())))
    entries = sum(editor.entries for editor in run.editors)
    print(f"{name}: {run.rounds} kills, {entries} changes, {versions} versions, {len(run.reader.seen)} elements read meanwhile")
    return tell_faults(run.wrong())


def main() -> int:
    parser = argparse.ArgumentParser(usage=(__doc__ or "").split("\n\n")[0].partition(": ")[2])
    parser.add_argument("--program", default=PROGRAM)
    parser.add_argument("--seconds", type=float, default=60)
    for name, usual in (("rounds", 0), ("links", 4), ("full", 512), ("seed", 1)):
        parser.add_argument(f"--{name}", type=int, default=usual)
    it = parser.parse_args()
    if not os.access(it.program, os.X_OK):
        print(f"there is no program {it.program}: ./osm build makes it", file=sys.stderr)
        return 2
    with tempfile.TemporaryDirectory() as folder:
        run = Run(it.program, os.path.join(folder, "journal"), it.links, it.seed)
        try_kills(run, it.seconds, it.rounds)
        wrong = tell("kills", run)
    if it.full:
        with tempfile.TemporaryDirectory() as folder:
            wrong += tell("a full disk", try_full(it.program, folder, it.full, it.links, it.seed))
    return 1 if wrong else 0


if __name__ == "__main__":
    sys.exit(main())
