#!/usr/bin/env python3
"""Whether a server stops in order: examples/stop.py [PROGRAM] [--links 60] [--seconds 2] [--wait 60]

Starts `PROGRAM serve --until-input-ends`, puts links under load for some seconds, each with a request behind the last reply, and closes the
program's input. Half of the links read and half make changesets; a few more are silent. Then this has to hold:

- each reply that came, came whole, and the link ended behind it;
- the program ends by itself with status 0 within 10 seconds, and nobody takes links any more;
- a changeset whose creation was answered is in the journal, and the journal's file ends with more empty lines than a batch has, and zeros.

Then the same on a journal whose file can't grow, while a link is idle: the program has to end by itself with status 9.

PROGRAM is crates/osm/out/osm where none is named. Status 0 where all holds, 1 where something doesn't, 2 where it can't be run.
"""

from __future__ import annotations

import argparse
import os
import subprocess
import sys
import tempfile
import threading
import time

from serving import Lost, Replies, connect, free_port, request, takes_links, tell_faults, wait_for_answer

HERE = os.path.dirname(os.path.abspath(__file__))
PROGRAM = os.path.join(HERE, "..", "crates", "osm", "out", "osm")
WORKERS = 64
SILENT = 4  # links that say nothing
LIMIT = 10  # seconds that a stop may take
UNKEPT = 9  # the status where a journal can't be kept
SEALED = b"}\n\n" + b"\n\n"  # a line, the empty one behind its batch, and two (docs/JOURNAL.md)
LIMITED = 'ulimit -f 600; trap "" XFSZ; exec "$0" "$@"'  # blocks of 512 bytes: room is laid by once, and not again


class Client(threading.Thread):
    """A link that asks until the server ends it."""

    def __init__(self, port: int, number: int) -> None:
        super().__init__()
        self.port, self.stream = port, connect(port, 60)
        self.message = request("PUT", "changeset/create", "token1", {"tags": {}}) if number % 2 else request("GET", "changesets")
        self.creates = bool(number % 2)
        self.answered, self.wrong = 0, ""

    def run(self) -> None:
        replies = Replies(self.stream)
        try:
            while True:
                self.stream.sendall(self.message)
                reply = replies.next()
                if reply.status != 200:
                    self.wrong = f"status {reply.status}"
                    return
                self.answered += 1
                if reply.closes:
                    self.stream.close()
                    self.stream = connect(self.port, 60)
                    replies = Replies(self.stream)
        except (Lost, OSError):
            if replies.held:
                self.wrong = f"a reply was cut off: {replies.held[:60]!r}"
        finally:
            self.stream.close()


class Program:
    """The program, which ends with its input."""

    def __init__(self, words: list[str], folder: str, wait: float) -> None:
        self.port = free_port()
        users = os.path.join(folder, "users.txt")
        with open(users, "w") as file:
            file.write("1 token1 user user1\n")
        self.journal = os.path.join(folder, "journal")
        words = [*words, "serve", "--until-input-ends", "--users", users, "--listen", f"127.0.0.1:{self.port}"]
        self.process = subprocess.Popen([*words, "--workers", str(WORKERS), "--journal", self.journal], stdin=subprocess.PIPE)
        wait_for_answer(words[0], self.process, lambda: takes_links(self.port), wait)

    def close_input(self) -> None:
        assert self.process.stdin
        self.process.stdin.close()

    def status(self, limit: float) -> tuple[int | None, float]:
        """The status with which it ends by itself within so many seconds, or none; and how long that took."""
        begun = time.monotonic()
        try:
            status: int | None = self.process.wait(limit)
        except subprocess.TimeoutExpired:
            self.process.kill()
            self.process.wait()
            status = None
        return status, time.monotonic() - begun


def entries_of(journal: str) -> int:
    with open(journal, "rb") as file:
        return file.read().count(b"\n{")


def is_sealed(journal: str) -> bool:
    with open(journal, "rb") as file:
        return file.read().rstrip(b"\0").endswith(SEALED)


def try_stop(words: list[str], links: int, seconds: float, wait: float) -> list[str]:
    with tempfile.TemporaryDirectory() as folder:
        program = Program(words, folder, wait)
        silent = [connect(program.port) for _ in range(SILENT)]
        clients = [Client(program.port, number) for number in range(links)]
        for client in clients:
            client.start()
        time.sleep(seconds)
        wrong = [] if program.process.poll() is None else ["the program ended before its input did"]
        program.close_input()
        status, taken = program.status(LIMIT)
        for client in clients:
            client.join()
        for stream in silent:
            stream.close()
        wrong += [client.wrong for client in clients if client.wrong]
        if status != 0:
            wrong.append(f"the status is {status}, not 0, after {taken:.1f} seconds")
        if takes_links(program.port):
            wrong.append("links are still taken")
        created = sum(client.answered for client in clients if client.creates)
        kept = entries_of(program.journal)
        if not created <= kept <= created + links:
            wrong.append(f"{created} creations were answered, and the journal has {kept}")
        if not is_sealed(program.journal):
            wrong.append("the journal's file isn't sealed")
        print(f"{sum(it.answered for it in clients)} replies on {links} links, {created} of them kept; it stopped in {taken:.2f} seconds")
    return wrong


def try_full(words: list[str], wait: float) -> list[str]:
    """Creates changesets until the journal's file can't grow, beside a link that stays idle."""
    with tempfile.TemporaryDirectory() as folder:
        program = Program(["/bin/sh", "-c", LIMITED, *words], folder, wait)
        with connect(program.port):
            client = Client(program.port, 1)
            client.run()
            status, taken = program.status(LIMIT)
        kept = entries_of(program.journal)
        print(f"{client.answered} changesets until the journal was full; it stopped in {taken:.2f} seconds")
    wrong = [client.wrong] if client.wrong else []
    if not 0 < client.answered <= kept <= client.answered + 1:
        wrong.append(f"{client.answered} creations were answered, and the full journal has {kept}")
    return wrong if status == UNKEPT else [*wrong, f"on a full journal the status is {status}, not {UNKEPT}"]


def main() -> int:
    parser = argparse.ArgumentParser(usage=(__doc__ or "").split("\n\n")[0].partition(": ")[2])
    parser.add_argument("program", nargs="?", default=PROGRAM)
    parser.add_argument("--links", type=int, default=WORKERS - SILENT)
    parser.add_argument("--seconds", type=float, default=2)
    parser.add_argument("--wait", type=float, default=60)
    it = parser.parse_args()
    if not os.access(it.program, os.X_OK):
        print(f"there is no program {it.program}: ./osm build makes it", file=sys.stderr)
        return 2
    wrong = try_stop([it.program], it.links, it.seconds, it.wait)
    wrong += try_full([it.program], it.wait)
    return tell_faults(wrong)


if __name__ == "__main__":
    sys.exit(main())
