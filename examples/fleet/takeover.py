#!/usr/bin/python3
"""Has mirrors take over from a server that is gone for good, by promote: examples/fleet/takeover.py [--program PROGRAM]
    [--mirror PROGRAM] [--engine postgresql] [--rounds 10] [--seconds 2] [--pause 0.02] [--seed 1]

Starts `osm serve --journal`, an engine, writer.py, and three mirrors with a journal and a carrier each, on free ports of the loopback. First
promote has to refuse what it can't do (refused.py). Then, in each round, eight links upload, each so many seconds behind its last reply, and
after a drawn time the server is killed and its file put away. By turns everything else runs on; or the carriers were killed one after
another before, so that the engine has what no mirror has; or the engine is killed too and thrown away. By turns promote does all itself
(--run), or what it prints is done. Then

- the new server's text is a beginning of the old one's, and has all that a mirror or the engine had;
- where promote prints, the new server answers nine kinds of reads as the mirror did, byte for byte;
- eight links upload again, and each mirror answers as the server does: the two that are left, and a new one with an empty file or, where
  promote prints, with a copy of the server's.

It tells how many answered uploads are lost, and how long before the server's end the first of them was answered. Status 0 where all holds.
"""

from __future__ import annotations

import argparse
import os
import random
import shutil
import sys
import tempfile
import threading
import time
from contextlib import ExitStack
from functools import partial

import scripts
from promoted import Answered, Mirrored, Promoted, run_promote, text_is_beginning
from promotion import Text
from refused import try_refusals
from running import ENGINES, HERE, USERS, Process, kinds_of_reads, number, same_reads, script, url, wait_until
from serving import Link, Lost, Server, Wrong, free_port, trial_status

OUT = os.path.join(HERE, "..", "..", "crates")
WORKERS = 12
LINKS = 8
MIRRORS = 3
ADDED = 20  # uploads of each link behind each takeover
KINDS = ("all else runs on", "the carriers ended before", "the engine is gone too")


class Uploads(threading.Thread):
    """Uploads of a node each, and every tenth time of a way too, so many or until the server is gone."""

    def __init__(self, port: int, most: int = 0, pause: float = 0.0) -> None:
        super().__init__(daemon=True)
        self.link, self.most, self.pause, self.changes = Link(port, "alicetoken", 900), most, pause, 0
        self.changeset, self.answered = 0, []  # type: int, list[Answered]
        self.start()

    def run(self) -> None:
        try:
            self.changeset = self.link.ask("PUT", "changeset/create", {"tags": {"comment": "takeover"}}).read()
            while not self.most or len(self.answered) < self.most:
                done = len(self.answered)
                nodes = [{"type": "node", "id": -1, "lat7": 481000000 + done, "lon7": 115000000 + done}]
                nodes += [{"type": "way", "id": -1, "nodes": [-1]}] * (done % 10 == 9)
                if self.link.ask("POST", f"changeset/{self.changeset}/upload", {"osmChange": [{"create": nodes}]}).status != 200:
                    return
                self.changes += len(nodes)
                self.answered.append(Answered(time.monotonic(), self.changes))
                time.sleep(self.pause)
        except (OSError, Lost):
            return

    def lost(self, port: int) -> list[Answered]:
        """What was answered and isn't there."""
        reply = Link(port, kept=1).ask("GET", f"changeset/{self.changeset}")
        found = reply.read()["changeset"]["changes_count"] if reply.status == 200 else 0
        return [it for it in self.answered if it.changes > found]


class Trial:
    """All that runs, from one takeover to the next."""

    def __init__(self, words: argparse.Namespace, folder: str, stack: ExitStack) -> None:
        self.words, self.folder, self.stack = words, folder, stack
        self.users = os.path.join(folder, "users.txt")
        with open(self.users, "w", encoding="utf-8") as file:
            file.write(USERS)
        self.port, self.files = free_port(), 0
        self.journal = self.new_file("server")
        server = Server(words.program, WORKERS, USERS, command=("serve", "--journal", self.journal), port=self.port)
        self.stack.callback(server.__exit__)
        self.end_server = server.process.kill
        self.wait_for_server = server.process.wait
        self.mirrors = [Mirrored(words.mirror, self.new_file("mirror")) for _ in range(MIRRORS)]
        self.stack.callback(self.end_mirrors)
        self.begin_engine()

    def end_mirrors(self) -> None:
        for it in self.mirrors:
            it.kill()

    def new_file(self, name: str) -> str:
        self.files += 1
        return os.path.join(self.folder, f"{name}{self.files}.journal")

    def begin_engine(self) -> None:
        """An empty one, with a writer and carriers of its own."""
        folder = os.path.join(self.folder, f"engine{self.files}")
        os.mkdir(folder)
        self.engine = ENGINES[self.words.engine](folder)
        self.stack.callback(self.engine.kill)
        self.writer = self.add("writer.py", "--server", url(self.port))
        self.carriers = [self.add("carrier.py", "--mirror", url(it.port)) for it in self.mirrors]

    def add(self, name: str, *words: str) -> Process:
        process = script(name, *words, "--engine", self.engine.url)
        self.stack.callback(process.kill)
        return process

    def break_down(self, kind: str) -> float:
        """Ends what is to be gone, and tells when the server was."""
        time.sleep(random.uniform(0.3, self.words.seconds))
        if kind == KINDS[1]:
            for carrier in random.sample(self.carriers, MIRRORS):
                carrier.kill()
                time.sleep(random.uniform(0, 0.2))
        self.end_server()
        ended = time.monotonic()
        if kind == KINDS[2]:
            self.engine.kill()
            for process in (self.writer, *self.carriers):
                process.kill()
        self.wait_for_server()
        return ended

    def promote(self, engine: str, is_run: bool) -> Promoted:
        named = [word for it in self.mirrors for word in ("--mirror", f"{url(it.port)}={it.journal}")]
        words = ["--old", url(self.port), *named, *(("--engine", engine) if engine else ()), *(("--run",) if is_run else ())]
        serve = [self.words.program, "serve", "--users", self.users, "--listen", f"127.0.0.1:{self.port}", "--workers", str(WORKERS)]
        promoted = run_promote(self.folder, [*words, "--", *serve], self.port, is_run, self.mirrors, lambda port: replies(port, 1000))
        self.stack.callback(promoted.end)
        return promoted

    def go_on(self, kind: str, heir: Mirrored, is_empty: bool) -> None:
        """Everybody follows the new server, and a new mirror stands in the place of the one that took over."""
        place, file = self.mirrors.index(heir), self.new_file("mirror")
        if not is_empty:
            shutil.copy(self.journal, file)
        self.mirrors[place] = Mirrored(self.words.mirror, file, heir.port)
        if kind == KINDS[1]:
            for carrier in self.carriers:
                carrier.start()
        if kind == KINDS[2]:
            self.files += 1
            self.begin_engine()

    def level(self) -> None:
        uploads = [Uploads(self.port, ADDED) for _ in range(LINKS)]
        for it in uploads:
            it.join()
            if len(it.answered) != ADDED:
                raise Wrong(f"{len(it.answered)} of {ADDED} uploads are accepted")
        for mirror in self.mirrors:
            wait_until("a mirror", number(self.port), mirror.port)
            same_reads(self.port, mirror.port, "a mirror", 1000)


def replies(port: int, most: int) -> list[tuple[str, int, bytes]]:
    """What nine kinds of reads are answered, over a map of so many nodes."""
    link = Link(port, kept=900)
    paths = [path for paths in kinds_of_reads(most).values() for path in paths]
    return [(path, reply.status, reply.body) for path, reply in ((path, link.ask("GET", path)) for path in paths)]


def take_over(trial: Trial, kind: str, is_run: bool) -> tuple[int, int, float]:
    """A round: how many uploads were answered, how many of these are lost, and seconds from the first lost one to the server's end."""
    uploads = [Uploads(trial.port, pause=trial.words.pause) for _ in range(LINKS)]
    ended = trial.break_down(kind)
    for thread in uploads:
        thread.join(30)
    gone = trial.journal + ".gone"
    os.rename(trial.journal, gone)
    had = sorted(number(it.port) for it in trial.mirrors)
    promoted = trial.promote("" if kind == KINDS[2] else trial.engine.url, is_run)
    trial.end_server, trial.wait_for_server = promoted.process.kill, promoted.process.wait
    trial.journal = promoted.heir.journal
    left, all_of_it = text_is_beginning(trial.journal, gone, at_least=had[-1]), len(Text(gone))
    lost = [it for thread in uploads for it in thread.lost(trial.port)]
    trial.go_on(kind, promoted.heir, is_run)
    trial.level()
    answered, before = sum(len(it.answered) for it in uploads), max((ended - it.moment for it in lost), default=0.0)
    told = f"{kind}, promote {'--run' if is_run else 'prints'}: the mirrors had {', '.join(map(str, had))} of {all_of_it} pieces"
    lack = f", the first of them {1000 * before:.1f} ms before the end" if lost else ""
    print(f"{told}, {left} are left; {len(lost)} of {answered} answered uploads are lost{lack}; all follow", flush=True)
    return answered, len(lost), before


def rounds(words: argparse.Namespace) -> None:
    with tempfile.TemporaryDirectory() as folder, ExitStack() as stack:
        trial = Trial(words, folder, stack)
        trial.level()
        print(try_refusals(trial.port, trial.mirrors, trial.engine.url, words, folder), flush=True)
        found = [take_over(trial, KINDS[place % 3], place % 2 == 0) for place in range(words.rounds)]
    answered, lost, before = sum(it[0] for it in found), sum(it[1] for it in found), max(it[2] for it in found)
    most = max(it[1] for it in found)
    print(f"{lost} of {answered} answered uploads are lost in {len(found)} takeovers, {most} at most in one, {1000 * before:.1f} ms at most")


def words_of(doc: str | None, rounds: int) -> argparse.Namespace:
    """The words of a trial in so many rounds, with the drawing begun by its seed."""
    parser = argparse.ArgumentParser(usage=scripts.usage(doc))
    parser.add_argument("--program", default=os.path.join(OUT, "osm", "out", "osm"))
    parser.add_argument("--mirror", default=os.path.join(OUT, "osm_mirror", "out", "osm_mirror"))
    parser.add_argument("--engine", choices=tuple(ENGINES), default="redis")
    parser.add_argument("--rounds", type=int, default=rounds)
    parser.add_argument("--seconds", type=float, default=2)
    parser.add_argument("--pause", type=float, default=0.02)
    parser.add_argument("--seed", type=int, default=1)
    words = parser.parse_args()
    random.seed(words.seed)
    return words


def main() -> int:
    return trial_status(partial(rounds, words_of(__doc__, 10)))


if __name__ == "__main__":
    sys.exit(main())
