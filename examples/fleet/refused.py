"""What promote has to refuse by name, changing nothing."""

from __future__ import annotations

import argparse
import os
import shutil
import subprocess
from collections.abc import Sequence
from contextlib import ExitStack
from typing import Any

from costs import pieces
from engine import open_engine
from promoted import Mirrored, command_of
from running import number, url
from serving import Link, Wrong, free_port

class Refusals:
    """What was refused so far, by runs of promote with some words that all of them have."""

    def __init__(self, folder: str, *words: str) -> None:
        self.folder, self.words = folder, words
        self.names: list[str] = []

    def want(self, name: str, *words: str) -> None:
        """It has to end with status 1, and with that name. Of a word that comes twice the last one counts."""
        command = command_of(self.folder, [*self.words, *words])
        done = subprocess.run(command, capture_output=True, text=True, timeout=120, check=False)
        if done.returncode != 1 or not done.stderr.startswith(f"refused: {name}: "):
            raise Wrong(f"promote ended with status {done.returncode}, and not refused as {name}: {done.stdout} {done.stderr}")
        self.names.append(name)


def another(program: str, journal: str, count: int) -> Mirrored:
    """A mirror of another journal, which is made up."""
    mirror = Mirrored(program, journal)
    link = Link(mirror.port, "bobtoken", 900)
    for _, piece in zip(range(count), pieces()):
        if link.ask("POST", "replication", piece).status != 200:
            raise Wrong("a piece that is made up isn't taken")
    return mirror


def state(mirrors: Sequence[Mirrored]) -> list[tuple[int, bytes]]:
    found = []
    for it in mirrors:
        with open(it.journal, "rb") as file:
            found.append((number(it.port), file.read()))
    return found


def named(mirror: Mirrored, journal: str = "") -> tuple[str, str]:
    return "--mirror", f"{url(mirror.port)}={journal or mirror.journal}"


def try_refusals(server: int, mirrors: Sequence[Mirrored], engine: str, words: argparse.Namespace, folder: str) -> str:
    """While all is level: each refusal leaves the mirrors as they are."""
    before, own = state(mirrors), [word for it in mirrors for word in named(it)]
    from_engine, refusals = ("--engine", engine), Refusals(folder, "--old", url(free_port()))
    for old in (url(server), "http://no.such.host.invalid:8080"):
        refusals.want("old_server", *own, *from_engine, "--old", old)
    with ExitStack() as stack:
        longer = another(words.mirror, os.path.join(folder, "longer.journal"), 300)
        stack.callback(longer.kill)
        shorter = another(words.mirror, os.path.join(folder, "shorter.journal"), 5)
        stack.callback(shorter.kill)
        unkept = Mirrored(words.mirror, "")
        stack.callback(unkept.kill)
        for other in (longer, shorter):
            refusals.want("other_journal", *own, *named(other), *from_engine)
            refusals.want("other_journal", *own, *named(other))
        refusals.want("other_journal", *named(longer), *from_engine)
        refusals.want("no_journal", *own, "--mirror", url(longer.port), *from_engine)
        refusals.want("no_journal", "--mirror", url(mirrors[0].port), *from_engine)
        for path in (os.path.join(folder, "none.journal"), longer.journal + ".copy", words.program):
            if path.endswith(".copy"):
                shutil.copy(longer.journal, path)
            refusals.want("no_journal", *named(unkept, path), *from_engine)
        refusals.want("no_journal", *named(mirrors[0], shorter.journal), *from_engine)
    refusals.want("mirror_lost", *own, "--mirror", url(free_port()), *from_engine)
    refusals.want("engine_lost", *named(mirrors[0]), "--engine", f"redis://127.0.0.1:{free_port()}")
    if engine.startswith("redis"):
        refuse_engines(refusals, own, engine)
    if state(mirrors) != before:
        raise Wrong("a refusal changed a mirror")
    return f"{len(refusals.names)} times it is refused, as {', '.join(sorted(set(refusals.names)))}; no mirror is changed"


def refuse_engines(refusals: Refusals, own: Sequence[str], address: str) -> None:
    """In another database of the same Redis: one without a journal, and one that is ahead with a gap."""
    import redis

    from redis_engine import CURRENT, stream

    other = f"{address}/1"
    refusals.want("engine_empty", *own, "--engine", other)
    engine = open_engine(address)
    name = engine.journal()
    last, key = engine.ends(name).number, stream(name)
    engine.close()
    link: Any = redis.Redis.from_url(address)
    for it in (key, CURRENT):
        link.execute_command("COPY", it, it, "DB", 1)
    link.execute_command("SELECT", 1)
    link.xadd(key, {"piece": b'{"entry":{},"number":%d,"version":2}' % (last + 2)}, id=f"{last + 2}-0")
    refusals.want("engine_gap", *own, "--engine", other)
    link.flushdb()
    link.close()
