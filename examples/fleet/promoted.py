"""What the trials of promote share: mirrors that keep a journal, and what became of a run of promote."""

from __future__ import annotations

import os
import re
import shlex
import signal
import subprocess
import sys
from collections.abc import Callable, Sequence
from dataclasses import dataclass
from typing import NamedTuple

from promotion import Text
from running import HERE, MIRROR_WORKERS, USERS, answers
from serving import Server, Unanswered, Wrong, wait_for_answer

SECONDS = 60  # for a server to answer


class Answered(NamedTuple):
    """An upload whose reply came: when, and how many changes its changeset has with it."""

    moment: float
    changes: int


class Mirrored:
    """A mirror with the journal that it keeps; none where the name is empty."""

    def __init__(self, program: str, journal: str, port: int = 0) -> None:
        self.journal = journal
        command = ("--journal", journal) if journal else ()
        self.server = Server(program, MIRROR_WORKERS, USERS, command=command, port=port)
        self.port = self.server.port

    def has_ended(self) -> bool:
        return self.server.process.poll() is not None

    def kill(self) -> None:
        self.server.process.kill()
        self.server.__exit__()


@dataclass
class Promoted:
    """The server that goes on, and the mirror that it was."""

    process: subprocess.Popen[bytes]
    heir: Mirrored

    def end(self) -> None:
        self.process.kill()
        self.process.wait()


def command_of(folder: str, words: Sequence[str]) -> list[str]:
    """promote with a moderator's token, which a file of that folder has."""
    path = os.path.join(folder, "token")
    with open(path, "w", encoding="ascii", opener=lambda name, flags: os.open(name, flags, 0o600)) as file:
        file.write("bobtoken\n")
    return [sys.executable, os.path.join(HERE, "promote"), "--token-file", path, *words]


def wait_for_answers(port: int, process: subprocess.Popen[bytes], told: str) -> None:
    try:
        wait_for_answer("the server behind promote", process, lambda: answers(port), SECONDS)
    except Unanswered as why:
        with open(told, encoding="utf-8") as file:
            raise Wrong(f"{why}: {file.read()}") from None


def run_promote(
    folder: str, words: Sequence[str], port: int, is_run: bool, mirrors: Sequence[Mirrored], read: Callable[[int], object]
) -> Promoted:
    """Runs it to the server that goes on. Where it prints, its two commands are done, and the server has to read as the mirror did."""
    told = os.path.join(folder, "told")
    with open(told, "wb") as file:
        process = subprocess.Popen(command_of(folder, words), stdin=subprocess.DEVNULL, stdout=file, stderr=subprocess.STDOUT)
    if is_run:
        wait_for_answers(port, process, told)
        return Promoted(process, heir_of(mirrors))
    status = process.wait(SECONDS)
    with open(told, encoding="utf-8") as text:
        lines = text.read()
    found = re.search(r"    kill (\d+)\n    (.*)\n", lines)
    if status or found is None:
        raise Wrong(f"promote ended with status {status}: {lines}")
    heir = next((it for it in mirrors if it.server.process.pid == int(found[1])), None)
    if heir is None:
        raise Wrong(f"it would end process {found[1]}, which is no mirror: {lines}")
    before = read(heir.port)
    os.kill(int(found[1]), signal.SIGTERM)
    heir.server.process.wait()
    process = subprocess.Popen(shlex.split(found[2]), stdin=subprocess.DEVNULL)
    wait_for_answers(port, process, told)
    if read(port) != before:
        raise Wrong("the new server answers otherwise than the mirror did")
    return Promoted(process, heir)


def heir_of(mirrors: Sequence[Mirrored]) -> Mirrored:
    ended = [it for it in mirrors if it.has_ended()]
    if len(ended) != 1:
        raise Wrong(f"{len(ended)} mirrors have ended, and not one")
    return ended[0]


def text_is_beginning(new: str, old: str, at_least: int) -> int:
    """How many pieces the new text has; it has to be a beginning of the old one, with so many pieces at least."""
    text, before = Text(new), Text(old)
    if len(text) > len(before) or any(text.piece(it) != before.piece(it) for it in range(1, len(text) + 1)):
        raise Wrong(f"{new} isn't a beginning of {old}")
    if len(text) < at_least:
        raise Wrong(f"{new} has {len(text)} pieces, and a mirror had {at_least}")
    return len(text)
