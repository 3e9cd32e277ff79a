"""A mirror's file as the next server's journal: which mirror it is, what has to hold before, and the steps to it."""

from __future__ import annotations

import fcntl
import os
import re
import socket
import subprocess
import time
from array import array
from collections.abc import Callable, Iterator, Sequence
from contextlib import contextmanager
from dataclasses import dataclass

from carrier import Journal
from engine import MOST, Engine, EngineLost, open_engine
from feed import NUMBER, OtherJournal, Taken, Unusable
from kept_link import Link, Lost, Site
from mirror import Mirror, body_of

HEADER = b"osm-journal 2\n"
SECONDS = 20.0  # for a mirror's answer
GONE = 5.0  # seconds in which an old server that isn't gone takes a link
END = 30.0  # seconds in which a mirror has to have ended


class Refused(Exception):
    """Why no mirror takes over, with a name for it. Nothing was changed but that a mirror may have got true pieces of the engine."""

    def __init__(self, name: str, text: str) -> None:
        super().__init__(f"{name}: {text}")


@contextmanager
def refusals() -> Iterator[None]:
    """Each way in which a mirror or the engine can't be gone on with has a name."""
    try:
        yield
    except EngineLost as why:
        text = "it may have what no mirror has: start it, or leave it out where it is gone for good"
        raise Refused("engine_lost", f"{why}; {text}") from why
    except OtherJournal as why:
        raise Refused("other_journal", str(why)) from why
    except Unusable as why:
        raise Refused("unusable", str(why)) from why
    except Lost as why:
        raise Refused("mirror_lost", f"{why}; where it is gone for good leave it out") from why


@dataclass(frozen=True, slots=True)
class Named:
    """A mirror as the words name it; one whose file is on another machine has no path, and can't be the one that takes over."""

    url: str
    path: str


@dataclass(frozen=True, slots=True)
class Found:
    """A mirror with the number of pieces that it has."""

    named: Named
    number: int


class Text:
    """The whole lines of a journal's file, as the pieces of a feed. A mirror may be writing behind them meanwhile."""

    def __init__(self, path: str) -> None:
        self.path, self.starts, self.ends = path, array("Q"), array("Q")
        try:
            self.file = open(path, "rb")
        except OSError as why:
            raise Refused("no_journal", f"{path}: {why.strerror}") from why
        if self.file.readline() != HEADER:
            raise Refused("no_journal", f"{path} isn't the file of a journal")
        at = len(HEADER)
        for line in self.file:
            if line.startswith(b"{") and line.endswith(b"\n") and b"\0" not in line:
                self.starts.append(at)
                self.ends.append(at + len(line) - 1)
            elif line != b"\n":
                break  # zeros, or a line that is being written (docs/JOURNAL.md)
            at += len(line)

    def __len__(self) -> int:
        return len(self.starts)

    def piece(self, number: int) -> bytes:
        start, end = self.starts[number - 1], self.ends[number - 1]
        self.file.seek(start)
        line = self.file.read(end - start)
        return b'{"entry":%b,"number":%d,"version":2}' % (line, number)


class Known:
    """All pieces that are known: those of a file, and behind them those of the engine, where there is one."""

    def __init__(self, text: Text, journal: Journal | None) -> None:
        self.text, self.journal = text, journal
        self.of_engine = journal.ends() if journal else Taken()

    def ends(self) -> Taken:
        number = max(len(self.text), self.of_engine.number)
        return Taken(number, self.piece(1), self.piece(number)) if number else Taken()

    def piece(self, number: int) -> bytes:
        if number <= len(self.text) or self.journal is None:
            return self.text.piece(number)
        return self.journal.piece(number)


def is_held(path: str) -> bool:
    """Whether a program has this journal open: it holds a lock on it."""
    with open(path, "rb") as file:
        try:
            fcntl.flock(file, fcntl.LOCK_EX | fcntl.LOCK_NB)
        except BlockingIOError:
            return True
        return False


def holder(path: str) -> int:
    """The process that holds the lock on a file, or 0 where none is seen."""
    wanted = os.stat(path)
    for pid in filter(str.isdigit, os.listdir("/proc")):
        try:
            for descriptor in os.listdir(f"/proc/{pid}/fd"):
                if os.path.samestat(os.stat(f"/proc/{pid}/fd/{descriptor}"), wanted):
                    with open(f"/proc/{pid}/fdinfo/{descriptor}", encoding="utf-8") as file:
                        if "FLOCK" in file.read():
                            return int(pid)
        except OSError:
            continue  # it has ended, or is another user's
    return 0


def unit_of(pid: int) -> str:
    """The service of examples/deploy that a process is of, which systemd may start again if it ends otherwise; empty where there is none."""
    with open(f"/proc/{pid}/cgroup", encoding="utf-8") as file:
        found = re.search(r"/(hegunsap-[^/\s]+\.service)$", file.read(), re.MULTILINE)
    return found[1] if found else ""


def ending(pid: int) -> list[str]:
    """The command that ends a mirror's process."""
    unit = unit_of(pid)
    return ["systemctl", "stop", unit] if unit else ["kill", str(pid)]


class Promotion:
    """Of some mirrors the one that has the most becomes the server. `tell` gets a line of each thing that is found."""

    def __init__(self, mirrors: Sequence[Named], engine: str, token: str, tell: Callable[[str], None]) -> None:
        self.mirrors, self.engine_url, self.token, self.tell = mirrors, engine, token, tell
        self.engine: Engine | None = None
        self.journal: Journal | None = None

    def prepare(self, old: str) -> Found:
        """Everything up to the last step: the heir has all that is left of the journal, and the others have the same one."""
        self.check_gone(old)
        found = [self.state_of(it) for it in self.mirrors]
        self.open_engine()
        heir = self.choose(found)
        known = Known(self.text_of(heir), self.journal)
        self.compare_engine(known)
        for it in found:
            self.compare(it, known)
        self.check_drainable(len(known.text), known.of_engine.number)
        self.drain(heir.named, known)
        return self.check_again(heir.named)

    def check_gone(self, old: str) -> None:
        """A server that takes links may yet accept a change, also where it doesn't answer now."""
        try:
            Link(old, GONE).close()
        except Lost as why:
            if isinstance(why.__cause__, socket.gaierror):
                raise Refused("old_server", f"{old} isn't an address: {why.__cause__}") from why
            self.tell(f"{old}, the old server, takes no links")
            return
        raise Refused("old_server", f"{old} takes links: two servers would go on from one journal; end it first")

    def state_of(self, named: Named) -> Found:
        site = Site(named.url, seconds=SECONDS)
        reply = site.ask(site.get("replication/state"))
        site.close()
        if reply.status != 200:
            raise Refused("no_mirror", f"{named.url} answers {reply.status} {reply.body[:200].decode(errors='replace')}")
        found = Found(named, int(body_of(reply)["sequenceNumber"]))
        kept = f", kept in {named.path}" if named.path else ""
        self.tell(f"{named.url} has {found.number} pieces{kept}")
        return found

    def open_engine(self) -> None:
        if not self.engine_url:
            self.tell("no engine is named: what mirrors have is all there is")
            return
        self.engine = open_engine(self.engine_url)
        name = self.engine.journal()
        if not name:
            raise Refused("engine_empty", f"{self.engine_url} has no journal: it isn't the engine of these mirrors")
        self.journal = Journal(self.engine, name)
        self.tell(f"the engine has {self.journal.ends().number} pieces of the journal {name}")

    def choose(self, found: Sequence[Found]) -> Found:
        """The one that has the most, of those whose files are here. None that can't be chosen may have more than will be left."""
        here = [it for it in found if it.named.path]
        if not here:
            raise Refused("no_journal", "no mirror is named with its file (URL=FILE)")
        heir = max(here, key=lambda it: it.number)
        left = max(heir.number, self.journal.ends().number if self.journal else 0)
        for it in found:
            if it.number > left:
                raise Refused("no_journal", f"{it.named.url} has {it.number} pieces, more than any other, and its file isn't here")
        return heir

    def text_of(self, heir: Found) -> Text:
        """The file of a mirror, which has it open and has each of its pieces in it."""
        text = Text(heir.named.path)
        if not is_held(heir.named.path):
            raise Refused("no_journal", f"no program has {heir.named.path} open, so {heir.named.url} doesn't keep its pieces there")
        if len(text) < heir.number:
            raise Refused("no_journal", f"{heir.named.path} has {len(text)} pieces, and {heir.named.url} has {heir.number}")
        self.tell(f"{heir.named.url} takes over, with the {len(text)} pieces of {heir.named.path}")
        return text

    def compare_engine(self, known: Known) -> None:
        both = min(len(known.text), known.of_engine.number)
        for number in sorted({1, both}) if both and self.journal else ():
            if self.journal and self.journal.piece(number) != known.text.piece(number):
                raise Refused("other_journal", f"piece {number} of the engine is another one than in {known.text.path}")
        if both:
            self.tell(f"the engine: pieces 1 and {both} are those of {known.text.path}")

    def compare(self, it: Found, known: Known) -> None:
        """A mirror tells of the first and the last piece that it has whether they are these."""
        mirror = self.mirror(it.named, known)
        mirror.begin()
        mirror.close()
        if it.number:
            self.tell(f"{it.named.url}: pieces 1 and {mirror.number} are those that are known")

    def mirror(self, named: Named, known: Known) -> Mirror:
        mirror = Mirror(named.url, self.token, known)
        mirror.site.seconds = SECONDS
        return mirror

    def check_drainable(self, number: int, last: int) -> None:
        """Each piece behind that one can be read, and is the one that it should be."""
        while self.journal and number < last:
            pieces = self.after(number)
            if not pieces:
                raise Refused("engine_gap", f"the engine has {last} pieces, and tells none behind {number}")
            for place, piece in enumerate(pieces, number + 1):
                found = NUMBER.search(piece)
                if found is None or int(found[1]) != place:
                    raise Refused("engine_gap", f"in place of piece {place} the engine has {piece[-60:]!r}")
            number += len(pieces)

    def after(self, number: int) -> list[bytes]:
        assert self.journal
        try:
            return self.journal.after(number, MOST)
        except Unusable as why:
            raise Refused("engine_gap", str(why)) from why

    def drain(self, heir: Named, known: Known) -> None:
        """All that the engine has, until a second goes by without more."""
        if self.journal is None:
            return
        mirror = self.mirror(heir, known)
        try:
            mirror.begin()
            start = mirror.number
            while pieces := self.after(mirror.number):
                mirror.take(pieces)
        except (OtherJournal, Unusable, Lost) as why:
            raise Refused("engine_undrained", f"{why}; what it took is of the journal, and stays") from why
        mirror.close()
        self.tell(f"{mirror.number - start} pieces were brought to {heir.url} from the engine")

    def check_again(self, heir: Named) -> Found:
        """After the drain: nobody has more than the heir, and all of it is in its file."""
        now = self.state_of(heir)
        known = Known(self.text_of(now), self.journal)
        if known.of_engine.number > len(known.text):
            raise self.grown(known.of_engine.number, len(known.text))
        for it in (self.state_of(other) for other in self.mirrors if other != heir):
            if it.number > len(known.text):
                raise Refused("other_journal", f"{it.named.url} has {it.number} pieces, more than {heir.url} and the engine")
            self.compare(it, known)
        return Found(heir, len(known.text))

    def grown(self, now: int, has: int) -> Refused:
        return Refused("old_server", f"the engine has {now} pieces, and had {has}: a writer still brings some, so the old server goes on")

    def end_mirror(self, heir: Found) -> None:
        """Ends the mirror's program, and looks once more whether its file has everything."""
        path = heir.named.path
        if not (pid := holder(path)):
            raise Refused("no_process", f"the process that has {path} open isn't seen: its user, or root, sees it")
        subprocess.run(ending(pid), check=False)
        until = time.monotonic() + END
        while is_held(path):
            if time.monotonic() > until:
                raise Refused("no_process", f"process {pid} has {path} open {END:.0f} seconds after it was told to end")
            time.sleep(0.02)
        self.tell(f"process {pid}, the mirror {heir.named.url}, has ended")
        known = Known(Text(path), self.journal)
        if known.of_engine.number > len(known.text):
            raise self.grown(known.of_engine.number, len(known.text))
