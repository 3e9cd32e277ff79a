#!/usr/bin/env python3
"""What becomes of a journal that rots: examples/kept/rot.py [--program PROGRAM] [--places 300] [--digits 300] [--served 1] [--jobs 3]
    [--changes 60] [--seed 1]

Makes a journal with every kind of entry, some hundred, and at so many drawn places of its file lays another byte, one with a bit flipped, a
zero, or a sector of 512 zeros. The file is as a stop in order leaves it, so sealed; as a kill leaves it; or as an older version had it, without
empty lines and with a `#` behind its text. A server is started on each, or on one of --served; of the rest it is looked up by kept_file.py
whether a start refuses them, and `PROGRAM replay`, which is quicker, is run on the text. It is told, by what stood at the place, how many files
are refused, by which status and with which words where PROGRAM is a script that has some, and how many are taken; and of these whether the
feed, or what else is read, is another than before. A file that is refused has to be as it was, with the status that docs/JOURNAL.md says, and
one that is taken has to have each line that the rot didn't touch, in its place.

Then so many drawn digits of numbers become other digits, which only the rules of a journal can tell from what was written: it is told of which
members how many are. The same at chosen places: a line's first byte and its end, the empty line behind a batch, the seal, the `#` of an older
version. Each line's first byte becomes a `#`, and a byte of each line a zero.

Lines may be lost in silence in these ways alone, and are counted by themselves. Where no start and no stop in order has sealed the file: by a
zero in its last batch, or a `#` that begins one of its lines there; by a zero in the place of the last two bytes 10 of the batch before, or a
`#` in that of the second one. By a sector of zeros that leaves no more than two bytes of a seal. In a file of an older version: by a `#` that
begins a line, or zeros from a line's beginning to the end of the text.

PROGRAM is crates/osm/out/osm where none is named. Status 0 where all holds, 1 where something doesn't, 2 where it can't be run.
"""

from __future__ import annotations

import argparse
import bisect
import collections
import concurrent.futures
import contextlib
import os
import random
import re
import subprocess
import sys
import tempfile
import threading
import time
from collections.abc import Callable, Iterator
from typing import NamedTuple

HERE = os.path.dirname(os.path.abspath(__file__))
sys.path.insert(1, os.path.join(HERE, ".."))

from editors import Editor  # noqa: E402
from kept_file import BATCH_END, END, OLDER_END, REFUSED, ROOM, are_zeros, parted, read, refusal, text_of  # noqa: E402
from kill import END_WAIT, PROGRAM  # noqa: E402
from serving import Link, Lost, Replies, Server, connect, request, tell_faults  # noqa: E402
from traced import own_port  # noqa: E402
from want_of_memory import calls  # noqa: E402

SECTOR = 512
EDITORS = 4
AT_ONCE = 40  # requests that are sent before their replies are read
MARKS = b"#{\n\0"  # bytes that are laid at each chosen place, and so many others
OTHERS = 12
LEAST_SEAL = 3  # bytes of it that tell what is lost before
USERS = "@large-from 1700000000\n1 alicetoken user alice\n2 bobtoken moderator bob\n" + "".join(
    f"{i} token{i} user/9000000000000000000 user{i}\n" for i in range(3, 3 + EDITORS)
)
TOKEN = re.compile(rb'"(?:[^"\\]|\\.)*"(:?)|[0-9-]+')
NAMES = frozenset(
    b"act at call changeset command create delete id if-unused large_from lat7 limit lon7 members moderator modify name nodes osmChange "
    b"redaction ref role session tags title type user version".split()
)


# ---- a journal with all kinds of entries


def edit(port: int, user: int, changes: int, seed: int) -> None:
    it = Editor(user, seed * 1000 + user)
    it.link = Link(port, f"token{user}")
    for _ in range(changes):
        it.send(it.next())
    it.link.close()


def make(program: str, path: str, changes: int, seed: int) -> bytes:
    """The file of a killed server on which every call was made once, and four people made so many changes each."""
    with Server(program, EDITORS + 2, USERS, command=("serve", "--journal", path), port=own_port()) as server:
        with connect(server.port) as stream:
            replies = Replies(stream)
            for asked in calls():
                stream.sendall(asked)
                replies.next()
        threads = [threading.Thread(target=edit, args=(server.port, i, changes, seed)) for i in range(3, 3 + EDITORS)]
        for thread in threads:
            thread.start()
        for thread in threads:
            thread.join()
    return read(path)


def stopped(program: str, path: str) -> bytes:
    """The file behind one more start, and a stop in order."""
    words = ["serve", "--journal", path, "--users", os.devnull, "--listen", f"127.0.0.1:{own_port()}", "--workers", "1", "--until-input-ends"]
    subprocess.run([program, *words], stdin=subprocess.DEVNULL, check=True)
    return read(path)


def older(file: bytes) -> bytes:
    """The file as an older version had it."""
    return text_of(file) + OLDER_END + bytes(ROOM)


def parts_of(line: bytes) -> list[str]:
    """What stands at each place of an entry's line."""
    parts = ["a mark"] * (len(line) - 1) + ["a line's end"]
    for it in TOKEN.finditer(line):
        text = it[0].startswith(b'"')
        is_name = it[1] and it[0][1:-2] in NAMES
        parts[it.start() : it.end()] = ["a name" if is_name else "a text" if text else "a number"] * len(it[0])
    parts[0] = "a line's first byte"
    return parts


class Journal:
    """A file, with what stands where in it."""

    def __init__(self, file: bytes) -> None:
        self.file = file
        it = parted(file)
        self.raw, self.text, self.is_sealed = it.raw, it.text(), it.is_sealed()
        self.is_older = not it.has_empty_lines()
        header, *rows = self.raw.splitlines(keepends=True)
        self.lines: list[bytes] = []
        self.starts: list[int] = []
        self.batches: list[int] = []
        """Where they begin."""
        self.parts = ["the header"] * len(header)
        for last, row in zip([END, *rows], rows):
            if row == END:
                self.parts.append("an empty line")
                continue
            if last == END:
                self.batches.append(len(self.parts))
            self.starts.append(len(self.parts))
            self.lines.append(row)
            self.parts += parts_of(row)

    def part(self, at: int) -> str:
        return self.parts[at] if at < len(self.raw) else "behind the text"

    def end(self, number: int) -> int:
        return self.starts[number] + len(self.lines[number])

    def member(self, at: int) -> str:
        """The name of the member whose number stands there."""
        end = self.raw.rfind(b'":', 0, at)
        name = self.raw[self.raw.rfind(b'"', 0, end) + 1 : end].decode()
        return "a user's id" if self.raw.endswith(b'"user":{"id":', 0, end + 2) else f"`{name}`"

    def digits(self) -> list[int]:
        return [at for at, part in enumerate(self.parts) if part == "a number" and self.raw[at] != ord("-")]

    def touched(self, begin: int, end: int) -> range:
        """The numbers, from 0, of the lines that have a byte there."""
        first = max(bisect.bisect_right(self.starts, begin) - 1, 0)
        return range(first + (begin >= self.end(first)), bisect.bisect_left(self.starts, end))

    def may_lose(self, rot: Rot) -> bool:
        """Whether lines may be lost by it in silence, as docs/JOURNAL.md says."""
        rotten = rot.laid(self.file)
        becomes_end = len(rot.data) == 1 and rot.data == OLDER_END
        if self.is_older:
            return (becomes_end and rot.at in self.starts) or (are_zeros(rot.data) and any(are_zeros(rotten[it:]) for it in self.starts))
        if self.is_sealed:
            return are_zeros(rot.data) and rot.at + len(rot.data) > len(self.raw) - LEAST_SEAL
        last = self.batches[-1]
        if becomes_end:
            return rot.at == last - 1 or rot.at in self.starts[bisect.bisect_left(self.starts, last) :]
        return are_zeros(rot.data) and rot.at + len(rot.data) > last - len(BATCH_END)


class Rot(NamedTuple):
    at: int
    data: bytes
    way: str

    def laid(self, file: bytes) -> bytes:
        return (file[: self.at] + self.data + file[self.at + len(self.data) :])[: len(file)]


def other_byte(file: bytes, at: int, draw: random.Random) -> Rot:
    return Rot(at, bytes([(file[at] + draw.randrange(1, 256)) % 256]), "another byte")


def other_bit(file: bytes, at: int, draw: random.Random) -> Rot:
    return Rot(at, bytes([file[at] ^ 1 << draw.randrange(8)]), "a bit flipped")


def zero(file: bytes, at: int, draw: random.Random) -> Rot:
    return Rot(at, b"\0", "a zero")


def sector(file: bytes, at: int, draw: random.Random) -> Rot:
    return Rot(at - at % SECTOR, bytes(SECTOR), "a sector of zeros")


WAYS: tuple[Callable[[bytes, int, random.Random], Rot], ...] = (other_byte, other_bit, zero, sector)


# ---- what is served


class Served(NamedTuple):
    pieces: list[bytes]
    """The entries of the feed."""
    reads: list[bytes]


def asked_of(changesets: int) -> list[bytes]:
    """All changesets with their versions, and what the session of every call reads."""
    rows = [request("GET", f"changeset/{i + 1}{end}", "bobtoken") for i in range(changesets + 1) for end in ("", "/download")]
    return rows + [it for it in calls() if it.startswith(b"GET") and b"replication" not in it]


def answers(stream: Replies, asked: list[bytes]) -> Iterator[bytes]:
    for first in range(0, len(asked), AT_ONCE):
        part = asked[first : first + AT_ONCE]
        assert stream.stream
        stream.stream.sendall(b"".join(part))
        for _ in part:
            yield stream.next().body


def served(port: int, asked: list[bytes]) -> Served:
    with connect(port) as link:
        stream = Replies(link)
        link.sendall(request("GET", "replication/state"))
        count = stream.next().read()["sequenceNumber"]
        entries = answers(stream, [request("GET", f"replication/{i + 1}", "bobtoken") for i in range(count)])
        pieces = [it.removeprefix(b'{"entry":').rpartition(b',"number":')[0] + b"\n" for it in entries]
    with connect(port) as link:
        return Served(pieces, list(answers(Replies(link), asked)))


class Outcome(NamedTuple):
    status: int | None
    """None where it serves, or would."""
    entries: int = 0
    served: Served | None = None
    said: str = ""
    untouched: bool = True


class Ports:
    """Free ports, each for one thread at a time."""

    def __init__(self) -> None:
        self.lock, self.taken = threading.Lock(), set()  # type: threading.Lock, set[int]

    @contextlib.contextmanager
    def one(self) -> Iterator[int]:
        with self.lock:
            port = next(it for it in iter(own_port, 0) if it not in self.taken)
            self.taken.add(port)
        try:
            yield port
        finally:
            self.taken.discard(port)


class Program:
    """The program, which several threads start on files of their own."""

    def __init__(self, program: str, folder: str) -> None:
        self.program, self.folder, self.ports = program, folder, Ports()
        self.users = os.path.join(folder, "users")
        with open(self.users, "w") as file:
            file.write(USERS)

    def replay(self, file: bytes) -> Outcome:
        """What becomes of a file by docs/JOURNAL.md, and by the program of its text."""
        if status := refusal(file):
            return Outcome(status)
        run = subprocess.run([self.program, "replay"], input=text_of(file), capture_output=True, check=False)
        told = dict(line.split(" ", 1) for line in run.stdout.decode().splitlines())
        return Outcome(run.returncode or None, int(told.get("entries", 0)), said=self.words(run.stderr))

    def serve(self, file: bytes, asked: list[bytes]) -> Outcome:
        """What a server tells that is started on the file, and whether it left it as it was."""
        with tempfile.TemporaryDirectory(dir=self.folder) as folder, self.ports.one() as port:
            path = os.path.join(folder, "journal")
            with open(path, "wb") as out:
                out.write(file)
            words = ["serve", "--journal", path, "--users", self.users, "--listen", f"127.0.0.1:{port}", "--workers", "1"]
            with subprocess.Popen([self.program, *words], stdin=subprocess.DEVNULL, stderr=subprocess.PIPE) as process:
                try:
                    told = served(port, asked) if listens(process, port) else None
                finally:
                    process.terminate()
                _, said = process.communicate()
            if told:
                return Outcome(None, len(told.pieces), told)
            return Outcome(process.returncode, said=self.words(said.replace(path.encode(), b"JOURNAL")), untouched=read(path) == file)

    def words(self, said: bytes) -> str:
        return said.decode().strip()


def listens(process: subprocess.Popen[bytes], port: int) -> bool:
    """Whether it takes links, once it does or has ended."""
    until = time.monotonic() + END_WAIT
    while process.poll() is None:
        try:
            connect(port).close()
            return True
        except ConnectionError:
            if time.monotonic() > until:
                raise
            time.sleep(0.005)
    return False


# ---- the trial


class Task(NamedTuple):
    row: str
    """Of the table."""
    rot: Rot
    is_served: bool
    journal: Journal


COLUMNS = ("places", "refused", "as it was", "the feed alone is another", "reads are others too", "taken, not read", "lines lost")


class Trial:
    def __init__(self, program: Program, journals: dict[str, Journal], asked: list[bytes], usual: Served, each: int) -> None:
        self.program, self.journals, self.asked, self.usual, self.each = program, journals, asked, usual, each
        self.rows: dict[str, collections.Counter[str]] = collections.defaultdict(collections.Counter)
        self.refusals: collections.Counter[str] = collections.Counter()
        self.tasks: list[Task] = []
        self.faults: list[str] = []

    def carry_out(self, jobs: int) -> None:
        with concurrent.futures.ThreadPoolExecutor(jobs) as pool:
            for task, found in zip(self.tasks, pool.map(self.outcome, self.tasks)):
                self.count(task, found)

    def outcome(self, it: Task) -> Outcome:
        rotten = it.rot.laid(it.journal.file)
        return self.program.serve(rotten, self.asked) if it.is_served else self.program.replay(rotten)

    def count(self, it: Task, found: Outcome) -> None:
        self.rows[it.row]["places"] += 1
        self.rows[it.row][self.column(it, found)] += 1
        wanted = refusal(it.rot.laid(it.journal.file))
        if found.status is not None:
            self.refusals[f"{'serve' if it.is_served else 'replay'}, status {found.status}{': ' * bool(found.said)}{found.said}"] += 1
        if found.status not in (wanted, wanted or REFUSED) or not found.untouched:
            self.faults.append(f"{it.row}: at {it.rot} the status is {found.status}, and not {wanted}, or the file was changed")

    def column(self, it: Task, found: Outcome) -> str:
        journal, rot = it.journal, it.rot
        if found.status is not None:
            return "refused"
        if found.entries < len(journal.lines):
            return self.lost(it, found)
        if found.served is None:
            return "taken, not read" if text_of(rot.laid(journal.file)) != journal.text else "as it was"
        touched = journal.touched(rot.at, rot.at + len(rot.data))
        others = [i for i, piece in enumerate(found.served.pieces) if piece != (journal.lines[i : i + 1] or [b""])[0]]
        if any(i not in touched for i in others):
            self.faults.append(f"{it.row}: at {rot} lines {others} are others, and it touched {touched}")
        if found.served.reads != self.usual.reads:
            return "reads are others too"
        return "the feed alone is another" if others else "as it was"

    def lost(self, it: Task, found: Outcome) -> str:
        """Lines are, for which there are few ways; those before them are as they were."""
        lines = it.journal.lines
        if not it.journal.may_lose(it.rot):
            self.faults.append(f"{it.row}: at {it.rot} {len(lines) - found.entries} lines are lost")
        if found.served and found.served.pieces != lines[: found.entries]:
            self.faults.append(f"{it.row}: at {it.rot} lines before are others")
        return "lines lost"

    # ---- places

    def add(self, row: str, rot: Rot, journal: Journal) -> None:
        self.tasks.append(Task(row, rot, len(self.tasks) % self.each == 0, journal))

    def draw_places(self, places: int, draw: random.Random) -> None:
        for number in range(places):
            name, journal = list(self.journals.items())[number // len(WAYS) % len(self.journals)]
            rot = WAYS[number % len(WAYS)](journal.file, draw.randrange(len(journal.raw) + SECTOR), draw)
            part = f"{journal.part(rot.at)}: " if len(rot.data) == 1 else ""
            self.add(f"{name}, {part}{rot.way}", rot, journal)

    def draw_digits(self, count: int, draw: random.Random) -> None:
        journal = next(iter(self.journals.values()))
        for at in draw.choices(journal.digits(), k=count):
            digit = draw.choice([it for it in b"0123456789" if it != journal.file[at]])
            self.add(f"a digit of {journal.member(at)}: another digit", Rot(at, bytes([digit]), ""), journal)

    def choose_places(self, draw: random.Random) -> None:
        """Marks and drawn bytes at the places on which it hangs what counts."""
        for name, journal in self.journals.items():
            for place, at in places_of(journal, draw).items():
                for byte in sorted({*MARKS, *draw.choices(range(256), k=OTHERS)} - {journal.file[at]}):
                    self.add(f"{name}, {place}", Rot(at, bytes([byte]), ""), journal)

    def choose_lines(self, draw: random.Random) -> None:
        """Each line's first byte becomes the end of an older version's text, and one of its bytes a zero."""
        for name, journal in self.journals.items():
            for number, at in enumerate(journal.starts):
                self.add(f"{name}, each line's first byte becomes #", Rot(at, OLDER_END, ""), journal)
                self.add(f"{name}, a byte of each line becomes 0", Rot(draw.randrange(at, journal.end(number)), b"\0", ""), journal)

    def tell(self) -> None:
        print("| what rots |", " | ".join(COLUMNS), "|")
        print("|---" * (len(COLUMNS) + 1) + "|")
        for name, row in sorted(self.rows.items()):
            print(f"| {name} |", " | ".join(str(row[it] or "") for it in COLUMNS), "|")
        total: collections.Counter[str] = sum(self.rows.values(), collections.Counter())
        print("| all |", " | ".join(str(total[it] or "") for it in COLUMNS), "|")
        for words, count in sorted(self.refusals.items()):
            print(f"{count} refused: {words}")


def places_of(journal: Journal, draw: random.Random) -> dict[str, int]:
    """Places of a file on which it hangs what counts, by their names."""
    middle = draw.randrange(1, len(journal.lines) - 2)
    places = {
        "the header's end": journal.raw.index(END),
        "the first line's first byte": journal.starts[0],
        "a line's first byte": journal.starts[middle],
        "a line's end": journal.end(middle) - 1,
        "the last line's first byte": journal.starts[-1],
        "the last line's end": journal.end(-1) - 1,
        "the first byte behind the text": len(journal.raw),
    }
    if not journal.is_older:
        batch = draw.choice(journal.batches[1:-1])
        places |= {
            "the empty line behind the header": journal.starts[0] - 1,
            "the empty line behind a batch": batch - 1,
            "the end of the last line but one of a batch": batch - 2,
            "the last batch's first byte": journal.batches[-1],
            "the empty line behind the last batch but one": journal.batches[-1] - 1,
            "the end of the last line of the last batch but one": journal.batches[-1] - 2,
            "the empty line behind the last line": journal.end(-1),
            "the last empty line": len(journal.raw) - 1,
        }
    return places


def main() -> int:
    parser = argparse.ArgumentParser(usage=(__doc__ or "").split("\n\n")[0].partition(": ")[2])
    parser.add_argument("--program", default=PROGRAM)
    for name, usual in (("places", 300), ("digits", 300), ("served", 1), ("jobs", 3), ("changes", 60), ("seed", 1)):
        parser.add_argument(f"--{name}", type=int, default=usual)
    it = parser.parse_args()
    if not os.access(it.program, os.X_OK):
        print(f"there is no program {it.program}: ./osm build makes it", file=sys.stderr)
        return 2
    draw = random.Random(it.seed)
    with tempfile.TemporaryDirectory() as folder:
        program = Program(it.program, folder)
        path = os.path.join(folder, "made")
        killed = make(it.program, path, it.changes, it.seed)
        journals = {"sealed": Journal(stopped(it.program, path)), "killed": Journal(killed), "older": Journal(older(killed))}
        journal = journals["sealed"]
        if not journal.is_sealed or journals["killed"].is_sealed:
            raise Lost("the file isn't sealed by a stop in order, or is by a kill")
        asked = asked_of(sum(b'"act":"create_changeset"' in line for line in journal.lines))
        known = program.serve(journal.file, asked).served
        if not known or known.pieces != journal.lines:
            raise Lost("the file that was made isn't served")
        print(f"{len(journal.lines)} entries, {len(journal.text)} bytes, in {len(journal.batches)} batches; {len(asked)} other reads", flush=True)
        trial = Trial(program, journals, asked, known, it.served)
        trial.draw_places(it.places, draw)
        trial.draw_digits(it.digits, draw)
        trial.choose_places(draw)
        trial.choose_lines(draw)
        trial.carry_out(it.jobs)
    trial.tell()
    return tell_faults(trial.faults)


if __name__ == "__main__":
    sys.exit(main())
