#!/usr/bin/env python3
"""Whether examples/journal.py tells what is in a journal's file, and where it is damaged: examples/kept/journal_told.py [--program PROGRAM]
    [--places 300] [--jobs 3] [--changes 12] [--seed 1]

Makes a journal of the map with every kind of entry and one of notes, by servers: as a stop in order leaves its file, as a kill does, and as an
older version had it. It must tell of them what they have, with room behind the text and without, write the text itself, and tell of one that a
server has open whose it is. Then it is given files with what a crash leaves behind the text, and those that a start refuses; the file cut at
each byte of the last lines; at so many drawn places another byte, a bit flipped, a zero or a sector of zeros; each line's first byte as a `#`;
and lines with chosen faults of their form. A server is started on each of those that were drawn: where it serves, the file must be told as whole
with the entries that the server has kept, and where it refuses, as damaged: by the file's form, a line's or --verify, no earlier than the line
that was touched, and in it unless a number was. Each line's form is judged twice, by the expression and by the shapes. No file may be changed.

PROGRAM is crates/osm/out/osm where none is named. Status 0 where all holds, 1 where something doesn't, 2 where it can't be run.
"""

from __future__ import annotations

import argparse
import collections
import concurrent.futures
import contextlib
import io
import json
import os
import random
import re
import subprocess
import sys
import tempfile
from collections.abc import Iterator
from typing import Any, NamedTuple

HERE = os.path.dirname(os.path.abspath(__file__))
sys.path.insert(1, os.path.join(HERE, ".."))

import journal  # noqa: E402
import journal_lines  # noqa: E402
from kept_file import END, HEADER, OLDER_END, REFUSED, UNOPENED, parted, read, refusal  # noqa: E402
from kill import PROGRAM, TORN, UNFIT  # noqa: E402
from rot import SECTOR, USERS, WAYS, Journal, Ports, Rot, make, older, stopped  # noqa: E402
from serving import Link, Server, tell_faults  # noqa: E402

SCRIPT = os.path.join(HERE, "..", "journal.py")
FIRST_VERSION = os.path.join(HERE, "..", "journal_1.txt")
FEW_LINES, LAST_LINES = 12, 4
NOTE = {"lat7": 515000000, "lon7": -1000000, "text": 'a bench\n "is" missing: ß \x7f'}
# What is done to a line that has the first text, and what is told then; `^` stands before the byte that is wrong.
FAULTS = (
    (b'"moderator":false', b'"moderator":^ false', "compact"),
    (b'"moderator":false', b'"moderator":^0', "none of true, false"),
    (b'"moderator":false', b'^"moderato":false', "doesn't stand here"),
    (b'"moderator":false,', b"^,", "isn't JSON"),
    (b'"user":{"id":1', b'"user":^{"limit":1', "is missing"),
    (b'"user":{', b'"user":{^"age":1,', "doesn't stand here"),
    (b'"session":', b'^"sessions":', "doesn't stand here"),
    (b'"session":', b'"session":^4294967296', "isn't from 0"),
    (b'{"at":', b'{"at":^-', "isn't from 0"),
    (b'{"at":', b'{"at":0^', "isn't JSON"),
    (b'{"at":', b'{"at":^99999999999999', "isn't from 0"),
    (b'"act":"upload"', b'"act":^"uplaod"', "no such act"),
    (b'"act":"upload"', b'"act":"upl^\\u006fad"', "compact"),
    (b'"type":"node"', b'"type":^"nod"', "none of"),
    (b'"lat7":', b'"lat7":^9000000000', "isn't from -900000000"),
    (b'"tags":{"', b'"tags":{"^\xff', "isn't UTF-8"),
    (b'"tags":{"', b'"tags":{"zz":"",^"', "isn't behind the one before"),
    (b'"create":[{"id":-', b'"create":[{"id":^', "isn't from"),
    (b'"osmChange":[{"create":[', b'"osmChange":[{"create":[],^"modify":[', "doesn't stand here"),
)


def told(path: str, *words: str) -> tuple[int, Any]:
    """What the program tells of a file, with its status."""
    with contextlib.redirect_stdout(io.StringIO()) as out, contextlib.redirect_stderr(io.StringIO()):
        status = journal.main([path, "--json", *words])
    return status, json.loads(out.getvalue() or "null")


class Outcome(NamedTuple):
    """Of a file that was drawn: whether a server takes it with so many entries, and what is told of it."""

    is_taken: bool
    found: journal.Found
    untouched: bool


class Trial:
    def __init__(self, program: str, folder: str) -> None:
        self.program, self.folder, self.ports = program, folder, Ports()
        self.faults: list[str] = []
        self.counts: collections.Counter[str] = collections.Counter()

    def wants(self, what: str, wanted: object, found: object) -> None:
        if wanted != found:
            self.faults.append(f"{what}: {found!r} and not {wanted!r}")

    def written(self, data: bytes) -> str:
        """A new file that has this."""
        descriptor, path = tempfile.mkstemp(dir=self.folder)
        with open(descriptor, "wb") as file:
            file.write(data)
        return path

    def found(self, data: bytes) -> journal.Found:
        """What is read of a file that has this."""
        path = self.written(data)
        try:
            with journal.plain_file(path) as file:
                return journal.read(file)
        finally:
            os.remove(path)

    # ---- whole journals

    def try_whole(self, name: str, it: Journal) -> None:
        """A file as it is, and without its room."""
        acts = collections.Counter(json.loads(line)["command"]["act"] for line in it.lines)
        gate = OLDER_END if it.is_older else b""
        for what, data in ((f"{name}, with room", it.file), (f"{name}, without room", it.raw + gate)):
            path = self.written(data)
            status, facts = told(path, "--verify", "--program", self.program)
            self.wants(f"{what}: the status", 0, status)
            self.wants(f"{what}: the file", data, read(path))
            rest = {"bytes": len(data) - len(it.raw), "zeros": len(data) - len(it.raw + gate), "entries": 0}
            wanted = {"journal": "map", "version": 2, "whole": True, "verified": True, "entries": len(it.lines), "acts": dict(acts)}
            wanted |= {"text_bytes": len(it.text), "text_end": len(it.raw), "empty_lines": len(it.raw) - len(it.text)}
            wanted |= {"sealed": it.is_sealed, "gate": len(it.raw) if gate else None, "behind": rest}
            for member, value in wanted.items():
                self.wants(f"{what}: {member}", value, facts[member])
            self.wants_text(what, path, 0, it.text, b": a whole journal of the map, ")

    def wants_text(self, name: str, path: str, status: int, text: bytes, said: bytes) -> None:
        """What --text writes, and what is told beside it."""
        run = subprocess.run([sys.executable, SCRIPT, path, "--text"], capture_output=True, check=False)
        self.wants(f"{name}: the status and the text", (status, text), (run.returncode, run.stdout))
        self.wants(f"{name}: whether {said!r} is told beside the text", True, said in run.stderr)

    def try_ends(self, it: Journal) -> None:
        """What a crash leaves behind the text, and files that a start refuses."""
        begun, torn, room = it.lines[0][:40], b"\0" + TORN[1:], bytes(SECTOR)
        for name, rest in (("a {", b"{"), ("a beginning", begun), ("a beginning in room", begun + room), ("a torn batch", torn + room)):
            found = self.found(it.raw + rest)
            zeros = len(rest) - len(rest.rstrip(b"\0"))
            self.wants(f"behind the text {name}", (None, len(it.lines), len(it.raw)), (found.fault, found.entries, found.end))
            self.wants(f"behind the text {name}", (len(rest), zeros), found.behind[:2])
        for name, data, _ in UNFIT:
            path = self.written(data)
            self.wants(f"the status of a file that is {name}", 1, told(path)[0])
            whole = parted(data).text() if data.startswith(HEADER) and name != "illegal" else HEADER if name == "illegal" else b""
            self.wants_text(f"a file that is {name}", path, 1, whole, b"wrong: line ")

    def try_others(self, it: Journal) -> None:
        """Files of other kinds, with the status and some of what is told."""
        seats = re.sub(rb'"session":\d+', b'"session":64', it.lines[0])
        trials: tuple[tuple[str, bytes, int, dict[str, Any]], ...] = (
            ("version 1", read(FIRST_VERSION), 0, {"journal": "map", "version": 1, "entries": 4, "gate": None, "verified": True}),
            ("version 2 as version 1", read(FIRST_VERSION).replace(b"1", b"2", 1), 0, {"version": 2, "entries": 4}),
            ("limits in version 1", it.text.replace(b"2", b"1", 1), 1, {"version": 1, "whole": False}),
            ("a session of 64", HEADER + seats, 0, {"entries": 1, "highest_session": 64}),
            ("a header alone", HEADER, 0, {"entries": 0, "gate": None, "first_stamp": None}),
            ("a header without its end", HEADER[:-1], 1, {"journal": None, "entries": 0}),
            ("nothing", b"", 1, {"journal": None, "entries": 0}),
            ("another file", read(__file__), 1, {"journal": None, "entries": 0}),
        )
        for name, data, status, wanted in trials:
            came, facts = told(self.written(data), "--verify", "--program", self.program)
            self.wants(f"{name}: the status", status, came)
            self.wants(name, wanted, {member: facts[member] for member in wanted})
        for name in ("no_such_file", ".", os.devnull):
            self.wants(f"{name}: the status", 2, told(os.path.join(self.folder, name))[0])
        lists: tuple[tuple[list[str], int], ...] = ((["--mend"], 2), ([], 2), ([FIRST_VERSION], 0), ([__file__], 1))
        for words, status in lists:
            came_to = subprocess.run([sys.executable, SCRIPT, *words], capture_output=True, check=False).returncode
            self.wants(f"the status of the words {words}", status, came_to)

    def try_open(self) -> None:
        """A file that a server has open, which goes on."""
        path = os.path.join(self.folder, "open")
        with Server(self.program, 2, USERS, command=("serve", "--journal", path)) as server:
            link = Link(server.port, "alicetoken")
            for number in (1, 2):
                self.wants("a changeset", str(number).encode(), link.ask("PUT", "changeset/create", {"tags": {}}).body)
                status, facts = told(path)
                self.wants("of an open file", (0, number), (status, facts["entries"]))
                if facts["open_by"] != server.pid:
                    self.counts["an open file whose server isn't told"] += 1
            link.close()

    def try_notes(self, draw: random.Random) -> None:
        path = os.path.join(self.folder, "notes")
        with Server(self.program, 2, USERS, command=("serve-notes", "--journal", path)) as server:
            for token in ("alicetoken", ""):
                link = Link(server.port, token)
                for where in ("notes", "notes/1/comment", "notes/1/close", "notes/1/reopen")[: 4 if token else 1]:
                    self.wants(where, 200, link.ask("POST", where, NOTE if where == "notes" else {"text": "ä\\"}).status)
                link.close()
        status, facts = told(path)
        acts = {"close": 1, "comment": 1, "open": 2, "reopen": 1}
        self.wants("of notes", (0, "notes", 1, 5, acts), (status, *(facts[it] for it in ("journal", "version", "entries", "acts"))))
        self.wants("the status of notes and --verify", 2, told(path, "--verify", "--program", self.program)[0])
        it = Journal(read(path))
        self.judge_twice(it)
        for _ in range(20):
            self.draw(it, draw, "serve-notes")

    # ---- forms

    def judge_twice(self, it: Journal) -> None:
        """The expression takes each line that a server writes, and the shapes do, with the same."""
        form = next(form for form in journal_lines.FORMS if it.text.startswith(form.header))
        for line in it.lines:
            entry = form.entry(line[:-1])
            self.wants("by the expression", entry, form.quickly(line[:-1]))
            self.wants("by the shapes", entry, form.slowly(line[:-1]))
            change = json.loads(line)["command"].get("osmChange", [])
            sums = collections.Counter((action, row["type"]) for block in change for action in block for row in rows_of(block[action]))
            self.wants("operations", sums, journal_lines.by_name(entry.counts))

    def try_faults(self, it: Journal) -> None:
        for old, new, why in FAULTS:
            number, line = next((number, line) for number, line in enumerate(it.lines) if old in line)
            begin, changed = it.starts[number], line.replace(old, new, 1)
            place = changed.index(b"^")
            data = it.raw[:begin] + changed.replace(b"^", b"", 1) + it.raw[begin + len(line) :]
            fault = self.found(data).fault
            if not fault or (fault.line, fault.begins, fault.byte) != (number + 2, begin, begin + place) or why not in fault.why:
                self.faults.append(f"{new!r} is told as {fault}, and not at {place} of line {number + 2}")

    # ---- files that are cut, and ends of older versions

    def try_cuts(self, it: Journal) -> None:
        """A file with the first lines, cut at each byte of the last of these."""
        it = Journal(it.raw[: it.starts[FEW_LINES]] + (OLDER_END if it.is_older else b"") + bytes(SECTOR))
        for end in range(it.starts[-LAST_LINES], len(it.raw) + 2):
            left, found = parted(it.file[:end]), self.found(it.file[:end])
            is_whole = refusal(it.file[:end]) is None
            self.wants(f"cut at {end}", (is_whole, left.entries(), len(left.raw)), (not found.fault, found.entries, found.end))
            if found.fault:
                self.wants(f"the fault of a cut at {end}", (left.entries() + 2, len(left.raw), end), found.fault[:3])
            self.counts["cuts"] += 1

    def try_gates(self, it: Journal) -> None:
        """Each line's first byte as the end of an older version's text: what stands behind is told."""
        for number, begin in enumerate(it.starts):
            data = it.file[:begin] + OLDER_END + it.file[begin + 1 :]
            found = self.found(data)
            if refusal(data):
                self.wants(f"a # at {begin}", (number + 2, begin, begin), found.fault and found.fault[:3])
            else:
                self.wants(f"a # at {begin}", (None, begin), (found.fault, found.gate))
            self.wants(f"behind a # at {begin}", (number, len(it.lines) - number - 1), (found.entries, found.behind.entries))
            self.counts["first bytes that are #"] += 1

    # ---- files that rot

    def status(self, path: str, command: str) -> int:
        users = os.path.join(self.folder, "users")
        with self.ports.one() as port:
            words = [self.program, command, "--journal", path, "--users", users, "--listen", f"127.0.0.1:{port}", "--workers", "1"]
            return subprocess.run([*words, "--until-input-ends"], stdin=subprocess.DEVNULL, check=False).returncode

    def outcome(self, rotten: bytes, command: str) -> Outcome:
        path = self.written(rotten)
        with journal.plain_file(path) as file:
            found = journal.read(file)
        if command == "serve" and found.form:
            journal.verify(found, journal.Replay(self.program, path))
        untouched = read(path) == rotten
        status = self.status(path, command)
        os.remove(path)
        if status not in (0, REFUSED, UNOPENED):
            raise journal.Unable(f"a server ended with status {status}")
        return Outcome(status == 0, found, untouched)

    def draw(self, it: Journal, draw: random.Random, command: str) -> None:
        rot = draw.choice(WAYS)(it.file, draw.randrange(len(it.raw) + SECTOR // 4), draw)
        self.look(it, rot, self.outcome(rot.laid(it.file), command))

    def look(self, it: Journal, rot: Rot, came: Outcome) -> None:
        """Holds what is told of a file against what a server makes of it."""
        rotten, fault = rot.laid(it.file), came.found.fault
        touched = next((place for place in range(rot.at, rot.at + len(rot.data)) if rotten[place] != it.file[place]), rot.at)
        begin = begin_of(it, touched)
        if came.is_taken != (fault is None) or not came.untouched:
            self.faults.append(f"{rot.way} at {rot.at}: a server {'takes' if came.is_taken else 'refuses'} it, and {fault} is told")
        if fault is None:
            self.wants(f"{rot.way} at {rot.at}: the entries", parted(rotten).entries(), came.found.entries)
            self.counts["rotten, whole"] += 1
            return
        self.counts["rotten, by the rules alone" if fault.by_rules else "rotten, by the form"] += 1
        is_number = it.part(touched) == "a number" or fault.by_rules
        latest = begin + (rotten[touched] == END[0])
        if fault.byte < begin or (not is_number and fault.begins > latest) or (not rotten[touched] and fault.byte != touched):
            self.faults.append(f"{rot.way} at {rot.at}: touched at {touched} in the line that begins at {begin}, and {fault} is told")

    def try_rot(self, it: Journal, places: int, jobs: int, draw: random.Random) -> None:
        rots = [WAYS[i % len(WAYS)](it.file, draw.randrange(len(it.raw) + SECTOR // 4), draw) for i in range(places)]
        rots += [Rot(at, bytes([draw.choice(b"123456789")]), "a digit") for at in draw.choices(it.digits(), k=places // 10)]
        with concurrent.futures.ThreadPoolExecutor(jobs) as pool:
            for rot, came in zip(rots, pool.map(lambda rot: self.outcome(rot.laid(it.file), "serve"), rots)):
                self.look(it, rot, came)


def begin_of(it: Journal, at: int) -> int:
    """Where the line begins that has that byte, an empty one or what stands behind the text too."""
    if at < it.raw.index(END) + 1:
        return 0
    return next((it.starts[number] for number in it.touched(at, at + 1)), at)


def rows_of(value: Any) -> Iterator[Any]:
    """Those of a block; `if-unused` has none."""
    yield from value if isinstance(value, list) else ()


def main() -> int:
    parser = argparse.ArgumentParser(usage=(__doc__ or "").split("\n\n")[0].partition(": ")[2])
    parser.add_argument("--program", default=PROGRAM)
    for name, usual in (("places", 300), ("jobs", 3), ("changes", 12), ("seed", 1)):
        parser.add_argument(f"--{name}", type=int, default=usual)
    words = parser.parse_args()
    if not os.access(words.program, os.X_OK):
        print(f"there is no program {words.program}: ./osm build makes it", file=sys.stderr)
        return 2
    draw = random.Random(words.seed)
    with tempfile.TemporaryDirectory() as folder:
        trial = Trial(os.path.abspath(words.program), folder)
        with open(os.path.join(folder, "users"), "w") as users:
            users.write(USERS)
        path = os.path.join(folder, "made")
        killed = make(trial.program, path, words.changes, words.seed)
        journals = {"sealed": Journal(stopped(trial.program, path)), "killed": Journal(killed), "older": Journal(older(killed))}
        it = journals["sealed"]
        print(f"{len(it.lines)} entries, {len(it.text)} bytes", flush=True)
        trial.try_others(it)
        trial.try_open()
        trial.try_notes(draw)
        trial.judge_twice(it)
        trial.try_faults(it)
        trial.try_ends(it)
        for name, journal in journals.items():
            trial.try_whole(name, journal)
            trial.try_cuts(journal)
            trial.try_gates(journal)
            trial.try_rot(journal, words.places // len(journals), words.jobs, draw)
    print(", ".join(f"{count} {name}" for name, count in sorted(trial.counts.items())))
    return tell_faults(trial.faults)


if __name__ == "__main__":
    sys.exit(main())
