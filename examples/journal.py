#!/usr/bin/env python3
"""What is in a journal's file, and where it is damaged: examples/journal.py FILE [--verify] [--json] [--text] [--program PROGRAM]

Reads FILE once, from its beginning to its end, and writes nothing to it; a server may have it open meanwhile, and what is told is then of a
moment within the reading. It tells whose journal it is, how many entries it has and of which kinds, where its text ends, whether it is sealed,
and what stands behind. Of a damaged file it tells the first byte that is wrong, and why: a line's form, the order of calls and stamps, and what
a crash may leave, are judged here, by docs/JOURNAL.md. Bytes are counted from 0, so that as many stand before one, and lines from 1, without
the empty ones. It repairs nothing.

--verify has `PROGRAM replay` judge the text by the map's rules too, compares what that counts, and finds the first line that it refuses.
PROGRAM is ./osm where none is named. For notes there is no replay. --json tells all of it as one object. --text writes the text itself, without
its empty lines and up to where it ends or is wrong, and tells all else on the standard error.

Status 0 for a whole journal, 1 where it is damaged or the file holds none, 2 where it couldn't be told: the words have no reading, the file
can't be read, or what --verify asks can't be had.
"""

from __future__ import annotations

import argparse
import json
import os
import re
import stat
import subprocess
import sys
from collections import Counter
from collections.abc import Iterator
from contextlib import suppress
from dataclasses import dataclass, field
from datetime import datetime, timezone
from functools import partial
from io import BufferedReader, FileIO
from itertools import chain
from typing import Any, NamedTuple

from journal_lines import CONTROL, FORMS, KINDS, Counts, Entry, Form, Path, Unfit, by_name, place_of

OSM = os.path.join(os.path.dirname(os.path.abspath(__file__)), "..", "osm")
LONGEST = 1 << 28  # bytes of a line that is read, and of a text that `replay` reads
PART = 1 << 20
SESSION_LIMIT = 64
REFUSED = 8  # the status of `replay`
GATE, BRACE, END, ZERO = b"#", b"{", b"\n", b"\0"
PAIR = b"\n\n"  # a batch's end, and the two empty lines that seal a file
EMPTY_LINES = re.compile(rb"\n{2,}")
SEALED = "yes, by the empty lines of a start or of a stop in order"
UNSEALED = "not since its last batch, of which a byte that became 0 isn't told"
BEHIND_GATE = "left by a crash, or lost where a { became the #"
NEXT_LINE = b'\n{"at":'  # where another entry begins, behind the end of a line


class Unable(Exception):
    """What was asked for can't be told."""


# ---- what a file has


class Fault(NamedTuple):
    """The first thing that is wrong: in which line, which begins where, at which byte of the file, and why."""

    line: int
    begins: int
    byte: int
    why: str
    by_rules: bool = False
    """The line's form is right, and the map's rules refuse it."""


class Behind(NamedTuple):
    """What stands behind the text, or from the line with the fault on."""

    bytes: int = 0
    zeros: int = 0
    """At its end."""
    entries: int = 0
    """Lines that begin as entries do, but for the first."""
    goes_on: bool = False
    """Something is written behind the first two bytes 10 that stand side by side."""

    def is_room(self) -> bool:
        return self.zeros == self.bytes


@dataclass
class Found:
    """What a file has, up to its first fault."""

    form: Form | None = None
    end: int = 0
    """Where the text ends, or what of it is whole: so many bytes stand before."""
    empty: int = 0
    """Empty lines, which don't count."""
    last_empty: int = 0
    """Those behind the last line."""
    entries: int = 0
    first: int = 0
    last: int = 0
    calls: dict[int, int] = field(default_factory=dict)
    """Of each session its last call."""
    acts: Counter[str] = field(default_factory=Counter)
    counts: Counts = field(default_factory=dict)
    gate: int | None = None
    """The `#` by which older versions end their text."""
    behind: Behind = Behind()
    fault: Fault | None = None

    def text_bytes(self) -> int:
        return self.end - self.empty

    def is_sealed(self) -> bool:
        """Whether more empty lines stand behind the last line than a batch has. The first batch stands behind two, or was an older version's."""
        return self.last_empty >= len(PAIR) + (self.empty > self.last_empty)

    def refused(self, entry: Entry) -> tuple[Path, str] | None:
        """Which value of an entry may not follow, and why."""
        if entry.call != self.calls.get(entry.session, 0) + 1:
            return ("call",), f"call {self.calls.get(entry.session, 0) + 1} of session {entry.session} comes next, and not {entry.call}"
        if entry.at < self.last:
            return ("at",), f"the stamp goes back, from {self.last} to {entry.at}"
        return None

    def add(self, line: bytes) -> None:
        """Takes the next line, or raises what is wrong with it."""
        assert self.form
        entry = self.form.entry(line.removesuffix(END))
        if refused := self.refused(entry):
            raise Unfit(place_of(line.decode(), refused[0], False), refused[1])
        self.first = self.first if self.entries else entry.at
        self.last = entry.at
        self.calls[entry.session] = entry.call
        self.acts[entry.act] += 1
        for operation, count in entry.counts.items():
            self.counts[operation] = self.counts.get(operation, 0) + count
        self.entries += 1
        self.end += len(line)
        self.last_empty = 0

    def add_empty(self) -> None:
        self.end += 1
        self.empty += 1
        self.last_empty += 1


def behind(file: BufferedReader, first: bytes) -> Behind:
    """Counts the rest of a file from these first bytes on."""
    total = filled = entries = 0
    paired: int | None = None
    held = b""
    for part in chain([first], iter(partial(file.read, PART), b"")):
        held += part
        if paired is None and (place := held.find(PAIR)) >= 0:
            paired = total + len(part) - len(held) + place + len(PAIR)
        total += len(part)
        if some := part.rstrip(ZERO):
            filled = total - len(part) + len(some)
        entries += held.count(NEXT_LINE)
        held = held[1 - len(NEXT_LINE) :]
    return Behind(total, total - filled, entries, paired is not None and filled > paired)


def no_header(head: bytes) -> Fault:
    if not head:
        return Fault(1, 0, 0, "the file is empty")
    place = max(len(os.path.commonprefix([head, it.header])) for it in FORMS)
    return Fault(1, 0, place, "the first line is no header of a journal")


def broken(line: bytes) -> Unfit:
    """What is wrong with a line that isn't whole, where no crash has left it so."""
    if ZERO in line:
        return Unfit(line.index(ZERO), "byte 0 stands in no line")
    words = line.decode(errors="surrogateescape")
    with suppress(ValueError, RecursionError):
        end = json.JSONDecoder().raw_decode(words)[1]
        return Unfit(len(words[:end].encode(errors="surrogateescape")), "no byte 10 ends the line here")
    if low := CONTROL.search(line):
        return Unfit(low.start(), f"byte {line[low.start()]} stands in no line")
    return Unfit(len(line), "the file ends within the line")


def wrong_behind(found: Found, line: bytes) -> Unfit | None:
    """What is wrong with what stands behind the text, of which this is the first part; nothing where a crash may have left it."""
    if line[:1] not in (ZERO, BRACE, GATE):
        return Unfit(0, f"the line begins with byte {line[0]}, and not with {{")
    if len(line) == LONGEST and line.startswith(BRACE) and ZERO not in line:
        return Unfit(LONGEST, f"no byte 10 ends the line within {LONGEST} bytes")
    if found.behind.goes_on:
        wrong = broken(line) if line.startswith(BRACE) else Unfit(0, f"the line begins with byte {line[0]}, and not with {{")
        return Unfit(wrong.place, f"{wrong.why}, and lines that were kept stand behind it")
    if not line.startswith(GATE) and not found.empty and found.behind.bytes > 1 and not found.behind.is_room():
        wrong = broken(line) if line.startswith(BRACE) else Unfit(0, "byte 0 stands here")
        return Unfit(wrong.place, f"{wrong.why}, where a file of an older version has its lines or the # behind them")
    return None


def read_lines(found: Found, file: BufferedReader) -> tuple[bytes, Unfit | None]:
    """Takes lines as long as they are whole and right. What comes next, at first, and what is wrong with it where it is a whole line."""
    while first := file.peek(1)[:1]:
        if first == END:
            file.read(1)
            found.add_empty()
            continue
        if first != BRACE:
            return file.read(1), None
        line = file.readline(LONGEST)
        if not line.endswith(END) or ZERO in line:
            return line, None
        try:
            found.add(line)
        except Unfit as why:
            return line, why
    return b"", None


def read_end(found: Found, file: BufferedReader) -> tuple[bytes, Unfit | None]:
    """Reads from where the text ends so far to the end of the file: the first part of what stands behind the text, and what is wrong there."""
    rest, wrong = read_lines(found, file)
    found.behind = behind(file, rest)
    return rest, wrong or (wrong_behind(found, rest) if rest else None)


def read(file: BufferedReader) -> Found:
    found = Found()
    head = file.readline(max(len(it.header) for it in FORMS))
    found.form = next((it for it in FORMS if it.header == head), None)
    if not found.form:
        found.fault = no_header(head)
        return found
    found.end = len(head)
    rest, wrong = read_end(found, file)
    # A server may have added lines while what stands behind them was read: those that are wrong are so the second time too.
    end = 0
    while wrong and found.end != end:
        end = found.end
        file.seek(end)
        rest, wrong = read_end(found, file)
    if wrong:
        found.fault = Fault(found.entries + 2, found.end, found.end + wrong.place, wrong.why)
    elif rest.startswith(GATE):
        found.gate = found.end
    return found


def holder(status: os.stat_result) -> int | None:
    """The process that has the file locked, by the kernel's list: no lock is taken here, not for a moment, since a server may just begin."""
    key = f"{os.major(status.st_dev):02x}:{os.minor(status.st_dev):02x}:{status.st_ino}"
    with suppress(OSError), open("/proc/locks") as locks:
        for words in map(str.split, locks):
            if words[1] == "FLOCK" and words[5] == key:
                return int(words[4])
    return None


# ---- what the map's rules say


class Replayed(NamedTuple):
    is_taken: bool
    told: dict[str, int]


class Replay:
    """`PROGRAM replay` over the beginnings of a file."""

    def __init__(self, program: str, path: str) -> None:
        self.program, self.path = program, path

    def of(self, end: int) -> Replayed:
        """What it comes to for so many bytes."""
        words = [self.program, "replay"]
        try:
            process = subprocess.Popen(words, stdin=subprocess.PIPE, stdout=subprocess.PIPE, stderr=subprocess.DEVNULL)
        except OSError as why:
            raise Unable(f"{self.program} can't be run: {why.strerror}") from None
        with process, open(self.path, "rb") as file:
            assert process.stdin and process.stdout
            with suppress(BrokenPipeError):
                for part in text_parts(file, end):
                    process.stdin.write(part)
            with suppress(BrokenPipeError):
                process.stdin.close()
            rows = [line.split() for line in process.stdout.read().decode().splitlines()]
        if process.returncode not in (0, REFUSED):
            raise Unable(f"the rules of the map aren't judged: {self.program} replay ended with status {process.returncode}")
        return Replayed(process.returncode == 0, {row[0]: int(row[1]) for row in rows if row[1:] and row[1].isdigit()})

    def first_refused(self, taken: int, refused: int) -> tuple[int, int]:
        """Where the first line that it refuses begins and ends, between an end that it takes and one that it refuses."""
        with open(self.path, "rb") as file:
            while between := end_between(file, taken, refused):
                if self.of(between).is_taken:
                    taken = between
                else:
                    refused = between
        return taken, refused

    def judge(self, found: Found, begins: int) -> Fault | None:
        """What is wrong by it with a text whose form is right, and whose entries begin there."""
        came = self.of(found.end)
        if not came.is_taken:
            begins, end = self.first_refused(begins, found.end)
            with open(self.path, "rb") as file:
                line = sum(part.count(END) for part in text_parts(file, begins)) + 1
            return Fault(line, begins, begins, f"the rules of the map refuse this line of {end - begins} bytes", by_rules=True)
        visible = {kind: came.told.get(f"{kind}s", -1) for kind in KINDS}
        created = {kind: by_name(found.counts)["create", kind] for kind in KINDS}
        if came.told.get("entries") != found.entries or any(not 0 <= visible[it] <= created[it] for it in KINDS):
            raise Unable(f"replay tells {came.told}, and here {found.entries} entries were read that create {created}")
        return None


def parts(file: BufferedReader, end: int) -> Iterator[bytes]:
    """The first bytes of a file."""
    while end and (part := file.read(min(end, PART))):
        yield part
        end -= len(part)


def text_parts(file: BufferedReader, end: int) -> Iterator[bytes]:
    """The text that stands in the first bytes of a file: its lines but for the empty ones."""
    last = b""
    for part in parts(file, end):
        if last == END:
            part = part.lstrip(END)
        if part:
            last = part[-1:]
            yield EMPTY_LINES.sub(END, part)


def end_between(file: BufferedReader, low: int, high: int) -> int | None:
    """The end of a line between two others, near their middle; none where a single line stands there."""
    middle = (low + high) // 2
    file.seek(middle)
    if (end := middle + len(file.readline())) < high:
        return end
    while middle > low:
        begin = max(low, middle - PART)
        file.seek(begin)
        if (place := file.read(middle - begin).rfind(END)) >= 0:
            return begin + place + 1
        middle = begin
    return None


# ---- what is told


def facts_of(path: str, found: Found, process: int | None, is_verified: bool) -> dict[str, Any]:
    operations: dict[str, dict[str, int]] = {}
    for (action, kind), count in sorted(by_name(found.counts).items()):
        operations.setdefault(action, {})[kind] = count
    return {
        "file": path,
        "journal": found.form.kind if found.form else None,
        "version": found.form.version if found.form else None,
        "whole": not found.fault,
        "verified": is_verified,
        "entries": found.entries,
        "acts": dict(sorted(found.acts.items())),
        "operations": operations,
        "sessions": len(found.calls),
        "highest_session": max(found.calls, default=None),
        "first_stamp": found.first if found.entries else None,
        "last_stamp": found.last if found.entries else None,
        "text_bytes": found.text_bytes(),
        "text_lines": found.entries + bool(found.form),
        "text_end": found.end,
        "empty_lines": found.empty,
        "sealed": found.is_sealed(),
        "gate": found.gate,
        "behind": {name: count for name, count in found.behind._asdict().items() if name != "goes_on"},
        "fault": found.fault._asdict() if found.fault else None,
        "open_by": process,
    }


def moment(stamp: int) -> str:
    try:
        return f"{datetime.fromtimestamp(stamp, timezone.utc):%Y-%m-%dT%H:%M:%SZ} ({stamp})"
    except (OverflowError, ValueError, OSError):
        return str(stamp)


def listed(counts: dict[str, int]) -> str:
    return ", ".join(f"{count} {name}" for name, count in counts.items())


def title(facts: dict[str, Any]) -> str:
    name = os.fsencode(facts["file"]).decode(errors="replace")
    whose = {"map": "the map", "notes": "notes", None: ""}[facts["journal"]]
    if not whose:
        return f"{name}: no journal"
    return f"{name}: a {'whole' if facts['whole'] else 'damaged'} journal of {whose}, in version {facts['version']} of its text"


def lines_of_text(facts: dict[str, Any]) -> Iterator[str]:
    """The text, or what of it is whole."""
    which = "text before the line that is wrong" if facts["fault"] and not facts["fault"]["by_rules"] else "text"
    yield f"{which}: {facts['text_bytes']} bytes, {facts['text_lines']} lines, {facts['entries']} entries"
    yield f"in the file: {facts['text_end']} bytes, with {facts['empty_lines']} empty lines"
    if facts["entries"]:
        yield f"stamps: {moment(facts['first_stamp'])} to {moment(facts['last_stamp'])}"
        yield f"sessions with entries: {facts['sessions']}, the highest is {facts['highest_session']}"
        if facts["highest_session"] >= SESSION_LIMIT:
            yield f"serve and serve-notes refuse it: a session's number is {SESSION_LIMIT} or more"
        yield f"acts: {listed(facts['acts'])}"
    for action, counts in facts["operations"].items():
        yield f"operations, {action}: {listed(counts)}"
    if facts["journal"] == "map" and facts["version"] == 1:
        yield "serve starts on version 2 alone; osm replay reads this one too"


def lines_of_end(facts: dict[str, Any]) -> Iterator[str]:
    """What stands behind a text whose form is right."""
    rest = facts["behind"]
    others, room = rest["bytes"] - rest["zeros"], f"{rest['zeros']} zeros laid by"
    yield f"sealed: {SEALED if facts['sealed'] else UNSEALED}"
    if facts["gate"] is not None:
        yield f"behind the text: the # of an older version, at byte {facts['gate']}, {others - 1} bytes that don't count, and {room}"
    elif others:
        yield f"behind the text: {others} bytes that a crash left or a server is writing, and {room}"
    else:
        yield f"behind the text: {room if rest['zeros'] else 'nothing'}"
    if rest["entries"]:
        yield f"among those: {rest['entries']} lines as of entries, {'left by a crash' if facts['gate'] is None else BEHIND_GATE}"


def lines_of_fault(facts: dict[str, Any]) -> Iterator[str]:
    fault, rest = facts["fault"], facts["behind"]
    yield f"wrong: line {fault['line']}, from byte {fault['begins']} on, at byte {fault['byte']}: {fault['why']}"
    if facts["journal"]:
        if not fault["by_rules"]:
            yield f"from that line on: {rest['bytes']} bytes, with {rest['entries']} more lines as of entries"
        yield f"a copy of what stands before it: head -c {fault['begins']} FILE > COPY (what is lost then: docs/JOURNAL.md)"


def lines_of(facts: dict[str, Any]) -> Iterator[str]:
    fault = facts["fault"]
    yield title(facts)
    if facts["open_by"] is not None:
        yield f"open: process {facts['open_by']} has it locked"
    if facts["journal"]:
        yield from lines_of_text(facts)
    if not fault or fault["by_rules"]:
        yield from lines_of_end(facts)
    if fault:
        yield from lines_of_fault(facts)
    elif facts["verified"]:
        yield "rules of the map: osm replay takes it, and counts as many entries"


# ---- all of it


def plain_file(path: str) -> BufferedReader:
    try:
        if not stat.S_ISREG(os.stat(path).st_mode):
            raise Unable(f"{path} is no plain file")
        return BufferedReader(FileIO(path), PART)
    except OSError as why:
        raise Unable(f"{path} can't be read: {why.strerror}") from None


def verify(found: Found, replay: Replay) -> bool:
    """Puts what the map's rules say into what was found, where they can be asked."""
    if not found.form or found.fault:
        return False
    if found.form.kind != "map":
        raise Unable("the rules of notes aren't judged: there is no replay of notes")
    if found.text_bytes() > LONGEST:
        raise Unable(f"the rules of the map aren't judged: replay reads at most {LONGEST} bytes of text")
    found.fault = replay.judge(found, len(found.form.header))
    return True


def look(path: str, replay: Replay | None) -> tuple[dict[str, Any], Unable | None]:
    """What there is to tell of a file, and why not all of it can be told."""
    unable, verified = None, False
    try:
        with plain_file(path) as file:
            found, process = read(file), holder(os.fstat(file.fileno()))
        try:
            verified = replay is not None and verify(found, replay)
        except Unable as why:
            unable = why
    except OSError as failed:
        raise Unable(f"{path} can't be read: {failed.strerror}") from None
    return facts_of(path, found, process, verified), unable


def write_text(path: str, end: int) -> None:
    """Writes the text that stands in the first bytes of a file, behind which a server may be adding more."""
    try:
        with plain_file(path) as file:
            for part in text_parts(file, end):
                sys.stdout.buffer.write(part)
            sys.stdout.buffer.flush()
    except OSError as why:
        # What is left in its room would be tried again at the end, and complained of.
        os.dup2(os.open(os.devnull, os.O_WRONLY), sys.stdout.fileno())
        raise Unable(f"the text of {path} can't be written: {why.strerror}") from None


def main(given: list[str] | None = None) -> int:
    parser = argparse.ArgumentParser(usage=(__doc__ or "").split("\n\n")[0].partition(": ")[2])
    parser.add_argument("file")
    for name in ("verify", "json", "text"):
        parser.add_argument(f"--{name}", action="store_true")
    parser.add_argument("--program", default=OSM)
    words = parser.parse_args(given)
    try:
        facts, unable = look(words.file, Replay(words.program, words.file) if words.verify else None)
        if words.text:
            write_text(words.file, facts["text_end"])
    except Unable as why:
        print(f"journal: {why}", file=sys.stderr)
        return 2
    out = sys.stderr if words.text else sys.stdout
    print(json.dumps(facts) if words.json else "\n".join(lines_of(facts)), file=out, flush=True)
    if unable:
        print(f"journal: {unable}", file=sys.stderr)
        return 2
    return 1 if facts["fault"] else 0


if __name__ == "__main__":
    sys.exit(main())
