#!/usr/bin/env python3
"""Whether a change is on the disk before its reply is sent: examples/kept/sync_order.py [--program PROGRAM] [--uploads 1000] [--links 4]
    [--seed 1]

Starts `PROGRAM serve --journal FILE` under strace on a new file, and has so many uploads go over so many links, some of them several at once.
Then it is looked up in the trace, of each change by its own line of the file and its own reply on its own link, that

- the line is the change's, its moment lies within the seconds between the request and the reply, and it became a part of the text by a write;
- behind that write's end a sync of the file began, and it ended before the first byte of the reply was sent, and of any reply to one who reads
  meanwhile that tells of the change;
- each write behind the header is one batch, lines with an empty one behind them, or the empty line of a start; it goes over zeros, and all
  that was written before, these zeros too, a sync had put on the disk;
- the file was written under another name and synced, got its own by a link and not by renaming, and its folder was synced, before any reply.

The file has to be what the traced calls make of it, and the replies those that came. At last the trace is changed in several ways, each of
which has to be found wrong.

PROGRAM is crates/osm/out/osm where none is named. Needs strace. Status 0 where all holds, 1 where something doesn't, 2 where it can't be run.
"""

from __future__ import annotations

import argparse
import bisect
import itertools
import json
import os
import sys
from collections.abc import Callable
from typing import Any, NamedTuple

HERE = os.path.dirname(os.path.abspath(__file__))
sys.path.insert(1, os.path.join(HERE, ".."))

from editors import Element  # noqa: E402
from kept_file import BATCH_END, END, HEADER, OPEN, are_zeros, text_of  # noqa: E402
from kill import PROGRAM  # noqa: E402
from serving import tell_faults  # noqa: E402
from traced import NEVER, SYNCS, Call, Change, Done, Sent, Traced, Uploader, changes_of, hindrance, syncs_of, traced  # noqa: E402

HOUR = 3600


# ---- the file


class Growing:
    """The file as its changes make it, and the moment from which on each line is a part of its text, the first one too."""

    def __init__(self) -> None:
        self.file, self.end = bytearray(), 0
        self.moments: list[int] = []

    def take(self, change: Change) -> None:
        change.apply(self.file)
        if len(self.file) < self.end:
            self.end, self.moments = 0, []
        while not self.end or self.file[self.end : self.end + 1] in (END, OPEN):
            behind = self.file.find(END, self.end) + 1
            if not behind or 0 in self.file[self.end : behind]:
                break
            if behind > self.end + 1:
                self.moments.append(change.ended)
            self.end = behind

    def takes(self, change: Change) -> bool:
        """Whether it is a batch or an empty line, which stands behind the text and over zeros."""
        data = change.data or b""
        room = self.file[change.at : change.at + len(data)]
        is_batch = data.startswith(OPEN) and data.find(BATCH_END) == len(data) - len(BATCH_END) and b"\0" not in data
        return (is_batch or data == END) and change.at == self.end and len(room) == len(data) and are_zeros(bytes(room))


class Syncs:
    """The syncs of a file, and until when what was written has to wait for one."""

    def __init__(self, calls: list[Call]) -> None:
        self.begins = [it.begun for it in calls]
        ends = itertools.accumulate((it.ended for it in reversed(calls)), min, initial=NEVER)
        self.ends = list(ends)[::-1]

    def kept(self, moment: int) -> int:
        """When the first sync ended that began behind that moment."""
        return self.ends[bisect.bisect_right(self.begins, moment)]


def is_written(change: Change) -> bool:
    """Whether it is behind the header, and no zeros are laid by."""
    return bool(change.data) and change.at >= len(HEADER) and not are_zeros(change.data or b"")


def wrong_writes(changes: list[Change], syncs: Syncs) -> list[str]:
    """Those that are no batch over zeros, and those that began before all that was written before was on the disk."""
    growing, early, others, last = Growing(), 0, 0, 0
    for change in changes:
        if is_written(change):
            early += syncs.kept(last) > change.begun
            others += not growing.takes(change)
        growing.take(change)
        last = change.ended
    faults = [f"{early} writes began before what was written before was on the disk"] if early else []
    return faults + ([f"{others} writes are no batch over zeros"] if others else [])


# ---- lines and changes


def asked(entry: Any) -> list[tuple[str, Element]]:
    """The operations of an upload's entry, in order."""
    return [(act, it) for block in entry["command"]["osmChange"] for act, its in block.items() if act != "if-unused" for it in its]


def is_of(entry: Any, done: Done, user: int) -> bool:
    """Whether the entry is that of the change."""
    command = entry["command"]
    if entry["user"]["id"] != user or command["act"] not in (done.command.kind, f"{done.command.kind}_changeset"):
        return False
    if done.command.kind == "create":
        return bool(command["tags"] == done.command.tags)
    return command["changeset"] == done.command.changeset and (done.command.kind == "close" or asked(entry) == done.command.todo)


class Line(NamedTuple):
    moment: int
    """From which on it is a part of the text."""
    entry: Any


def lines_of(trace: Traced, moments: list[int]) -> dict[int, list[Line]]:
    """The lines of each user, in order."""
    lines: dict[int, list[Line]] = {it.user: [] for it in trace.people}
    for moment, text in zip(moments[1:], text_of(trace.file).splitlines()[1:], strict=True):
        entry = json.loads(text)
        lines[entry["user"]["id"]].append(Line(moment, entry))
    return lines


def wrong_with(user: int, line: Line, done: Done, sent: Sent, syncs: Syncs) -> str:
    """What isn't as it should be of a change, its line and its reply; empty where all is."""
    if not is_of(line.entry, done, user):
        return f"the line is {line.entry}, for {done.command}"
    if sent.reply != done.reply:
        return f"the reply sent was {sent.reply}, and {done.reply} came"
    if not int(done.since) <= line.entry["at"] <= done.until:
        return f"it is stamped {line.entry['at']}, and was asked for at {done.since} and answered at {done.until}"
    if syncs.kept(line.moment) > sent.moment:
        return f"its line was there at {line.moment}, a sync behind that ended at {syncs.kept(line.moment)}, its reply began at {sent.moment}"
    return ""


def wrong_replies(trace: Traced, moments: list[int], syncs: Syncs) -> list[str]:
    faults, lines = [], lines_of(trace, moments)
    for told in trace.reads():
        if syncs.kept(lines[told.user][told.number - 1].moment) > told.moment:
            faults.append(f"change {told.number} of user {told.user} is read before it is on the disk")
    if [it.reply for it in trace.replies(trace.watcher)] != [reply for _, reply in trace.watcher.read]:
        faults.append("the replies that were sent to who reads aren't those that came")
    for it in trace.people:
        sent = trace.replies(it)
        if not len(sent) == len(it.done) == len(lines[it.user]):
            faults.append(f"user {it.user} made {len(it.done)} changes, by {len(sent)} replies and {len(lines[it.user])} lines")
        for number, (line, done, reply) in enumerate(zip(lines[it.user], it.done, sent), 1):
            if why := wrong_with(it.user, line, done, reply, syncs):
                faults.append(f"change {number} of user {it.user}: {why}")
    return faults


# ---- the name of the file


def wrong_names(trace: Traced, changes: list[Change]) -> list[str]:
    """How the file got its name, which it has to have on the disk before the first reply."""
    path, new = trace.path, f"{trace.path}.new"
    named = [it for it in trace.calls if path in it.paths() and it.result >= 0]
    links = [it for it in named if it.name in ("link", "linkat") and it.paths() == [new, path]]
    if len(links) != 1 or any(it.name.startswith(("rename", "unlink")) or it.makes() and it not in links for it in named):
        return [f"the file doesn't get its name by one link, but by {[it.name for it in named]}"]
    (link,) = links
    last = max((it.ended for it in changes if it.begun < link.begun), default=0)
    faults = []
    if Syncs(syncs_of(trace.calls, new)).kept(last) > link.begun:
        faults.append("the new file gets its name before it is synced")
    first = min((sent.moment for it in trace.people for sent in trace.replies(it)), default=0)
    if Syncs(syncs_of(trace.calls, os.path.dirname(path))).kept(link.ended) > first:
        faults.append("a reply is sent before the folder of the new file is synced")
    return faults


# ---- all of it


def wrong(trace: Traced) -> list[str]:
    changes = list(changes_of(trace.calls, trace.path))
    syncs, growing = Syncs(syncs_of(trace.calls, trace.path)), Growing()
    for change in changes:
        growing.take(change)
    if growing.file != trace.file or not trace.file.startswith(HEADER):
        return ["the file isn't what the traced calls make of it"]
    return wrong_writes(changes, syncs) + wrong_names(trace, changes) + wrong_replies(trace, growing.moments, syncs)


# ---- traces that have to be found wrong


class Doctored(NamedTuple):
    name: str
    trace: Traced
    fault: str
    """What has to be found, or a part of it."""


def changed(trace: Traced, change: Callable[[Call], Call | None]) -> Traced:
    return trace._replace(calls=[it for it in map(change, trace.calls) if it])


def earlier(it: Uploader) -> Uploader:
    """Somebody whose clock is an hour behind."""
    other = Uploader(it.user, 0, 0)
    other.port, other.done = it.port, [done._replace(since=done.since - HOUR, until=done.until - HOUR) for done in it.done]
    return other


def exchanged(first: Uploader, second: Uploader, *others: Uploader) -> list[Uploader]:
    """Two people of whom each has the link of the other, and the others."""
    pair = [Uploader(it.user, 0, 0) for it in (first, second)]
    for it, mine, yours in zip(pair, (first, second), (second, first)):
        it.done, it.port = mine.done, yours.port
    return [*pair, *others]


def with_other_syncs(trace: Traced) -> list[Doctored]:
    """The syncs between a line's write and its reply or a read are others or none, and those behind zeros that are laid by."""
    changes, syncs, growing = list(changes_of(trace.calls, trace.path)), syncs_of(trace.calls, trace.path), Growing()
    for change in changes:
        growing.take(change)
    lines = lines_of(trace, growing.moments)

    def between(since: int, until: int, change: Callable[[Call], Call | None]) -> Traced:
        begins = {it.begun for it in syncs if since < it.begun < until}
        return changed(trace, lambda it: change(it) if it.begun in begins else it)

    person = trace.people[-1]
    middle = len(person.done) // 2
    line, reply, fault = lines[person.user][middle].moment, trace.replies(person)[middle].moment, "its line was there at"
    told = max(trace.reads())
    seen = lines[told.user][told.number - 1].moment
    laid = [(last.ended, it.begun) for last, it in itertools.pairwise(changes) if is_written(it) and not is_written(last) and last.at]
    written = [(last.ended, it.begun) for last, it in itertools.pairwise(changes) if is_written(it) and is_written(last)]
    return [
        Doctored("no sync behind a line", between(line, reply, lambda _: None), fault),
        Doctored("a sync that ends behind the reply", between(line, reply, lambda it: it._replace(ended=NEVER)), fault),
        Doctored("a sync that begins before its line is there", between(line, reply, lambda it: it._replace(begun=line)), fault),
        Doctored("no sync before a read", between(seen, told.moment, lambda _: None), "is read before"),
        Doctored("no sync of zeros", between(*laid[len(laid) // 2], lambda _: None), "1 writes began"),
        Doctored("no sync between two batches", between(*written[len(written) // 2], lambda _: None), "1 writes began"),
    ]


def with_other_names(trace: Traced) -> list[Doctored]:
    def without_syncs_of(path: str) -> Traced:
        return changed(trace, lambda it: None if it.name in SYNCS and it.target() == path else it)

    return [
        Doctored("no sync of the new file", without_syncs_of(f"{trace.path}.new"), "before it is synced"),
        Doctored("no sync of the folder", without_syncs_of(os.path.dirname(trace.path)), "before the folder"),
        Doctored("renamed", changed(trace, lambda it: it._replace(name="rename") if it.name in ("link", "linkat") else it), "by one link"),
    ]


def doctored(trace: Traced) -> list[Doctored]:
    """The trace as it isn't, in ways that have to be found."""
    writes = [it.begun for it in changes_of(trace.calls, trace.path) if is_written(it)]
    less = changed(trace, lambda it: None if it.begun == writes[-1] else it)
    parts = changed(trace, lambda it: it._replace(result=it.result - 1) if it.begun == writes[-1] else it)
    parts = parts._replace(file=parts.file[: len(parts.file.rstrip(b"\0")) - 1].ljust(len(parts.file), b"\0"))
    return [
        *with_other_syncs(trace),
        *with_other_names(trace),
        Doctored("a batch without its end", parts, "1 writes are no batch"),
        Doctored("a write that isn't traced", less, "the file isn't what the traced calls make of it"),
        Doctored("another hour", trace._replace(people=list(map(earlier, trace.people))), "it is stamped"),
        Doctored("links exchanged", trace._replace(people=exchanged(*trace.people)), "the reply sent was"),
    ]


def overlooked(others: list[Doctored]) -> list[str]:
    return [f"in a trace with {it.name} that isn't found" for it in others if not any(it.fault in fault for fault in wrong(it.trace))]


def tell(trace: Traced, others: list[Doctored]) -> None:
    kinds = [it.command.kind for person in trace.people for it in person.done]
    uploads, reads, syncs = kinds.count("upload"), {it.moment for it in trace.reads()}, syncs_of(trace.calls, trace.path)
    batches = trace.file.count(BATCH_END + OPEN)
    print(
        f"{uploads} uploads and {len(kinds) - uploads} other changes over {len(trace.people)} links, in {batches} batches, with {len(syncs)} syncs: "
        f"each was on the disk before its reply, and before the {len(reads)} reads that told of one; {len(others)} wrong traces are found"
    )


def main() -> int:
    parser = argparse.ArgumentParser(usage=(__doc__ or "").split("\n\n")[0].partition(": ")[2])
    parser.add_argument("--program", default=PROGRAM)
    for name, usual in (("uploads", 1000), ("links", 4), ("seed", 1)):
        parser.add_argument(f"--{name}", type=int, default=usual)
    it = parser.parse_args()
    if it.links < 2:
        parser.error("there have to be two links")
    if why := hindrance(it.program):
        print(why, file=sys.stderr)
        return 2
    trace = traced(it.program, it.links, it.uploads, it.seed)
    faults = wrong(trace)
    if not faults:
        others = doctored(trace)
        faults = overlooked(others)
        tell(trace, others)
    return tell_faults(faults)


if __name__ == "__main__":
    sys.exit(main())
