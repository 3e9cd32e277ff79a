#!/usr/bin/env python3
"""Whether a map outlives a loss of power: examples/kept/power_loss.py [--program PROGRAM] [--moments 100] [--uploads 1000] [--links 4]
    [--seed 1] [--keep FOLDER]

Has so many uploads go over so many links to a traced server, as sync_order.py does. From the trace is made what a loss of power may leave at so
many drawn moments, a tenth of them while the file was being made: of each sector of 512 bytes that was written and not synced, what was there
before, what was written, the one up to a byte and the other behind it, or at each byte either of them; of a length that wasn't synced, the old
one or the new one; of names that weren't, any. On each a server is started, and must not refuse it. Its text has to be a beginning of the text
that was written, with every change whose reply had begun to be sent; and the server has to tell, of each changeset, what these changes made,
and nothing else. Then the same is done at each moment of a start on files that a crash left, which it cuts and seals, and on one of an older
version.

At last four files are made as no loss of power leaves them, which have to be found wrong. A draw that fails is named by its seed and moment;
its file is left in FOLDER, where one is named.

PROGRAM is crates/osm/out/osm where none is named. Needs strace. Status 0 where all holds, 1 where something doesn't, 2 where it can't be run.
Nothing is tried here of how a disk keeps what it says is synced.
"""

from __future__ import annotations

import argparse
import json
import os
import random
import sys
import tempfile
from collections.abc import Iterable, Iterator
from typing import NamedTuple

HERE = os.path.dirname(os.path.abspath(__file__))
sys.path.insert(1, os.path.join(HERE, ".."))

from editors import Editor  # noqa: E402
from kept_file import BATCH_END, END, OLDER_END, Parted, parted, read, text_of  # noqa: E402
from kill import PROGRAM  # noqa: E402
from serving import Link, Lost, Server, tell_faults  # noqa: E402
from traced import NEVER, Call, Change, Traced, calls_on, changes_of, hindrance, own_port, syncs_of, traced, users  # noqa: E402

SECTOR = 512
MIXED = 0.3  # of the sectors that are drawn byte by byte
HISTORIES = 3  # of each user, that are read on each file, beside all that the changesets made


# ---- what a loss of power leaves


class Left(NamedTuple):
    """A file, whether it has each of its two names, and how many of its sectors were drawn."""

    file: bytes
    named: bool
    new: bool
    drawn: int


def states_of(base: bytes, synced: list[Change], rest: list[Change]) -> list[bytes]:
    """The file as it is on the disk for sure, and behind each change that may be there."""
    file = bytearray(base)
    for change in synced:
        change.apply(file)
    states = [bytes(file)]
    for change in rest:
        change.apply(file)
        states.append(bytes(file))
    return states


def sectors_of(changes: list[Change]) -> set[int]:
    """Where the sectors begin that are written to."""
    return {at for it in changes if it.data for at in range(it.at - it.at % SECTOR, it.at + len(it.data), SECTOR)}


def sector_left(versions: list[bytes], draw: random.Random) -> bytes:
    """One of its versions, a later one up to a byte and an earlier one behind it, or at each byte any of them."""
    earlier, later = sorted((draw.randrange(len(versions)), draw.randrange(len(versions))))
    if draw.random() < MIXED:
        return bytes(draw.choices(bytes_of, k=1)[0] for bytes_of in zip(*versions))
    cut = draw.choice((0, SECTOR, draw.randrange(SECTOR)))
    return versions[later][:cut] + versions[earlier][cut:]


def file_left(states: list[bytes], sectors: set[int], draw: random.Random) -> bytes:
    size, longest = len(draw.choice(states)), max(map(len, states))
    left = bytearray(states[0].ljust(longest, b"\0"))
    for at in sorted(sectors):
        left[at : at + SECTOR] = sector_left([state[at : at + SECTOR].ljust(SECTOR, b"\0") for state in states], draw)
    return bytes(left[:size])


def growths(changes: list[Change], size: int) -> Iterator[Change]:
    """Those that make the file longer."""
    for it in changes:
        end = it.at + len(it.data or b"")
        if it.data and end > size:
            yield it
        size = end if it.data is None else max(size, end)


def moments_of(calls: Iterable[Call | Change]) -> list[int]:
    return sorted({at for it in calls for at in (it.begun, it.ended)})


class Disk:
    """What is left of a file at the moments of a trace, where it had some bytes, or where it was made."""

    def __init__(self, calls: list[Call], path: str, base: bytes = b"") -> None:
        self.path, self.new, self.base = path, f"{path}.new", base
        self.changes = list(changes_of(calls, path))
        self.syncs = syncs_of(calls, path) + syncs_of(calls, self.new)
        self.folder_syncs = syncs_of(calls, os.path.dirname(path))
        self.names = [it for it in calls if it.result >= 0 and it.paths()[-1:] in ([path], [self.new])]
        self.moments = moments_of([*self.changes, *self.syncs])
        self.making = moments_of([*self.names, *self.folder_syncs])
        self.growing = moments_of(growths(self.changes, len(base)))

    def moment(self, draw: random.Random) -> int:
        """One of ten while names are made, and one while the file gets longer."""
        return draw.choice((self.making, self.growing, *[self.moments] * 8)[draw.randrange(10)])

    def names_left(self, moment: int, draw: random.Random) -> tuple[bool, bool]:
        """Whether the file has its name, and the one under which it is made."""
        sure = max((it.begun for it in self.folder_syncs if it.ended <= moment), default=0)
        has = {self.path: bool(self.base), self.new: False}
        for it in self.names:
            if (it.makes() or it.name.startswith("unlink")) and it.begun <= moment and (it.ended < sure or draw.random() < 0.5):
                has[it.paths()[-1]] = it.makes()
        return has[self.path], has[self.new]

    def left(self, moment: int, draw: random.Random) -> Left:
        sure = max((it.begun for it in self.syncs if it.ended <= moment), default=0)
        synced = [it for it in self.changes if it.ended < sure]
        rest = [it for it in self.changes if it.ended >= sure and it.begun <= moment]
        sectors = sectors_of(rest)
        file = file_left(states_of(self.base, synced, rest), sectors, draw)
        return Left(file, *self.names_left(moment, draw), len(sectors))


# ---- a server that is started on it


def lay(path: str, left: Left) -> None:
    for name, is_there in ((f"{path}.new", left.new), (path, left.named)):
        if is_there:
            with open(name, "wb") as file:
                file.write(left.file)
    if left.named and left.new:
        os.remove(f"{path}.new")
        os.link(path, f"{path}.new")


def wrong_map(port: int, known: list[Editor]) -> list[str]:
    """What the server tells otherwise than these people were told."""
    link = Link(port)
    try:
        for it in known:
            it.check(link, HISTORIES)
    except (OSError, Lost) as why:
        return [f"a link was lost: {why!r}"]
    finally:
        link.close()
    return [fault for it in known for fault in it.faults]


def counts_of(text: bytes, links: int) -> list[int]:
    """How many lines of the text are each user's."""
    owners = [json.loads(line)["user"]["id"] for line in text.splitlines()[1:]]
    return [owners.count(i + 1) for i in range(links)]


def wrong_with(program: str, trace: Traced, left: Left, told: list[int]) -> list[str]:
    """What is missing, or isn't as it was written, when a server is started on what was left, of so many changes of each user."""
    links = len(trace.people)
    with tempfile.TemporaryDirectory() as folder:
        path = os.path.join(folder, "journal")
        lay(path, left)
        try:
            with Server(program, 2, users(links), command=("serve", "--journal", path), port=own_port()) as server:
                text = text_of(read(path))
                if not text_of(trace.file).startswith(text):
                    return ["its text is no beginning of the one that was written"]
                counts = counts_of(text, links)
                if any(count < least for count, least in zip(counts, told, strict=True)):
                    return [f"of {told} changes of the users whose replies were sent {counts} are there"]
                return wrong_map(server.port, [it.after(count) for it, count in zip(trace.people, counts, strict=True)])
        except SystemExit as why:
            return [f"a start on it is refused: {why}"]


def left_before(it: Parted) -> list[bytes]:
    """Files with that text: without room, with a beginning of a batch, with a torn one over zeros, and as an older version had it."""
    begun = it.raw[it.raw.index(b"{") :][:SECTOR]
    torn = b"\0" + begun.replace(END, b"")[1:] + BATCH_END
    junk = begun[1:].replace(END, b"") + END
    return [it.raw, it.raw + begun.partition(END)[0], it.raw + torn + bytes(SECTOR), it.text() + OLDER_END + junk]


# ---- all of it


class Trial:
    def __init__(self, program: str, trace: Traced, keep: str | None) -> None:
        self.program, self.trace, self.keep = program, trace, keep
        self.disk = Disk(trace.calls, trace.path)
        self.replies = trace.told()
        self.faults: list[str] = []
        self.draws: list[int] = []  # with so many sectors
        self.repairs = 0

    def told(self, moment: int) -> list[int]:
        """Up to which of the changes of each user a reply that had begun to be sent tells of them."""
        counts = [0] * len(self.trace.people)
        for it in self.replies:
            if it.moment <= moment:
                counts[it.user - 1] = max(counts[it.user - 1], it.number)
        return counts

    def check(self, name: str, left: Left, told: list[int]) -> None:
        faults = wrong_with(self.program, self.trace, left, told)
        self.faults += [f"{name}: {fault}" for fault in faults]
        if faults and self.keep:
            with open(os.path.join(self.keep, f"journal, {name}"), "wb") as file:
                file.write(left.file)

    def draw(self, seed: int) -> None:
        draw = random.Random(seed)
        moment = self.disk.moment(draw)
        left = self.disk.left(moment, draw)
        self.draws.append(left.drawn)
        self.check(f"seed {seed}, moment {moment}", left, self.told(moment))

    def try_repairs(self, seed: int) -> None:
        """The power goes again, at each moment of a start on what a crash left, or an older version."""
        draw = random.Random(seed)
        for base in left_before(parted(self.trace.file)):
            with tempfile.TemporaryDirectory() as folder:
                path = os.path.join(folder, "journal")
                lay(path, Left(base, True, False, 0))
                disk = Disk(calls_on(self.program, path, len(self.trace.people), lambda _: None), path, base)
            for moment in disk.moments:
                self.repairs += 1
                self.check(f"a repair, seed {seed}, moment {moment}", disk.left(moment, draw), self.told(NEVER))

    def try_doctored(self) -> None:
        """Files that no loss of power leaves have to be found wrong."""
        raw = parted(self.trace.file).raw
        first, last = raw.index(b"{"), raw.rindex(END, 0, len(raw.rstrip(END))) + 1
        place = raw.rindex(b'"lat7":') + len(b'"lat7":')
        for name, file, fault in (
            ("whose last line is lost", raw[:last], "whose replies were sent"),
            ("that is damaged behind its text", raw + b'x"at":1}\n', "is refused"),
            ("that is damaged in its first line", raw[:first] + b"\0" + raw[first + 1 :], "is refused"),
            ("of which a number is another", raw[:place] + b"1" + raw[place:].lstrip(b"-0123456789"), "no beginning"),
        ):
            found = wrong_with(self.program, self.trace, Left(file, True, False, 0), self.told(NEVER))
            if not any(fault in it for it in found):
                self.faults.append(f"in a file {name} that isn't found")

    def tell(self) -> None:
        people, torn = self.trace.people, [it for it in self.draws if it]
        print(
            f"{len(self.draws)} losses of power within {sum(len(it.done) for it in people)} changes over {len(people)} links, {len(torn)} of "
            f"them with {sum(torn)} sectors that weren't synced, and {self.repairs} within a start that repairs: each start found all that was "
            "told, and nothing torn"
        )


def main() -> int:
    parser = argparse.ArgumentParser(usage=(__doc__ or "").split("\n\n")[0].partition(": ")[2])
    parser.add_argument("--program", default=PROGRAM)
    for name, usual in (("moments", 100), ("uploads", 1000), ("links", 4), ("seed", 1)):
        parser.add_argument(f"--{name}", type=int, default=usual)
    parser.add_argument("--keep")
    it = parser.parse_args()
    if why := hindrance(it.program):
        print(why, file=sys.stderr)
        return 2
    trial = Trial(it.program, traced(it.program, it.links, it.uploads, it.seed), it.keep)
    for number in range(it.moments):
        trial.draw(it.seed * 1_000_000 + number)
    trial.try_repairs(it.seed)
    trial.try_doctored()
    if not trial.faults:
        trial.tell()
    return tell_faults(trial.faults)


if __name__ == "__main__":
    sys.exit(main())
