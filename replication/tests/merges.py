"""Hours and days, merged of made-up files: what they have, what followers make of them, and breaks at each step."""

from __future__ import annotations

import filecmp
import glob
import gzip
import os
import random
import shutil
import time
import xml.etree.ElementTree as xml
from typing import Any

import folder as folders
import same
from change_file import Element, packed, text_of
from folder import Folder, State
from from_gateway import KINDS
from from_gateway import folders as names
from killed import Steps
from merged import DAY, hours_and_days, merged
from parts import Programs, compare, from_nothing, whole_files
from serving import Wrong

BEGINNING = 1_800_000_000 // DAY * DAY  # a midnight
Row = tuple[str, int, int, str]  # kind, id, version, action


class Broken(Exception):
    """Stands for an end of the program."""


class Breaks(Steps):
    def step(self) -> None:
        self.count += 1
        if self.count == self.last:
            raise Broken

    def fsync(self, descriptor: int) -> None:
        """No power is lost here, so the disk isn't waited for."""
        self.step()


class DrawnMap:
    """Nodes, and ways over some of them, that are made, changed, deleted and brought back."""

    def __init__(self) -> None:
        self.drawn = random.Random(4)
        self.versions: dict[tuple[str, int], tuple[int, bool]] = {}

    def version(self, kind: str, number: int, at: int) -> Element:
        before, was_visible = self.versions.get((kind, number), (0, False))
        visible = not (was_visible and kind == "way" and self.drawn.random() < 0.3)
        self.versions[kind, number] = (before + 1, visible)
        stamp = time.strftime("%Y-%m-%dT%H:%M:%SZ", time.gmtime(at))
        who = {"changeset": 1, "timestamp": stamp, "uid": 1, "user": 'a "b"\n</node>'}
        element = {"type": kind, "id": number, "version": before + 1, "visible": visible, **who}
        if not visible:
            return element
        content: dict[str, Any] = {"lat7": self.drawn.randint(0, 900), "lon7": 5} if kind == "node" else {"nodes": [1, 2]}
        return {**element, **content, "tags": {"v": f"<{before}>\u2028", "w": ""} if number % 2 else {}}

    def interval(self, at: int) -> list[Element]:
        found = [self.version("node", number, at) for number in (1, 2) if ("node", number) not in self.versions]
        found += [
            self.version(kind, self.drawn.randint(1, 9), at) for kind in ("node", "way") for _ in range(self.drawn.choice([0, 0, 1, 7]))
        ]
        return sorted(found, key=lambda it: (KINDS.index(it["type"]), it["id"], it["version"]))


def moments(drawn: random.Random) -> list[int]:
    """Of files of a day and a half with a gap, some at whole hours; the last one ends the second day."""
    found = {BEGINNING + 1, BEGINNING + 3_600, BEGINNING + 3_601, BEGINNING + DAY}
    found |= {BEGINNING + hour * 3_600 + drawn.randint(1, 3_599) for hour in (0, 1, 2, 9, 24, 40) for _ in range(4)}
    return [*sorted(found), BEGINNING + 2 * DAY, BEGINNING + 2 * DAY + 1]


def small_files(path: str, first: int = 0) -> Folder:
    """All of them, or those from the first one on."""
    made, it = Folder(path), DrawnMap()
    made.publish(State(0, BEGINNING, 0, ""), packed(text_of(())))
    for sequence, at in enumerate(moments(it.drawn)[first:], 1):
        elements = [] if at > BEGINNING + 2 * DAY else it.interval(at)
        made.publish(State(sequence, at, sequence, ""), packed(text_of(elements)))
    return made


def rows(path: str) -> list[Row]:
    with gzip.open(path) as file:
        root = xml.parse(file).getroot()
    return [(it.tag, int(it.attrib["id"]), int(it.attrib["version"]), part.tag) for part in root for it in part]


def all_rows(folder: Folder, first: int, end: int) -> list[Row]:
    found = [row for sequence in range(first, end) for row in rows(folder.base(sequence) + ".osc.gz")]
    return sorted(found, key=lambda it: (KINDS.index(it[0]), it[1], it[2]))


def check_contents(large: Folder, small: Folder, seconds: int) -> int:
    """Each file has the versions of the smaller ones up to its moment, and nothing between is left out; answers how many there are."""
    last = large.newest()
    if last is None:
        raise Wrong(f"nothing is in {large.path}")
    for sequence in range(1, last.sequence + 1):
        before, state = large.state(sequence - 1), large.state(sequence)
        if rows(large.base(sequence) + ".osc.gz") != all_rows(small, before.piece + 1, state.piece + 1):
            raise Wrong(f"{large.path}: file {sequence} hasn't what files {before.piece + 1} to {state.piece} have")
        is_last = small.newest() == small.state(state.piece)
        ends = small.state(state.piece).moment, 1 << 40 if is_last else small.state(state.piece + 1).moment
        if state.moment % seconds or not (before.moment < state.moment and ends[0] <= state.moment < ends[1]):
            raise Wrong(f"{large.path}: file {sequence} is of {state.moment}, the smaller ones of {ends}")
    return last.sequence


def write_all(small: Folder) -> None:
    for it in hours_and_days(small):
        while list(it.advance()):
            pass


def with_breaks(breaks: Breaks, small: Folder) -> None:
    for module in (folders, names):
        setattr(module, "os", breaks)
    setattr(folders, "open", breaks.open_file)
    try:
        write_all(small)
    finally:
        for module in (folders, names):
            setattr(module, "os", os)
        delattr(folders, "open")


def broken_at_each_step(small: Folder, whole: str) -> int:
    """Ends it at each step of its writing, one after another, and compares what came of it byte for byte; answers how many there were."""
    step = 0
    while True:
        step += 1
        try:
            with_breaks(Breaks(step), small)
            return step
        except Broken:
            with_breaks(Breaks(0), small)
        for name in ("hour", "day"):
            different = unlike(os.path.join(whole, name), os.path.join(small.path, name))
            if different:
                raise Wrong(f"broken at step {step}: {name}/ differs in {different}")
            shutil.rmtree(os.path.join(small.path, name))


def unlike(left: str, right: str) -> list[str]:
    """Files that aren't the same byte for byte; beside them those that were begun may be left."""
    names = [os.path.relpath(it, left) for it in glob.glob(left + "/**", recursive=True) if os.path.isfile(it)]
    return filecmp.cmpfiles(left, right, names, shallow=False)[1] + filecmp.cmpfiles(left, right, names, shallow=False)[2]


def by_many(small: Folder, work: str) -> int:
    """Very many files, which are merged in several rounds."""
    paths = [small.base(it) + ".osc.gz" for it in range(len(glob.glob(small.path + "/000/000/*.osc.gz")))] * 3
    many = os.path.join(work, "many.osc.gz")
    with open(many, "wb") as file:
        file.writelines(merged(paths, os.path.join(work, "work")))
    if len(rows(many)) != 3 * len(all_rows(small, 0, len(paths) // 3)) or os.path.exists(os.path.join(work, "work")):
        raise Wrong("versions are lost where many files are merged")
    return len(paths)


def merges(_: Programs, folder: str) -> str:
    small = small_files(os.path.join(folder, "www"))
    write_all(small)
    hours, days = (Folder(os.path.join(small.path, name)) for name in ("hour", "day"))
    counts = check_contents(hours, small, 3_600), check_contents(days, hours, DAY)
    versions = {whole_files(it) for it in (small, hours, days)}
    if len(versions) != 1:
        raise Wrong(f"the folders have {versions} versions")
    files = {name: os.path.join(folder, f"{name}.osm.pbf") for name in ("small", "hour", "day")}
    for made, out in zip((small, hours, days), files.values()):
        from_nothing(made, out)
    for name in ("hour", "day"):
        compare(f"by {name}", files[name], files["small"])
    few = [small_files(os.path.join(folder, name), first=-3) for name in ("whole", "broken")]
    write_all(few[0])
    steps = broken_at_each_step(few[1], few[0].path)
    many = by_many(small, folder)
    return (
        f"{counts[0]} hours and {counts[1]} days have the {versions.pop()} versions of the small files, and pyosmium makes the same "
        f"{len(same.elements(files['small']))} elements of each; broken at each of {steps} steps; {many} files at once"
    )
