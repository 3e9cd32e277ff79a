"""What a journal's file stands for (docs/JOURNAL.md, "In a file"): its text, what stands behind that, and whether a start refuses it.

This is written by the page and by nothing of the server's own, and reads a file whole. examples/journal.py reads one line by line, and is
another program by the same page.
"""

from __future__ import annotations

import re
from typing import NamedTuple

HEADER, NOTES_HEADER = b"osm-journal 2\n", b"osm-notes-journal 1\n"
END, OPEN, OLDER_END = b"\n", b"{", b"#"
BATCH_END = b"\n\n"  # a line's end with the empty line behind it
SEAL = b"\n\n"  # the two empty lines that a start adds, and a stop in order
ROOM = 1 << 18  # zeros that are laid by at a time
LEFT_BY_CRASHES = b"\0{#"  # with what may begin that stands behind a text
EMPTY_LINES = re.compile(rb"\n{2,}")
UNOPENED, REFUSED = 3, 8  # a server's statuses


class Parted(NamedTuple):
    """The bytes of a file that stand for its text, with the empty lines, and what stands behind them."""

    raw: bytes
    rest: bytes

    def text(self) -> bytes:
        return EMPTY_LINES.sub(END, self.raw)

    def entries(self) -> int:
        return max(self.text().count(END) - 1, 0)

    def has_empty_lines(self) -> bool:
        return BATCH_END in self.raw

    def is_sealed(self) -> bool:
        """Whether more empty lines stand at the end of the text than a batch has, so that a zero in its last line is told."""
        bare = self.raw.rstrip(END)
        empty = len(self.raw) - len(bare) - 1
        return empty >= len(SEAL) + (BATCH_END in bare)

    def is_damaged(self) -> bool:
        """Whether what stands behind the text is none that a crash leaves."""
        _, ends, more = self.rest.partition(BATCH_END)
        return (self.rest[:1] not in LEFT_BY_CRASHES) or (bool(ends) and not are_zeros(more))

    def has_lost_lines(self) -> bool:
        """Whether a file of an older version has lost lines, since neither `#` nor zeros alone stand behind its text."""
        may_hold = self.rest[:1] in (b"\0", OPEN) and len(self.rest) > 1 and not are_zeros(self.rest)
        return may_hold and not self.has_empty_lines()


def read(path: str) -> bytes:
    with open(path, "rb") as file:
        return file.read()


def are_zeros(data: bytes) -> bool:
    return not data.strip(b"\0")


def parted(file: bytes) -> Parted:
    """The first line, whole lines that each begin with `{`, and empty ones among them; no line has a byte 0 in it."""
    end = behind_line(file, 0)
    while file[end : end + 1] in (END, OPEN) and end < len(file):
        behind = behind_line(file, end)
        if not behind:
            break
        end = behind
    return Parted(file[:end], file[end:])


def behind_line(file: bytes, at: int) -> int:
    """Where the line ends that begins there; 0 where no byte 10 ends it, or a byte 0 stands before."""
    behind = file.find(END, at) + 1
    return 0 if b"\0" in file[at:behind] else behind


def text_of(file: bytes) -> bytes:
    """The text, without the empty lines."""
    return parted(file).text()


def refusal(file: bytes, header: bytes = HEADER) -> int | None:
    """The status with which a start refuses a file for its form; none where its lines decide."""
    it = parted(file)
    if not it.raw.startswith(header):
        return REFUSED
    if it.has_lost_lines():
        return UNOPENED
    return REFUSED if it.is_damaged() else None


def batched(text: bytes, lines: int = 1) -> bytes:
    """A text as a server keeps it that began on a new file: each batch has so many lines. It isn't sealed behind the last one."""
    header, *rest = text.splitlines(keepends=True)
    batches = (b"".join(rest[i : i + lines]) for i in range(0, len(rest), lines))
    return header + SEAL + b"".join(it + END for it in batches)
