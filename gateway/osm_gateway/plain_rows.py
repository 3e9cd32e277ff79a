"""Elements in the very form in which the server writes them: one expression takes a row apart, and its fields stay texts as they stand.

No value is made of what is written again as it is. A row of any other form is left to the reader of JSON: a deleted or redacted one, one
with an escape, a space or another order, one without nodes or members, or a very long one.
"""

from __future__ import annotations

import re

from .rows import MemberFields

WINDOW = 1 << 14
"""Characters in which rows are taken at once: a turn can end behind them. A longer row isn't taken."""
Fields = tuple[str, ...]
"""changeset, id, lat7, lon7, nodes, members, tags, timestamp, type, uid, user, version, and what stands behind the last row. Empty is what
a row doesn't have.

Of lists and of tags it is what stands between the brackets, of texts what stands between the quotes."""

NUMBER = "[1-9][0-9]{0,18}+"
UNITS = "-?[1-9][0-9]{0,9}+"
TEXT = r'[^"\\\x00-\x1f\ud800-\udfff\ufffe\uffff]*+'
"""One that XML can hold, and in which a line's end or a quote would be an escape."""
KIND = "node|way|relation"


def listed(item: str) -> str:
    return f"{item}(?:,{item})*"


TAG = f'"{TEXT}":"{TEXT}"'
MEMBER = rf'\{{"ref":{NUMBER},"role":"{TEXT}","type":"(?:{KIND})"\}}'
ROWS = re.compile(
    # At the beginning of the text, or behind another row.
    rf'(?:^|(?<=[\[,]))\{{"changeset":({NUMBER}),"id":({NUMBER}),'
    rf'(?:"lat7":({UNITS}),"lon7":({UNITS})|"nodes":\[({listed(NUMBER)})\]|"members":\[({listed(MEMBER)})\]),'
    rf'"tags":\{{({listed(TAG)})?\}},"timestamp":"([0-9TZ:-]++)","type":"({KIND})",'
    rf'"uid":({NUMBER}),"user":"({TEXT})","version":({NUMBER}),"visible":true\}},?|(.+)',
    re.DOTALL,
)
MEMBERS = re.compile(rf'"ref":([0-9]+),"role":"({TEXT})","type":"({KIND})"')


def rows_at(text: str, place: int) -> tuple[list[Fields], int]:
    """The rows that stand there one behind another, and where the last one ends."""
    rows = ROWS.findall(text, place, place + WINDOW)
    end = min(place + WINDOW, len(text))
    if rows and rows[-1][-1]:
        end -= len(rows.pop()[-1])
    return rows, end - text.endswith(",", place, end)


def is_each_once(keys: list[str]) -> bool:
    return len(keys) == 1 or len(set(keys)) == len(keys)


def tags_of(text: str) -> dict[str, str]:
    """Where a key comes twice the last one counts, as in JSON."""
    parts = text.split('"')
    return dict(zip(parts[1::4], parts[3::4]))


def members_of(text: str) -> list[MemberFields]:
    return MEMBERS.findall(text)
