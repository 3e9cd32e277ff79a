"""Rows of elements that are taken as they stand, against the same rows read as JSON: drawn replies, in the server's form and beside it.

One in three replies is damaged. Each is translated into XML and JSON, cut anywhere, and must come to the same text, or fail both times.
"""

from __future__ import annotations

import json
from collections import Counter
from collections.abc import Callable, Iterator

import forms
import fuzz
from behind import want
from osm_gateway import documents
from osm_gateway.plain_rows import WINDOW, rows_at
from osm_gateway.rows import SLICE
from osm_gateway.walk import OPENED, Event, NotJson, Rows, Sort, Walk
from osm_gateway.xml_texts import Texts
from serving import Wrong

SEED, CASES = 20261201, 2_000
ODD = (*fuzz.TEXTS, '":"', '","', "\ufffe", "\0", "\n")
USUAL = ("building", "yes", "Stra\u00dfe", "\U0001f333", "a b", "A & B", "<", ":", ",", "{}[],:", "\x7f", "\x85", "'", "")
UNITS = (0, 1, -1, 999_999, 9_999_999, -9_999_999, 10_000_000, -10_000_000, 99_999_999, -99_999_999, 481_412_345, 1_800_000_000, -1_800_000_000)
FAILS = (NotJson, KeyError, TypeError, ValueError, AttributeError)
"""What a reply that isn't the server's comes to, in the end a refusal."""
BEGIN = (
    '{"changeset":1,"id":%d,%s,"tags":{"a":"b","c":"d"},"timestamp":"2026-12-01T03:00:00Z","type":"%s","uid":1,"user":"a",'
    '"version":1,"visible":true}'
)
MEMBERS = '"members":[{"ref":1,"role":"","type":"way"},{"ref":2,"role":"x","type":"node"}]'
EDITS = (
    ("},{", "}{"), ("},{", "},,{"), ("},{", "}, {"), ("[{", "[,{"), ("}]", "},]"), ("[1,2]", "[1,,2]"), ("[1,2]", "[1,2,]"), ("[1,2]", "[]"),
    ("1", "01"), ("1", "0"), ("1", "-1"), ("1", "-0"), ("1", "1.0"), ("1", "1" * 20), ("1", "1" * 5000), ("67", "067"), ("67", "-0"), ("67", "0.67"),
    ("67", "4" * 11), ("481412345", "-81412345"), ('",', '"'), ('"d"', '"d",'), ('"c"', '"a"'), ("true", "false"), ("true", "1"), ("way", "area"),
    ('"nodes"', '"members"'), ('"members"', '"nodes"'), ('"user"', '"used"'), ('"b"', '"\\"'), ('"b"', '"\\""'), ('"b"', '"\t"'), ('"b"', "{}"),
    ('"id"', '"id":7,"id"'), ('"version"', '"redaction":1,"version"'), ("3:00", "3\\u003a00"),
)  # fmt: skip


class Drawn(fuzz.Drawn):
    def seldom(self) -> bool:
        return self.draw.random() < 0.005

    def text(self) -> str:
        texts = ODD if self.draw.random() < 0.02 else USUAL
        return "".join(self.draw.choice(texts) for _ in range(self.draw.choice((1, 1, 1, 2, 3))))

    def shown(self, value: object) -> str:
        if type(value) is int and self.seldom():
            return self.draw.choice(("0", "-0", "01", "1.0", "1e2", "-5", "9" * 19, "9" * 25, "null"))
        return json.dumps(value, ensure_ascii=self.seldom(), separators=self.draw.choice(((", ", ": "), (",", ":"))) if self.seldom() else (",", ":"))

    def tag_text(self) -> str:
        """A key comes twice now and then."""
        pairs = [(self.text(), self.text()) for _ in range(self.draw.choice((0, 0, 1, 2, 5)))]
        pairs += [(self.draw.choice(pairs)[0], self.text())] if pairs and self.draw.random() < 0.1 else []
        return "{" + ",".join(f"{self.shown(key)}:{self.shown(value)}" for key, value in pairs) + "}"

    def content(self, kind: str) -> dict[str, str]:
        many = self.draw.choice((SLICE - 1, SLICE, SLICE + 1)) if self.draw.random() < 0.005 else self.draw.choice((0, 1, 2, 2, 9))
        if kind == "node":
            return {name: self.shown(self.draw.choice((self.draw.choice(UNITS), self.draw.randint(-(10**9), 10**9)))) for name in ("lat7", "lon7")}
        if kind == "way":
            return {"nodes": "[" + ",".join(self.shown(self.number()) for _ in range(many)) + "]"}
        members = [{"ref": self.number(), "role": self.text(), "type": self.draw.choice(forms.KINDS)} for _ in range(many)]
        return {"members": "[" + ",".join(map(self.shown, members)) + "]"}

    def row(self) -> str:
        kind = self.draw.choice(forms.KINDS)
        fields = {name: self.shown(self.number()) for name in ("changeset", "id", "uid", "version")}
        fields |= {"timestamp": '"2026-12-01T03:00:00Z"', "type": self.shown(kind), "user": self.shown(self.text()), "visible": "true"}
        if self.draw.random() < 0.05:
            fields["visible"] = "false"
        else:
            fields |= {"tags": self.tag_text(), **self.content(kind)}
        if self.seldom():
            fields["redaction"] = self.shown(self.number())
        if self.seldom():
            fields.pop(self.draw.choice(sorted(fields)))
        names = sorted(fields) if not self.seldom() else self.draw.sample(sorted(fields), len(fields))
        return "{" + ",".join(f'"{name}":{fields[name]}' for name in names) + "}"

    def rows(self) -> str:
        return "[" + ",".join(self.row() for _ in range(self.draw.choice((0, 1, 2, 5, 20)))) + "]"

    def reply(self) -> tuple[str, bool]:
        """Elements or a download, and whether it is whole."""
        if self.draw.random() < 0.6:
            text = f'{{"elements":{self.rows()},"version":"0.6"}}'
        else:
            blocks = [f'{{"{self.draw.choice(forms.ACTIONS)}":{self.rows()}}}' for _ in range(self.draw.choice((0, 1, 3)))]
            text = f'{{"osmChange":[{",".join(blocks)}],"version":"0.6"}}'
        if self.draw.random() > 1 / 3:
            return text, True
        return self.damaged(text.encode()).decode("utf-8", "replace"), False


def events(pieces: list[str], rows: Rows | None) -> Iterator[Event]:
    return Walk(iter(pieces), OPENED, rows=rows).events()


def xml(write: Callable[[Iterator[Event], Texts], Iterator[str]], found: Iterator[Event]) -> tuple[str, int]:
    texts = Texts()
    return "".join(write(found, texts)), texts.lost


def written(pieces: list[str], rows: Rows | None) -> list[object]:
    """The documents of a reply, with the characters that XML can't hold."""
    writers: tuple[Callable[[Iterator[Event]], object], ...] = (
        lambda found: xml(documents.elements_xml, found),
        lambda found: xml(documents.download_xml, found),
        lambda found: "".join(documents.elements_json(found)),
        lambda found: "".join(documents.download_json(found)),
    )
    made: list[object] = []
    for write in writers:
        try:
            made.append(write(events(pieces, rows)))
        except FAILS:
            made.append("fails")
    return made


def play(number: int, counts: Counter[str]) -> None:
    it = Drawn(SEED, number)
    text, is_whole = it.reply()
    wanted = written([text], None)
    for pieces in ([text], it.cuts(text)):
        found = written(pieces, rows_at)
        if found != wanted:
            raise Wrong(f"case {number}: {text!r} in {len(pieces)} pieces is {found}, and by the reader of JSON {wanted}")
    counts["fails" if wanted[0] == "fails" else "whole" if is_whole else "damaged, and can be read"] += 1
    if is_whole and wanted[0] != "fails":
        for event in events([text], rows_at):
            counts["rows taken"] += len(event.value) if event.sort is Sort.ROWS else 0
            counts["rows read"] += event.sort is Sort.VALUE and event.path[-1] == "*"


def edited() -> str:
    """Elements with one edit each, which is no JSON, or has a form of its own."""
    kinds = (('"lat7":481412345,"lon7":67', "node"), ('"nodes":[1,2]', "way"), (MEMBERS, "relation"))
    rows = [BEGIN % (number, *content) for content in kinds for number in (1, 2)]
    text = f'{{"elements":[{",".join(rows)}],"version":"0.6"}}'
    for old, new in EDITS:
        for place in range(text.count(old)):
            parts = text.split(old)
            other = old.join(parts[: place + 1]) + new + old.join(parts[place + 1 :])
            want(written([other], rows_at), written([other], None), f"{new} for {old}")
    return f"{len(EDITS)} edits"


def long_one() -> str:
    """A reply of many windows, cut at each place around the edge of one."""
    text = '{"elements":[' + ",".join(BEGIN % (number, '"lat7":5,"lon7":6', "node") for number in range(1, 1000)) + '],"version":"0.6"}'
    wanted = written([text], None)
    for place in range(WINDOW - 90, WINDOW + 90):
        want(written([text[:place], text[place:]], rows_at), wanted, f"cut at {place}")
    want(sum(len(event.value) for event in events([text], rows_at) if event.sort is Sort.ROWS), 999, "rows that are taken")
    return f"{len(text)} characters cut at 180 places"


def run(_: str) -> str:
    counts = Counter[str]()
    for number in range(CASES):
        play(number, counts)
    want(counts["rows taken"] > counts["rows read"], True, f"most rows are taken: {counts}")
    return f"{CASES:,} replies by the seed {SEED}: {', '.join(f'{name} {count:,}' for name, count in sorted(counts.items()))}; {edited()}; {long_one()}"
