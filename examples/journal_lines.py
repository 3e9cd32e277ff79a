"""The form of a journal's lines (docs/JOURNAL.md), without the rules of the map and of notes.

Most lines are told by one expression over their bytes. It takes nothing that the shapes below it don't take, which say of any other line
what is wrong with it, and where.
"""

from __future__ import annotations

import json
import math
import operator
import os
import re
from collections import Counter
from collections.abc import Callable, Iterable
from functools import cached_property, partial
from itertools import zip_longest
from typing import Any, NamedTuple

Path = tuple[str | int, ...]
Check = Callable[[Any, Path], None]
Counts = dict[tuple[bytes, bytes], int]
WIDE, SIGNED, SESSIONS = 1 << 64, 1 << 63, 1 << 32
LAT7, LON7 = 900_000_000, 1_800_000_000
CHARACTERS, NODES, MEMBERS = 255, 2_000, 32_000
KINDS = ("node", "way", "relation")
ACTIONS = ("create", "modify", "delete")
SHOWN = 24  # characters of a line that are shown


class Unfit(Exception):
    """Bytes that are no line, wrong at this byte of them."""

    def __init__(self, place: int, why: str) -> None:
        super().__init__(why)
        self.place, self.why = place, why


class Entry(NamedTuple):
    """What of an entry counts for the order of a journal, and what it does."""

    at: int
    call: int
    session: int
    act: str
    counts: Counts
    """How many operations there are of each action, by what tells their kinds."""


# ---- shapes of values


class Bad(Exception):
    """A value, or the name before it, that may not stand there."""

    def __init__(self, path: Path, why: str, name: bool = False) -> None:
        super().__init__(why)
        self.path, self.why, self.name = path, why, name


def whole(least: int, most: int, zero: bool = True) -> Check:
    def check(value: Any, path: Path) -> None:
        if type(value) is not int:
            raise Bad(path, "it is no whole number")
        if not least <= value <= most or not (value or zero):
            raise Bad(path, f"the number isn't from {least} to {most}" + ("" if zero else ", or is 0"))

    return check


def text(least: int = 0, most: float = math.inf) -> Check:
    def check(value: Any, path: Path) -> None:
        if type(value) is not str:
            raise Bad(path, "it is no text")
        if not least <= len(value) <= most:
            raise Bad(path, f"a text of {least} to {most} characters stands here, and not of {len(value)}")

    return check


def one_of(*values: object) -> Check:
    def check(value: Any, path: Path) -> None:
        if not any(value is it or type(value) is str and value == it for it in values):
            raise Bad(path, f"it is none of {', '.join(map(json.dumps, values))}")

    return check


def rows(item: Check, least: int = 0, most: float = math.inf) -> Check:
    def check(value: Any, path: Path) -> None:
        if type(value) is not list:
            raise Bad(path, "it is no list")
        if not least <= len(value) <= most:
            raise Bad(path, f"a list of {least} to {most} stands here, and not of {len(value)}")
        for place, it in enumerate(value):
            item(it, (*path, place))

    return check


def members_of(value: Any, path: Path) -> dict[str, Any]:
    if type(value) is not dict:
        raise Bad(path, "it is no object")
    return value


def record(fields: dict[str, Check], optional: tuple[str, ...] = ()) -> Check:
    """An object with these members in this order, but for those that may be missing."""

    def check(value: Any, path: Path) -> None:
        members = members_of(value, path)
        wanted = [it for it in fields if it in members or it not in optional]
        for found, name in zip_longest(members, wanted):
            if found == name:
                continue
            if found is not None and found not in fields:
                raise Bad((*path, found), "a member of this name doesn't stand here", name=True)
            if name not in members:
                raise Bad(path, f"the member {json.dumps(name)} is missing")
            raise Bad((*path, str(found)), "this member stands before its place", name=True)
        for name in wanted:
            fields[name](members[name], (*path, name))

    return check


def tags(least: int) -> Check:
    key, value_text = text(1, CHARACTERS), text(0, CHARACTERS)

    def check(value: Any, path: Path) -> None:
        before = ""
        if len(members_of(value, path)) < least:
            raise Bad(path, "no tags are left out")
        for name, said in value.items():
            if name <= before and before:
                raise Bad((*path, name), "the key isn't behind the one before", name=True)
            if least:
                key(name, (*path, name))
                value_text(said, (*path, name))
            text()(said, (*path, name))
            before = name

    return check


NATURAL, SESSION = whole(0, WIDE - 1), whole(0, SESSIONS - 1)
ID, COUNT, PLACEHOLDER = whole(1 - SIGNED, SIGNED - 1, zero=False), whole(1, SIGNED - 1), whole(1 - SIGNED, -1)
KIND, TRUE, FLAG = one_of(*KINDS), one_of(True), one_of(True, False)
PLACE = {"lat7": whole(-LAT7, LAT7), "lon7": whole(-LON7, LON7)}
MEMBER = record({"ref": ID, "role": text(1, CHARACTERS), "type": KIND}, ("role",))
CONTENT: dict[str, dict[str, Check]] = {
    "node": PLACE,
    "way": {"nodes": rows(ID, 1, NODES)},
    "relation": {"members": rows(MEMBER, 0, MEMBERS)},
}


def element(action: str) -> Check:
    name = {"id": PLACEHOLDER if action == "create" else ID}
    version = {} if action == "create" else {"version": COUNT}
    if action == "delete":
        return record({**name, "type": KIND, **version})
    by_kind = {kind: record({**name, **CONTENT[kind], "tags": tags(1), "type": KIND, **version}, ("tags",)) for kind in KINDS}

    def check(value: Any, path: Path) -> None:
        if "type" not in members_of(value, path):
            raise Bad(path, 'the member "type" is missing')
        KIND(value["type"], (*path, "type"))
        by_kind[value["type"]](value, path)

    return check


BLOCKS = {it: record({it: rows(element(it), 1)}) for it in ACTIONS}
UNUSED = record({"delete": rows(element("delete"), 1), "if-unused": TRUE})


def block(value: Any, path: Path) -> None:
    first = next(iter(members_of(value, path)), "")
    if first not in BLOCKS:
        raise Bad(path, "a block begins with create, modify or delete")
    (UNUSED if first == "delete" and "if-unused" in value else BLOCKS[first])(value, path)


def change(value: Any, path: Path) -> None:
    rows(block)(value, path)
    for place in range(1, len(value)):
        if list(value[place]) == list(value[place - 1]):
            raise Bad((*path, place), "the block before has the same action")


def single(value: Any, path: Path) -> None:
    change(value, path)
    if sum(len(it[next(iter(it))]) for it in value) != 1:
        raise Bad(path, "a single change has one operation")


def command(acts: dict[str, Check]) -> Check:
    def check(value: Any, path: Path) -> None:
        if "act" not in members_of(value, path):
            raise Bad(path, 'the member "act" is missing')
        if type(value["act"]) is not str or value["act"] not in acts:
            raise Bad((*path, "act"), "there is no such act")
        acts[value["act"]](value, path)

    return check


def acts_of(acts: dict[str, dict[str, Check]]) -> Check:
    return command({act: record({"act": text(), **fields}, ("large_from",)) for act, fields in acts.items()})


# ---- the shapes of entries

NAMED = {"id": NATURAL, "type": KIND, "version": NATURAL}
LARGE: dict[str, Check] = {"large_from": NATURAL}
LIMIT: dict[str, Check] = {"limit": NATURAL}


def map_shape(limits: bool) -> Check:
    """An entry of the map; where there are no limits it is one of version 1."""
    redact: dict[str, Check] = {"id": NATURAL, "redaction": NATURAL, "type": KIND, "version": NATURAL}
    acts: dict[str, dict[str, Check]] = {
        "create_changeset": {**(LARGE if limits else {}), "tags": tags(0)},
        "retag": {"changeset": NATURAL, "tags": tags(0)},
        "close": {"changeset": NATURAL},
        "upload": {"changeset": NATURAL, "osmChange": change},
        "single": {"changeset": NATURAL, "osmChange": single},
        "make_redaction": {"title": text()},
        "redact": redact,
        "unredact": NAMED,
    }
    user = record({"id": NATURAL, **(LIMIT if limits else {}), "moderator": FLAG, "name": text()}, ("limit",))
    return record({"at": NATURAL, "call": NATURAL, "command": acts_of(acts), "session": SESSION, "user": user})


def notes_shape() -> Check:
    said: dict[str, Check] = {"id": NATURAL, "text": text()}
    acts = acts_of({"open": {**PLACE, "text": text()}, "comment": said, "close": said, "reopen": said})
    user = record({"id": NATURAL, "name": text()})
    return record({"at": NATURAL, "call": NATURAL, "command": acts, "session": SESSION, "user": user}, ("user",))


# ---- the same as expressions over bytes, which may refuse what a shape takes

UNIT = r'(?:[^"\\\x00-\x1f]|\\["\\bfnrt]|\\u00(?:0[0-7bef]|1[0-9a-f]))'
ANY_TEXT = rf'"(?:[^"\\\x00-\x1f]++|{UNIT})*+"'
WIDE_NUMBER, SESSION_NUMBER = "(?:0|[1-9][0-9]{0,18}+)", "(?:0|[1-9][0-9]{0,8}+)"
COUNT_NUMBER, ID_NUMBER = "[1-9][0-9]{0,17}+", "-?[1-9][0-9]{0,17}+"
ANY_KIND = '"(?:node|way|relation)"'
ANY_TAGS = rf"\{{(?:{ANY_TEXT}:{ANY_TEXT}(?:,{ANY_TEXT}:{ANY_TEXT})*+)?+\}}"
ANY_PLACE = '"lat7":(?:0|-?(?:[1-8][0-9]{8}|[1-9][0-9]{0,7})),"lon7":(?:0|-?(?:1[0-7][0-9]{8}|[1-9][0-9]{0,8}))'


def short_text(least: int) -> str:
    """One of 255 bytes at most, or of as many bytes and escapes."""
    return rf'(?:"[^"\\\x00-\x1f]{{{least},{CHARACTERS}}}+"|"{UNIT}{{{least},{CHARACTERS}}}+")'


def listed(item: str, least: int = 0, most: int | None = None) -> str:
    more = rf"{item}(?:,{item}){{0,{'' if most is None else most - 1}}}+"
    return rf"\[{more}\]" if least else rf"\[(?:{more})?+\]"


def change_bytes(is_single: bool) -> str:
    """The blocks of an upload, or the one block with one operation of a single change."""
    tag = f"{short_text(1)}:{short_text(0)}"
    some_tags = rf'(?:,"tags":\{{{tag}(?:,{tag})*+\}})?+'
    member = rf'\{{"ref":{ID_NUMBER}(?:,"role":{short_text(1)})?+,"type":{ANY_KIND}\}}'
    contents = {"node": ANY_PLACE, "way": f'"nodes":{listed(ID_NUMBER, 1, NODES)}', "relation": f'"members":{listed(member, 0, MEMBERS)}'}
    content = "|".join(rf'{it}{some_tags},"type":"{kind}"' for kind, it in contents.items())
    version = f',"version":{COUNT_NUMBER}'
    most = 1 if is_single else None
    blocks = (
        '"create":' + listed(rf'\{{"id":-{COUNT_NUMBER},(?:{content})\}}', 1, most),
        '"modify":' + listed(rf'\{{"id":{ID_NUMBER},(?:{content}){version}\}}', 1, most),
        '"delete":' + listed(rf'\{{"id":{ID_NUMBER},"type":{ANY_KIND}{version}\}}', 1, most) + '(?:,"if-unused":true)?+',
    )
    return listed(rf"\{{(?:{'|'.join(blocks)})\}}", int(is_single), most)


def entry_bytes(commands: Iterable[str], user: str) -> re.Pattern[bytes]:
    said = rf'\{{"act":(?:{"|".join(commands)})\}}'
    numbers = (rf'"at":({WIDE_NUMBER})', rf'"call":({WIDE_NUMBER})', rf'"command":{said}', rf'"session":({SESSION_NUMBER})')
    return re.compile(rf"\{{{','.join(numbers)}{user}\}}".encode())


def map_bytes(limits: bool) -> re.Pattern[bytes]:
    large = rf'(?:,"large_from":{WIDE_NUMBER})?+' if limits else ""
    limit = rf'(?:,"limit":{WIDE_NUMBER})?+' if limits else ""
    of = rf'"changeset":{WIDE_NUMBER}'
    commands = (
        rf'"upload",{of},"osmChange":{change_bytes(False)}',
        rf'"single",{of},"osmChange":{change_bytes(True)}',
        rf'"create_changeset"{large},"tags":{ANY_TAGS}',
        rf'"retag",{of},"tags":{ANY_TAGS}',
        rf'"close",{of}',
        rf'"make_redaction","title":{ANY_TEXT}',
        rf'"redact","id":{WIDE_NUMBER},"redaction":{WIDE_NUMBER},"type":{ANY_KIND},"version":{WIDE_NUMBER}',
        rf'"unredact","id":{WIDE_NUMBER},"type":{ANY_KIND},"version":{WIDE_NUMBER}',
    )
    user = rf',"user":\{{"id":{WIDE_NUMBER}{limit},"moderator":(?:false|true),"name":{ANY_TEXT}\}}'
    return entry_bytes(commands, user)


def notes_bytes() -> re.Pattern[bytes]:
    commands = (rf'"open",{ANY_PLACE},"text":{ANY_TEXT}', rf'"(?:comment|close|reopen)","id":{WIDE_NUMBER},"text":{ANY_TEXT}')
    return entry_bytes(commands, rf'(?:,"user":\{{"id":{WIDE_NUMBER},"name":{ANY_TEXT}\}})?+')


# In a text a quotation mark stands behind a backslash, so none of these is found in one.
BEFORE_ACT = b',"command":{"act":"'
TAGS = re.compile(rf'"tags":\{{((?:{ANY_TEXT}:{ANY_TEXT},?+)*+)\}}'.encode())
OPERATION = re.compile(rb'\{"(?:(create|modify|delete)":\[|id":-?[0-9]+,"(lat7|nodes|members|type":"[a-z]+))')
CONTROL = re.compile(rb"[\x00-\x1f]")
WITH_BLOCKS = ("upload", "single")
KIND_BY = {b"lat7": "node", b"nodes": "way", b"members": "relation"}


def is_utf8(line: bytes) -> bool:
    try:
        return line.isascii() or bool(line.decode())
    except UnicodeDecodeError:
        return False


def keys_rise(found: bytes) -> bool:
    """Whether the keys of tags do, which are an object's inside."""
    keys: list[Any] = found.split(b'"')[1::4]
    if b"\\" in found:
        keys = [key for key, _ in json.loads(b"{%s}" % found, object_pairs_hook=list)]
    return all(map(operator.lt, keys, keys[1:]))


def operations_of(line: bytes) -> tuple[list[bytes], Counts]:
    """The actions of a line's blocks, and how many operations there are."""
    blocks: list[bytes] = []
    counts: Counts = {}
    action = b""
    for begun, mark in OPERATION.findall(line):
        if begun:
            action = begun
            blocks.append(begun)
        else:
            counts[action, mark] = counts.get((action, mark), 0) + 1
    return blocks, counts


def by_name(counts: Counts) -> Counter[tuple[str, str]]:
    """The same by the names of actions and kinds."""
    names: Counter[tuple[str, str]] = Counter()
    for (action, mark), count in counts.items():
        names[action.decode(), KIND_BY.get(mark) or mark.decode().rpartition('"')[2]] += count
    return names


# ---- lines

ENCODER = json.JSONEncoder(ensure_ascii=False, separators=(",", ":"))
DECODER = json.JSONDecoder(parse_int=lambda digits: int(digits) if len(digits) < 40 else math.inf)


def place_of(line: str, path: Path, name: bool) -> int:
    """Where the value of this path begins in a compact line, or its name does."""
    at = named = 0
    for step in path:
        at += 1
        for _ in range(step if isinstance(step, int) else 0):
            at = DECODER.raw_decode(line, at)[1] + 1
        while isinstance(step, str):
            named = at
            found, at = DECODER.raw_decode(line, at)
            at += 1
            if found == step:
                break
            at = DECODER.raw_decode(line, at)[1] + 1
    return named if name else at


def told(path: Path) -> str:
    """A path as people write it."""
    words = "".join(f"[{it}]" if isinstance(it, int) else f".{it}" for it in path).removeprefix(".")
    return ascii(words)[1:-1]


def loaded(line: str) -> Any:
    try:
        value = DECODER.decode(line)
    except json.JSONDecodeError as why:
        raise Unfit(why.pos, f"it isn't JSON: {why.msg[0].lower()}{why.msg[1:]}") from None
    except RecursionError:
        raise Unfit(0, "it isn't JSON that is read here: its lists lie too deep") from None
    own = ENCODER.encode(value)
    if own != line:
        place = len(os.path.commonprefix([own, line]))
        has, wanted = ascii(line[place : place + SHOWN]), ascii(own[place : place + SHOWN])
        raise Unfit(place, f"it isn't compact JSON in the one form of a line: {has} stands where {wanted} would")
    return value


class Form:
    """The lines of journals with one header."""

    def __init__(self, kind: str, version: int, header: bytes, make: Callable[[], re.Pattern[bytes]], shape: Check) -> None:
        self.kind, self.version, self.header, self.make, self.shape = kind, version, header, make, shape

    @cached_property
    def plain(self) -> re.Pattern[bytes]:
        """Takes most lines."""
        return self.make()

    def entry(self, line: bytes) -> Entry:
        """That of a line, without its byte 10."""
        return self.quickly(line) or self.slowly(line)

    def quickly(self, line: bytes) -> Entry | None:
        """The entry where the expression takes its line."""
        match = self.plain.fullmatch(line)
        if not match or not is_utf8(line) or not all(map(keys_rise, TAGS.findall(line))):
            return None
        begin = match.end(2) + len(BEFORE_ACT)
        act = line[begin : line.index(b'"', begin)].decode()
        blocks, counts = operations_of(line) if act in WITH_BLOCKS else ([], {})
        # Neighbours may both be deletions, where one is `if-unused`.
        if any(map(operator.eq, blocks, blocks[1:])):
            return None
        at, call, session = map(int, match.groups())
        return Entry(at, call, session, act, counts)

    def slowly(self, line: bytes) -> Entry:
        """The same by the shapes, which say what is wrong."""
        if low := CONTROL.search(line):
            raise Unfit(low.start(), f"byte {line[low.start()]} stands in no line")
        try:
            words = line.decode()
            value = loaded(words)
            self.shape(value, ())
        except UnicodeDecodeError as why:
            raise Unfit(why.start, "it isn't UTF-8") from None
        except Unfit as why:
            raise Unfit(len(words[: why.place].encode()), why.why) from None
        except Bad as why:
            place = len(words[: place_of(words, why.path, why.name)].encode())
            raise Unfit(place, f"{told(why.path)}: {why.why}" if why.path else why.why) from None
        return Entry(value["at"], value["call"], value["session"], value["command"]["act"], operations_of(line)[1])


FORMS = (
    Form("map", 2, b"osm-journal 2\n", partial(map_bytes, True), map_shape(True)),
    Form("map", 1, b"osm-journal 1\n", partial(map_bytes, False), map_shape(False)),
    Form("notes", 1, b"osm-notes-journal 1\n", notes_bytes, notes_shape()),
)
