"""The rows of crates/session_rows: what each sends on a link and what must come. docs/ROWS.md has the format."""

from __future__ import annotations

import re
from collections.abc import Iterator
from dataclasses import dataclass, field

TOKENS = {"alice": "alicetoken", "bob": "bobtoken", "stranger": "carolstoken", "nobody": ""}
USERS = "1 alicetoken user alice\n2 bobtoken moderator bob\n"
WORDS = "osm pipe --users users.txt --at 1700000000"
REASONS = {
    200: "OK", 400: "Bad Request", 401: "Unauthorized", 403: "Forbidden", 404: "Not Found", 405: "Method Not Allowed",
    409: "Conflict", 410: "Gone", 412: "Precondition Failed", 413: "Content Too Large", 415: "Unsupported Media Type",
    431: "Request Header Fields Too Large", 501: "Not Implemented", 503: "Service Unavailable",
}  # fmt: skip
SHORT = {"r": b"\r", "n": b"\n", "t": b"\t", "\\": b"\\"}
ESCAPE = re.compile(r"\\(x[0-9a-f]{2}|[rnt\\])")
REPEATED = re.compile(r"\$(?:(\d+)\.\.)?(\d+)(,?)\(([^)]*)\)")


@dataclass
class Row:
    """A session on one link, as it is, without its sweeps."""

    name: str
    words: list[str] = field(default_factory=WORDS.split)
    users: bytes = USERS.encode()
    moments: list[int] = field(default_factory=list)
    fails: bool = False
    """Whether a call of the outside fails."""
    sent: bytes = b""
    wanted: bytes = b""

    def is_session(self) -> bool:
        """Whether it is one of `osm pipe` to which replies come, with nothing outside that fails."""
        return self.words[1:2] == ["pipe"] and not self.fails and self.wanted != b""

    def moment(self) -> int:
        """Where its clock stands, or begins."""
        if self.moments:
            return self.moments[0]
        return int(re.findall(r"--at[ =](\d+)", " ".join(self.words))[-1])


def unescaped(text: str) -> bytes:
    made, behind = b"", 0
    for it in ESCAPE.finditer(text):
        what = it[1]
        made += text[behind : it.start()].encode() + (bytes([int(what[1:], 16)]) if what[0] == "x" else SHORT[what])
        behind = it.end()
    return made + text[behind:].encode()


def written_out(line: str) -> str:
    """The line with its pieces `$N(TEXT)` repeated."""

    def repeat(it: re.Match[str]) -> str:
        return it[3].join(it[4].replace("#", str(number)) for number in range(int(it[1] or 1), int(it[2]) + 1))

    return REPEATED.sub(repeat, line)


def request(line: str, fields: bytes) -> bytes:
    """The bytes of `CALLER METHOD PATH BODY`, with these fields before the caller's."""
    caller, method, rest = line.split(" ", 2)
    path, _, body = rest.partition(" ")
    token, data = TOKENS[caller], body.encode()
    head = f"Authorization: Bearer {token}\r\n" if token else ""
    head += f"Content-Length: {len(data)}\r\n" if data else ""
    return f"{method} /api/0.6/{path} HTTP/1.1\r\n".encode() + fields + head.encode() + b"\r\n" + data


def reply(line: str) -> bytes:
    """The bytes of `STATUS BODY`, or of `STATUS close BODY`."""
    status, _, rest = line.partition(" ")
    body = rest.removeprefix("close ").encode()
    head = f"HTTP/1.1 {status} {REASONS[int(status)]}\r\nContent-Type: application/json\r\nContent-Length: {len(body)}\r\n"
    return (head + ("Connection: close\r\n" if rest.startswith("close ") else "") + "\r\n").encode() + body


def lines_of(text: str) -> Iterator[str]:
    """The lines that say something, each as often as it is meant."""
    for line in text.split("\n"):
        if line.startswith("*"):
            count, _, rest = line[1:].partition(" ")
            yield from (rest.replace("#", str(number)) for number in range(1, int(count) + 1))
        elif line and not line.startswith("#"):
            yield written_out(line)


def directive(row: Row, word: str, rest: str) -> None:
    if word == "@words":
        row.words = rest.split(" ")
    elif word == "@users":
        row.users = unescaped(rest)
    elif word == "@moments":
        row.words, row.moments = "osm pipe --users users.txt".split(), [int(it) for it in rest.split(" ")]
    elif word.startswith("@bad_"):
        row.fails = True


def row_of(text: str) -> Row:
    name, _, rest = text.partition("\n")
    row, fields = Row(name), b""
    for line in lines_of(rest):
        word, _, behind = line.partition(" ")
        if word == "+":
            fields += unescaped(behind) + b"\r\n"
        elif word == ">":
            row.sent += unescaped(behind)
        elif word == "<":
            row.wanted += unescaped(behind)
        elif word.startswith("@"):
            directive(row, word, behind)
        elif word.isdigit():
            row.wanted += reply(line)
        else:
            row.sent, fields = row.sent + request(line, fields), b""
    return row


def rows_of(path: str) -> list[Row]:
    with open(path, encoding="utf-8", newline="\n") as file:
        return [row_of(text) for text in file.read().split("\n== ")[1:]]
