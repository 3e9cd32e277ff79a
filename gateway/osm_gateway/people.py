"""The users text, and who calls."""

from __future__ import annotations

import base64
import binascii
import re
import time
from dataclasses import dataclass, field

from .refusals import Refused


@dataclass(frozen=True)
class User:
    id: int
    token: str
    name: str
    moderator: bool
    limit: int | None = None
    """The largest area of a changeset's box, in square units of 1e-7 degrees."""


LINE = re.compile(r"(?P<id>[0-9]{1,19}) (?P<token>[!-~]{1,128}) (?P<role>user|moderator)(?:/(?P<limit>[0-9]{1,19}))? (?P<name>.{1,255})", re.DOTALL)
HIGHEST = re.compile(r"# highest id: ([0-9]{1,19})\b")
"""A comment that keeps the highest id that a user had, so that nobody is given one of those who are gone."""
MOST_BYTES, MOST_ID, MOST_SECONDS = 1 << 20, (1 << 63) - 1, (1 << 64) - 1


class BadUsers(ValueError):
    """A line of the users text can't be read."""


@dataclass
class People:
    """The users, by their tokens, and from which moment on a new changeset takes 50,000 changes."""

    by_token: dict[str, User] = field(default_factory=dict)
    by_id: dict[int, User] = field(default_factory=dict)
    by_name: dict[str, User] = field(default_factory=dict)
    large_from: int | None = None
    highest: int = 0
    """The highest id of the text's users and of its comment on those who are gone."""

    def add(self, it: User) -> None:
        if it.token in self.by_token or it.id in self.by_id or it.name in self.by_name:
            raise BadUsers("its id, token or name is that of an earlier line")
        self.by_token[it.token] = self.by_id[it.id] = self.by_name[it.name] = it
        self.highest = max(self.highest, it.id)

    def take(self, new: People) -> str:
        """Goes on with the users of another text, and tells what is other."""
        before, after = self.by_id, new.by_id
        counts = {
            "new": len(after.keys() - before.keys()),
            "gone": len(before.keys() - after.keys()),
            "with another name, token or role": sum(before[number] != after[number] for number in before.keys() & after.keys()),
        }
        self.by_token, self.by_id, self.by_name = new.by_token, new.by_id, new.by_name
        self.large_from, self.highest = new.large_from, new.highest
        return f"{len(after)} users: " + ", ".join(f"{count} {what}" for what, count in counts.items())

    def changes(self) -> int:
        """The most changes that a changeset of now takes."""
        return 50_000 if self.large_from is not None and time.time() >= self.large_from else 10_000

    # ---- who calls

    def token_of(self, field_value: str | None) -> str | None:
        """The token of an Authorization field: a Bearer's, or the password of a user that Basic names. None without one."""
        kind, _, rest = (field_value or "").strip(" \t").partition(" ")
        rest = rest.strip(" \t")
        if not kind:
            return None
        if kind.lower() == "bearer" and re.fullmatch("[!-~]{1,128}", rest):
            return rest
        if kind.lower() == "basic":
            return self.basic(rest)
        raise Refused(401, "Couldn't authenticate you")

    def basic(self, text: str) -> str:
        try:
            pair = base64.b64decode(text, validate=True).decode("utf-8")
        except (binascii.Error, UnicodeDecodeError):
            raise Refused(401, "Couldn't authenticate you") from None
        # A colon may stand in a name and in a token too.
        for colon in re.finditer(":", pair):
            user = self.by_token.get(pair[colon.end() :])
            if user is not None and user.name == pair[: colon.start()]:
                return user.token
        raise Refused(401, "Couldn't authenticate you")

    def known(self, token: str | None) -> User:
        user = self.by_token.get(token or "")
        if user is None:
            raise Refused(401, "Couldn't authenticate you")
        return user


def lines_of(text: str) -> list[tuple[str, str]]:
    """The lines of a text, each with its end: a byte 13 is of it before a byte 10 alone."""
    *lines, last = text.split("\n")
    return [(line[:-1], "\r\n") if line.endswith("\r") else (line, "\n") for line in lines] + [(last, "")]


def people_of(text: str) -> People:
    """The users that a text has, by the rules of docs/API.md."""
    people = People()
    if len(text.encode()) > MOST_BYTES:
        raise BadUsers(f"it has more than {MOST_BYTES} bytes")
    for number, (line, _) in enumerate(lines_of(text), 1):
        try:
            read_line(people, line)
        except BadUsers as why:
            raise BadUsers(f"line {number}: {why}") from None
    return people


def read_line(people: People, line: str) -> None:
    if line.startswith("#"):
        kept = HIGHEST.match(line)
        people.highest = max(people.highest, int(kept[1]) if kept else 0)
    elif line.startswith("@"):
        read_setting(people, line)
    elif line:
        people.add(user_of(line))


def read_setting(people: People, line: str) -> None:
    setting = re.fullmatch(r"@large-from 0*([0-9]{1,20})", line)
    if not setting or int(setting[1]) > MOST_SECONDS or people.large_from is not None:
        raise BadUsers("a line that begins with @ is @large-from SECONDS, once")
    people.large_from = int(setting[1])


def user_of(line: str) -> User:
    found = LINE.fullmatch(line)
    if not found:
        raise BadUsers("it isn't ID TOKEN ROLE NAME")
    number, limit = int(found["id"]), None if found["limit"] is None else int(found["limit"])
    if not 0 < number <= MOST_ID or (limit or 0) > MOST_ID:
        raise BadUsers(f"an id is from 1 to {MOST_ID}, and a limit at most that")
    return User(number, found["token"], found["name"], found["role"] == "moderator", limit)
