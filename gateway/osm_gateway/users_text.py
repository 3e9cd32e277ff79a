"""What the page of users changes in a users text: a line each time. All others stay as they are, byte by byte."""

from __future__ import annotations

import re
from dataclasses import replace

from .people import HIGHEST, LINE, MOST_ID, BadUsers, User, lines_of, people_of
from .refusals import Refused

ROLES = {False: "user", True: "moderator"}
COMMENT = "# highest id: {} (kept by the gateway, so that no id is given twice)"
UNFIT = re.compile("[^\x20-\x7e\xa0-\u2027\u202f-\u2065\u206a-\ud7ff\ue000-\ufffd\U00010000-\U0010ffff]")
"""What no name may have, though the server takes it: controls, ends of lines, other directions, what XML can't hold."""


class Draft:
    """A users text that is being changed. What it may not become is refused with a status."""

    def __init__(self, text: str) -> None:
        self.lines, self.people = lines_of(text), people_of(text)
        self.wanted = dict(self.people.by_id)

    def user(self, number: int) -> User:
        if number not in self.wanted:
            raise Refused(404, f"There is no user with the id {number}")
        return self.wanted[number]

    def add(self, name: str, moderator: bool, token: str, above: int) -> User:
        """With an id above that one, and above all that ever stood here."""
        self.check_name(name)
        number = max(self.people.highest, above) + 1
        if number > MOST_ID:
            raise Refused(409, f"There is no id left: {MOST_ID} was given")
        it = self.wanted[number] = User(number, token, name, moderator)
        self.append(f"{number} {token} {ROLES[moderator]} {name}")
        return it

    def rename(self, number: int, name: str) -> User:
        it = self.user(number)
        self.check_name(name)
        return self.change(replace(it, name=name), "name", name)

    def renew(self, number: int, token: str) -> User:
        return self.change(replace(self.user(number), token=token), "token", token)

    def give_role(self, number: int, moderator: bool) -> User:
        it = self.user(number)
        if it.moderator == moderator:
            raise Refused(409, f"The role of {it.name} is {ROLES[moderator]} already")
        self.check_last(it)
        return self.change(replace(it, moderator=moderator), "role", ROLES[moderator])

    def take_out(self, number: int) -> User:
        it = self.user(number)
        self.check_last(it)
        place, _ = self.place(number)
        del self.lines[place], self.wanted[number]
        if place == len(self.lines):
            self.lines.append(("", ""))
        return it

    def text(self) -> str:
        """The text as it is now, which has to be read as what was meant."""
        self.keep_highest(max((self.people.highest, *self.wanted)))
        text = "".join(line + end for line, end in self.lines)
        try:
            after = people_of(text)
        except BadUsers as why:
            raise Refused(409, f"The users text can't have this: {why}") from None
        if (after.by_id, after.large_from) != (self.wanted, self.people.large_from):
            raise Refused(409, "The users text can't have this: another line would be read otherwise")
        return text

    # ---- what is refused

    def check_name(self, name: str) -> None:
        if not 1 <= len(name) <= 255:
            raise Refused(400, "A name has 1 to 255 characters")
        if name != name.strip() or UNFIT.search(name):
            raise Refused(400, "A name has no spaces at its ends, and no controls")
        other = next((it for it in self.wanted.values() if it.name == name), None)
        if other is not None:
            raise Refused(409, f"{name} is the name of the user {other.id}")

    def check_last(self, it: User) -> None:
        if it.moderator and sum(other.moderator for other in self.wanted.values()) == 1:
            raise Refused(409, f"{it.name} is the last moderator, and stays one")

    # ---- lines

    def place(self, number: int) -> tuple[int, re.Match[str]]:
        """Where the line of a user stands, and its parts."""
        for place, (line, _) in enumerate(self.lines):
            found = None if line.startswith(("#", "@")) else LINE.fullmatch(line)
            if found and int(found["id"]) == number:
                return place, found
        raise Refused(404, f"There is no user with the id {number}")

    def change(self, it: User, part: str, value: str) -> User:
        place, found = self.place(it.id)
        self.put(place, found.span(part), value)
        self.wanted[it.id] = it
        return it

    def put(self, place: int, span: tuple[int, int], value: str) -> None:
        line, end = self.lines[place]
        self.lines[place] = line[: span[0]] + value + line[span[1] :], end

    def append(self, line: str) -> None:
        """Behind the last one, with an end as the first one has it."""
        last, end = self.lines.pop()[0], self.lines[0][1] if self.lines else "\n"
        self.lines += [*([(last, end)] if last else []), (line, end), ("", "")]

    def keep_highest(self, number: int) -> None:
        for place, (line, _) in enumerate(self.lines):
            found = HIGHEST.match(line)
            if found:
                self.put(place, found.span(1), str(max(number, int(found[1]))))
                return
        self.append(COMMENT.format(number))
