"""Notes that a moderator has hidden: the gateway's own file says which, since the server of notes has no such call."""

from __future__ import annotations

from collections.abc import Iterable, Iterator

from .call import Call
from .refusals import Refused
from .rows import Note
from .store import now


def is_hidden(call: Call, number: int) -> bool:
    return call.gateway.store.one("SELECT 1 FROM hidden_notes WHERE id = ?", number) is not None


def is_moderator(call: Call) -> bool:
    return call.caller.user is not None and call.caller.user.moderator


def refuse_hidden(call: Call, number: int) -> None:
    """As OSM's server refuses it to everybody but moderators."""
    if is_hidden(call, number) and not is_moderator(call):
        raise Refused(410, f"The note with the id {number} has already been deleted")


def shown(call: Call, notes: Iterable[Note | None]) -> Iterator[Note | None]:
    """The heads of notes with None in place of a hidden one, which a moderator sees as hidden."""
    for it in notes:
        if it is not None and is_hidden(call, it["id"]):
            it["status"] = "hidden"
            yield it if is_moderator(call) else None
        else:
            yield it


def hide(call: Call, number: int) -> None:
    call.gateway.store.do("INSERT OR IGNORE INTO hidden_notes VALUES (?, ?, ?)", number, call.user().id, now())


def show(call: Call, number: int) -> None:
    call.gateway.store.do("DELETE FROM hidden_notes WHERE id = ?", number)
