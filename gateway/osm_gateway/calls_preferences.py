"""Preferences of a user, kept in the gateway's own file: all of them, or one by its key."""

from __future__ import annotations

import json
from typing import Any

from aiohttp import web

from . import json_write, xml_write
from .call import Call
from .refusals import Refused
from .xml_elements import Attributes
from .xml_read import Reader

MOST, LONGEST = 150, 255
"""Preferences of a user, and characters of a key or a value, as on OSM's server."""
BODY = 1 << 20


class PreferencesReader(Reader):
    """The `<preference k= v=/>` of an osm document."""

    def __init__(self) -> None:
        super().__init__("preferences")
        self.rows: dict[str, str] = {}

    def opened(self, name: str, attributes: Attributes) -> None:
        if len(self.path) == 1 and name != "osm":
            raise self.refuse("Document element should be 'osm'.")
        if self.path == ["osm", "preferences", "preference"]:
            if "k" not in attributes or "v" not in attributes:
                raise self.refuse("A preference has k and v")
            if attributes["k"] in self.rows:
                raise Refused(400, f"Duplicate preferences with key {attributes['k'][:LONGEST]}")
            self.rows[attributes["k"]] = attributes["v"]

    def closed(self, _: str) -> None:
        pass


def checked(key: str, value: str) -> tuple[str, str]:
    for name, text in (("key", key), ("value", value)):
        if len(text) > LONGEST or name == "key" and not text:
            raise Refused(
                400,
                f"The {name} of a preference has 1 to {LONGEST} characters"
                if name == "key"
                else f"The value of a preference has at most {LONGEST} characters",
            )
    return key, value


async def given(call: Call) -> dict[str, str]:
    """All preferences of a body, as XML or as `{"preferences":{..}}`."""
    text = (await call.body(BODY)).whole()
    if text.lstrip().startswith(b"{"):
        try:
            rows: Any = json.loads(text)["preferences"]
        except (ValueError, KeyError, TypeError, RecursionError):
            raise Refused(400, "Cannot parse the JSON of preferences") from None
        if not isinstance(rows, dict) or not all(isinstance(value, str) for value in rows.values()):
            raise Refused(400, "Preferences are an object of texts")
        return rows
    reader = PreferencesReader()
    for _ in reader.read(iter((text,))):
        pass
    return reader.rows


async def read_all(call: Call) -> web.StreamResponse:
    found = call.gateway.store.all("SELECT key, value FROM preferences WHERE user = ? ORDER BY key", call.user().id)
    rows = {str(key): str(value) for key, value in found}
    if call.wants_json:
        return call.answer(json_write.document(preferences=json_write.value_of(rows)))
    text = "".join(f"<preference{call.texts.attributes(k=key, v=value)}/>\n" for key, value in rows.items())
    return call.answer(f"{xml_write.opened('osm')}<preferences>\n{text}</preferences>\n{xml_write.closed('osm')}")


async def write_all(call: Call) -> web.StreamResponse:
    user, rows = call.user().id, [checked(*row) for row in (await given(call)).items()]
    if len(rows) > MOST:
        raise Refused(413, f"A user has at most {MOST} preferences, and these are {len(rows)}")
    changes = [("INSERT INTO preferences VALUES (?, ?, ?)", (user, *row)) for row in rows]
    call.gateway.store.do_all([("DELETE FROM preferences WHERE user = ?", (user,)), *changes])
    return call.text("")


# ---- one


def key_of(call: Call) -> str:
    return checked(call.request.match_info["key"], "")[0]


async def read(call: Call) -> web.StreamResponse:
    row = call.gateway.store.one("SELECT value FROM preferences WHERE user = ? AND key = ?", call.user().id, key_of(call))
    if row is None:
        raise Refused(404, "There is no such preference")
    return call.text(row[0])


async def write(call: Call) -> web.StreamResponse:
    user, store = call.user().id, call.gateway.store
    try:
        key, value = checked(key_of(call), (await call.body(BODY)).whole().decode("utf-8"))
    except UnicodeDecodeError:
        raise Refused(400, "The value is no UTF-8") from None
    there = store.one("SELECT count(*), count(iif(key = ?, 1, NULL)) FROM preferences WHERE user = ?", key, user) or (0, 0)
    if there[0] >= MOST and not there[1]:
        raise Refused(413, f"A user has at most {MOST} preferences")
    store.do("INSERT INTO preferences VALUES (?, ?, ?) ON CONFLICT (user, key) DO UPDATE SET value = excluded.value", user, key, value)
    return call.text("")


async def delete(call: Call) -> web.StreamResponse:
    if not call.gateway.store.do("DELETE FROM preferences WHERE user = ? AND key = ?", call.user().id, key_of(call)):
        raise Refused(404, "There is no such preference")
    return call.text("")
