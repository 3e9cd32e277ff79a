"""A client of the map server on the standard library alone: what the scripts for people share."""

from __future__ import annotations

import http.client
import json
import urllib.parse
from typing import Any

KINDS = ("node", "way", "relation")
Key = tuple[str, int]
Element = dict[str, Any]


class Refused(Exception):
    """The server refused a request and changed nothing; `why` is the body that docs/API.md tells of."""

    def __init__(self, status: int, why: dict[str, Any]) -> None:
        more = ", ".join(f"{name} {value}" for name, value in why.items() if name != "error")
        super().__init__(f"{status} {why['error']}" + (f" ({more})" if more else ""))
        self.status, self.why, self.error = status, why, str(why["error"])


class Lost(Exception):
    """No whole reply came, so it isn't known whether the request was done."""


class Client:
    """One link to the server as one user. Where the server ended it, it is made anew for the next request."""

    def __init__(self, server: str, token: str = "", wait: float = 300) -> None:
        url = urllib.parse.urlsplit(server)
        make = http.client.HTTPSConnection if url.scheme == "https" else http.client.HTTPConnection
        self.link = make(url.netloc, timeout=wait)
        self.fields = {"Authorization": f"Bearer {token}"} if token else {}

    def ask(self, method: str, path: str, body: Any = None) -> Any:
        """The body of the reply. A read whose link was ended meanwhile is sent once more, a change never."""
        try:
            return self.send(method, path, body)
        except Lost:
            if method != "GET":
                raise
            return self.send(method, path, body)

    def send(self, method: str, path: str, body: Any) -> Any:
        data = None if body is None else json.dumps(body, ensure_ascii=False, separators=(",", ":")).encode()
        fields = self.fields if data is None else {**self.fields, "Content-Type": "application/json"}
        try:
            self.link.request(method, f"/api/0.6/{path}", data, fields)
            reply = self.link.getresponse()
            read = json.loads(reply.read())
        except (OSError, http.client.HTTPException) as why:
            self.close()
            raise Lost(f"{method} {path}: {why!r}") from why
        if reply.status != 200:
            raise Refused(reply.status, read)
        return read

    def close(self) -> None:
        self.link.close()


def key(element: Element) -> Key:
    return element["type"], element["id"]


def references(element: Element) -> list[Key]:
    """What a way or a relation lists, in its order."""
    if element["type"] == "way":
        return [("node", number) for number in element.get("nodes", ())]
    return [(member["type"], member["ref"]) for member in element.get("members", ())]
