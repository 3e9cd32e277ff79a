"""What the tests share: a server, one of notes, the gateway in front of them, and requests to it."""

from __future__ import annotations

import base64
import contextlib
import http.client
import os
import subprocess
import sys
import tempfile
from collections.abc import Callable
from dataclasses import dataclass, field
from types import TracebackType
from typing import Any

HERE = os.path.dirname(os.path.abspath(__file__))
TOP = os.path.dirname(os.path.dirname(HERE))
sys.path += [os.path.join(TOP, "examples"), os.path.join(TOP, "gateway")]

from serving import Server, Unanswered, Wrong, free_port, wait_for_answer  # noqa: E402

USERS = "1 alicetoken user alice\n2 bobtoken moderator bob\n3 utoken user Ünï Cödé\n"
RUN = os.path.join(TOP, "gateway", "run")


def want(found: object, wanted: object, what: str) -> None:
    if found != wanted:
        raise Wrong(f"{what}: wanted {str(wanted)[:600]}, found {str(found)[:600]}")


def has(found: str, wanted: str, what: str) -> None:
    if wanted not in found:
        raise Wrong(f"{what}: {wanted!r} isn't in {found[:600]!r}")


@dataclass
class Came:
    status: int
    fields: http.client.HTTPMessage
    body: bytes

    @property
    def text(self) -> str:
        return self.body.decode("utf-8")


def basic(name: str, token: str) -> str:
    return "Basic " + base64.b64encode(f"{name}:{token}".encode()).decode()


ALICE, BOB = basic("alice", "alicetoken"), basic("bob", "bobtoken")


def ask(port: int, method: str, path: str, body: str | bytes | None = None, who: str = "", **fields: str) -> Came:
    """A request on a link of its own; `fields` have underscores for hyphens."""
    link = http.client.HTTPConnection("127.0.0.1", port, timeout=120)
    named = {name.replace("_", "-"): value for name, value in fields.items()}
    if who:
        named["Authorization"] = who
    try:
        link.request(method, path, body.encode() if isinstance(body, str) else body, named)
        reply = link.getresponse()
        return Came(reply.status, reply.headers, reply.read())
    finally:
        link.close()


@dataclass
class Gateway:
    """The gateway on a free port, in front of a server on that one, until the end of a `with`."""

    server: int
    notes: int = 0
    more: tuple[str, ...] = ()
    users: str = USERS
    port: int = field(default_factory=free_port)

    def __enter__(self) -> Gateway:
        self.folder = tempfile.TemporaryDirectory()
        users, self.told = os.path.join(self.folder.name, "users.txt"), os.path.join(self.folder.name, "told")
        with open(users, "w", encoding="utf-8") as file:
            file.write(self.users)
        words = [RUN, "--server", f"http://127.0.0.1:{self.server}", "--users", users, "--listen", f"127.0.0.1:{self.port}", *self.more]
        words += ["--notes", f"http://127.0.0.1:{self.notes}"] if self.notes else []
        self.log = os.path.join(self.folder.name, "log")
        with open(self.told, "w") as told, open(self.log, "w") as log:
            self.process = subprocess.Popen(words, stdout=log, stderr=told, stdin=subprocess.DEVNULL)
        try:
            wait_for_answer("the gateway", self.process, self.has_begun, 120)
        except Unanswered as why:
            raise Wrong(f"{why}: {self.lines()}") from None
        return self

    def has_begun(self) -> bool:
        """Whether it answers, and each of its processes has told that it takes links at all its addresses: the first one that does so isn't all of it."""
        processes = int(self.more[self.more.index("--processes") + 1]) if "--processes" in self.more else 1
        return sum(" in front of " in line for line in self.lines()) >= processes and self.answers()

    def answers(self) -> bool:
        try:
            return self.ask("GET", "/api/versions").status == 200
        except OSError:
            return False

    def __exit__(self, kind: type[BaseException] | None, why: BaseException | None, trace: TracebackType | None) -> None:
        if self.process.poll() is None:
            self.process.terminate()
        status = self.process.wait(30)
        lines = self.lines()
        self.folder.cleanup()
        if kind is None and (status != 0 or any("Traceback" in line or "Error handling" in line for line in lines)):
            raise Wrong(f"the gateway ended with status {status}: {lines[-40:]}")

    def lines(self) -> list[str]:
        """What it told on its standard error."""
        with open(self.told, encoding="utf-8") as file:
            return file.read().splitlines()

    def ask(self, method: str, path: str, body: str | bytes | None = None, who: str = "", **fields: str) -> Came:
        return ask(self.port, method, path, body, who, **fields)

    def api(self, method: str, path: str, body: str | bytes | None = None, who: str = "", **fields: str) -> Came:
        return self.ask(method, f"/api/0.6/{path}", body, who, **fields)

    def well(self, method: str, path: str, body: str | bytes | None = None, who: str = "", **fields: str) -> str:
        """The text of a reply that has to be one of success."""
        came = self.api(method, path, body, who, **fields)
        if came.status != 200:
            raise Wrong(f"{method} {path}: {came.status} {came.text[:600]}")
        return came.text

    def changeset(self, who: str = ALICE, comment: str = "a test") -> int:
        return int(self.well("PUT", "changeset/create", f'<osm><changeset><tag k="comment" v="{comment}"/></changeset></osm>', who))


def refuses_to_start(gateway: Gateway, text: str) -> None:
    """It ends by itself with a status that isn't 0, and says so."""
    try:
        gateway.__enter__()
    except Wrong as why:
        has(str(why), text, "why the gateway didn't start")
        want(gateway.process.wait(10) != 0, True, "its status")
    else:
        raise Wrong(f"the gateway starts where it should tell {text!r}")


class Site:
    """A server of the map, one of notes where it is wanted, and the gateway in front of them, until the end of a `with`.

    `between` makes what stands between the gateway and each server, of the server's port.
    """

    def __init__(self, program: str, notes: bool = False, more: tuple[str, ...] = (), between: Callable[[int], Any] | None = None) -> None:
        self.stack, self.words, self.between = contextlib.ExitStack(), (program, notes, more), between

    def __enter__(self) -> Gateway:
        program, notes, more = self.words
        with contextlib.ExitStack() as stack:
            ports = []
            for command in ("serve", "serve-notes")[: 2 if notes else 1]:
                port = stack.enter_context(Server(program, 8, USERS, command=(command,))).port
                ports.append(stack.enter_context(self.between(port)).port if self.between else port)
            gateway = stack.enter_context(Gateway(ports[0], ports[1] if notes else 0, more))
            self.stack = stack.pop_all()
        return gateway

    def __exit__(self, *why: Any) -> None:
        self.stack.__exit__(*why)
