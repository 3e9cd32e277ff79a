"""The words of the command line."""

from __future__ import annotations

import argparse
import re
from collections.abc import Callable
from dataclasses import dataclass
from typing import TypeVar
from urllib.parse import urlsplit

from .links import Address

USAGE = """gateway/run --server URL --users FILE [--notes URL] [--listen ADDRESS] [--host NAME].. [--public-url URL] [--data FILE] [--id FOLDER]
    [--rate N] [--guesses N] [--copyright TEXT] [--attribution URL] [--license URL] [--links N] [--room MB] [--processes N]
    [--mirrors URL,URL.. [--confirmed-by K [--confirm-seconds S]]] [--metrics ADDRESS] [--edit-users] [--quiet]"""


@dataclass(frozen=True)
class Words:
    server: Address
    notes: Address | None
    users: str
    host: str
    port: int
    hosts: frozenset[str]
    """What may stand in the field Host, port aside."""
    public: str | None
    """What stands before the paths of this host in links, without a slash at its end; None where the request says it."""
    links: int
    room: int
    """Megabytes."""
    quiet: bool
    data: str = ""
    id: str = ""
    rate: float | None = None
    """Requests a second of one address."""
    guesses: int = 20
    """Wrong tokens that an address may show at once."""
    licence: tuple[tuple[str, str], ...] = ()
    """Attributes of documents: `copyright`, `attribution`, `license`."""
    processes: int = 1
    mirrors: tuple[Address, ...] = ()
    metrics: tuple[str, int] | None = None
    """Where the counts are shown."""
    confirmed_by: int = 0
    """How many mirrors have a change before its answer is sent."""
    confirm_seconds: float = 30.0
    edit_users: bool = False
    """Whether moderators change the users text by a page."""


LICENCE = ("copyright", "attribution", "license")
Read = TypeVar("Read")


def listening(text: str) -> tuple[str, int]:
    host, _, port = text.rpartition(":")
    if not host or not port.isdigit() or int(port) > 65535:
        raise ValueError(f"{text} isn't HOST:PORT")
    return host.strip("[]"), int(port)


def public_of(url: str) -> tuple[str, str]:
    """What stands before the paths, and the name of the host."""
    parts = urlsplit(url)
    if parts.scheme not in ("http", "https") or not parts.hostname or parts.path not in ("", "/") or parts.query or parts.fragment:
        raise ValueError(f"{url} isn't http://HOST or https://HOST, with a port or without")
    return f"{parts.scheme}://{parts.netloc}", parts.hostname


def addresses_of(text: str) -> tuple[Address, ...]:
    return tuple(map(Address.of, text.split(",")))


def number(least: int, most: int) -> Callable[[str], int]:
    def read(text: str) -> int:
        if not text.isascii() or not text.isdigit() or not least <= int(text) <= most:
            raise ValueError(f"it takes a number from {least} to {most}")
        return int(text)

    return told(read)


def decimal(least: float, most: int) -> Callable[[str], float]:
    def read(text: str) -> float:
        value = float(text) if re.fullmatch(r"[0-9]+(\.[0-9]+)?", text) else 0.0
        if not least <= value <= most:
            raise ValueError(f"it takes a number from {least} to {most}")
        return value

    return told(read)


def told(read: Callable[[str], Read]) -> Callable[[str], Read]:
    """For argparse, which tells why a word can't be read where the error is one of its own."""

    def read_word(text: str) -> Read:
        try:
            return read(text)
        except ValueError as why:
            raise argparse.ArgumentTypeError(str(why)) from None

    return read_word


def parser_of() -> argparse.ArgumentParser:
    parser = argparse.ArgumentParser(
        prog="gateway/run", usage=USAGE, description="OSM's API 0.6 in XML and JSON of degrees, and a page, in front of a server."
    )
    add, address, place = parser.add_argument, told(Address.of), told(listening)
    add("--server", required=True, type=address, metavar="URL", help="the server of the map, as http://127.0.0.1:8080")
    add("--users", required=True, metavar="FILE", help="the users text of the server")
    add("--notes", type=address, metavar="URL", help="the server of notes; without it notes aren't served")
    add("--listen", default="127.0.0.1:8000", type=place, metavar="ADDRESS", help="where to listen, 127.0.0.1:8000 if not said")
    add("--host", action="append", default=[], metavar="NAME", help="a name by which clients know this host besides")
    add("--public-url", type=told(public_of), metavar="URL", help="what clients know this host by in links, as https://map.example")
    add("--room", type=number(1, 10**6), default=1024, metavar="MB", help="what all bodies may take together, 1024 MB if not said")
    add("--data", default="", metavar="FILE", help="where authorizations, preferences, discussions and blocks are kept; else in memory")
    add("--id", default="", metavar="FOLDER", help="a build of the editor iD, which is then served at /id")
    add("--rate", type=decimal(0.01, 10**6), metavar="N", help="requests a second that one address may ask, and sixty times as many at once")
    add("--guesses", type=number(1, 10**6), default=20, metavar="N", help="wrong tokens that an address may show at once, 20 if not said")
    for name in LICENCE:
        add(f"--{name}", metavar="TEXT", help=f"the attribute {name} of documents and of the capabilities")
    add("--links", type=number(1, 64), default=8, metavar="N", help="links to each server, at most its workers; 8 if not said")
    add("--processes", type=number(1, 64), default=1, metavar="N", help="processes at the address, 1 if not said; more need --data")
    add("--mirrors", type=told(addresses_of), default=(), metavar="URL,URL", help="mirrors of the server, which answer reads in its place")
    add("--confirmed-by", type=number(0, 64), default=0, metavar="K", help="answer a change only once so many mirrors have it")
    add("--confirm-seconds", type=decimal(0.1, 250), default=30.0, metavar="S", help="how long they have for it, 30 seconds if not said")
    add("--metrics", type=place, metavar="ADDRESS", help="where counts are shown to Prometheus, as 127.0.0.1:9100; else nowhere")
    add("--edit-users", action="store_true", help="moderators add, change and take out users by the page /users, which writes the users text")
    add("--quiet", action="store_true", help="no line for each request")
    return parser


def read_words(words: list[str] | None = None) -> Words:
    parser = parser_of()
    it = parser.parse_args(words)
    if len(set(it.mirrors)) < len(it.mirrors) or it.server in it.mirrors:
        parser.error("--mirrors takes each address once, and not that of --server")
    if it.confirmed_by > len(it.mirrors):
        parser.error("--confirmed-by takes a number up to that of the mirrors")
    if it.processes > 1 and not it.data:
        parser.error("--processes needs --data from 2 on")
    host, port = it.listen
    public, name = it.public_url or (None, host)
    hosts = frozenset({host.lower(), name.lower(), "localhost", "127.0.0.1", "::1", *(name.lower() for name in it.host)})
    licence = tuple((name, getattr(it, name)) for name in LICENCE if getattr(it, name))
    return Words(
        it.server, it.notes, it.users, host, port, hosts, public, it.links, it.room, it.quiet, it.data, it.id, it.rate, it.guesses, licence,
        it.processes, it.mirrors, it.metrics, it.confirmed_by, it.confirm_seconds, it.edit_users,
    )  # fmt: skip
