"""Bad input: each gets a refusal by name, nothing is changed by it, and the gateway goes on answering."""

from __future__ import annotations

import gzip
import json
import os
import socket
import time
from collections.abc import Iterator

from behind import ALICE, BOB, Gateway, Site, has, want
from serving import Wrong

BOMB = '<!DOCTYPE osmChange [<!ENTITY a "ha"><!ENTITY b "&a;&a;&a;&a;&a;&a;&a;&a;">]>'
FILE = '<!DOCTYPE osm [<!ENTITY f SYSTEM "file:///etc/passwd">]>'
MOST = 64  # megabytes that the gateway may take for a document however long


def megabytes(gateway: Gateway, which: str = "VmHWM") -> float:
    with open(f"/proc/{gateway.process.pid}/status") as file:
        return next(int(line.split()[1]) for line in file if line.startswith(which)) / 1024


def change(body: str) -> str:
    return f"<osmChange><create>{body}</create></osmChange>"


def documents(changeset: int) -> Iterator[tuple[str, str, int, str]]:
    """Names, documents, and the refusal of each."""
    node = f'<node id="-1" changeset="{changeset}" lat="1" lon="1"'
    yield "nothing", "", 400, "no element found"
    yield "a text", "no xml at all", 400, "Cannot parse"
    yield "broken", "<osmChange><create>", 400, "Cannot parse"
    yield "tags that cross", "<osmChange><create></osmChange></create>", 400, "mismatched tag"
    yield "two roots", "<osmChange/><osmChange/>", 400, "junk after"
    yield "an unknown entity", change(f'{node}><tag k="a" v="&b;"/></node>'), 400, "undefined entity"
    yield "entities in entities", f'{BOMB}{change(node + "/>")}', 400, "DOCTYPE"
    yield "a file", f"{FILE}<osm>&f;</osm>", 400, "DOCTYPE"
    yield "a DOCTYPE alone", "<!DOCTYPE osm SYSTEM 'http://127.0.0.1:1/x'><osmChange/>", 400, "DOCTYPE"
    yield "the wrong root", "<osm><create/></osm>", 400, "Document element should be 'osmChange'."
    yield "an unknown action", "<osmChange><destroy/></osmChange>", 400, "Unknown action destroy, choices are create, modify, delete"
    yield "an unknown element", change("<area id='1'/>"), 400, "Unknown element type area"
    yield "an encoding that nobody knows", "<?xml version='1.0' encoding='x-no'?><osmChange/>", 400, "encoding"
    yield "deep", "<osmChange>" * 2000, 400, "Unknown action"
    yield "deep within a node", change(f"{node}>{'<a>' * 2000}"), 400, "too deep"
    yield "no id", change(f'<node changeset="{changeset}" lat="1" lon="1"/>'), 400, "id is missing"
    yield "no changeset", change('<node id="-1" lat="1" lon="1"/>'), 400, "Changeset id is missing"
    yield "no version", f'<osmChange><modify>{node.replace("-1", "1", 1)}/></modify></osmChange>', 400, "Version is required when updating"
    yield "an id that is none", change(f'<node id="1e3" changeset="{changeset}" lat="1" lon="1"/>'), 400, "id is not a number"
    yield "an id beyond numbers", change(f'<node id="-9223372036854775809" changeset="{changeset}" lat="1" lon="1"/>'), 400, "id is not a number"
    yield "a positive placeholder", change(f'<node id="1" changeset="{changeset}" lat="1" lon="1"/>'), 400, "isn't negative"
    yield "no place", change(f'<node id="-1" changeset="{changeset}" lon="1"/>'), 400, "lat missing"
    yield "a place beyond the globe", change(f'<node id="-1" changeset="{changeset}" lat="91" lon="1"/>'), 400, "outside this world"
    yield "a place beyond all", change(f'<node id="-1" changeset="{changeset}" lat="1e300" lon="1"/>'), 400, "outside this world"
    yield "a key twice", change(f'{node}><tag k="a" v="1"/><tag k="a" v="2"/></node>'), 400, "has duplicate tags with key a"
    yield "a tag without a value", change(f'{node}><tag k="a"/></node>'), 400, "tag is missing value"
    yield "a long value", change(f'{node}><tag k="a" v="{"é" * 256}"/></node>'), 400, "Value has more than 255 unicode characters"
    yield "an empty key", change(f'{node}><tag k="" v="x"/></node>'), 400, "Key has less than one"
    yield "a way of nothing", change(f'<way id="-1" changeset="{changeset}"/>'), 400, "must have at least one node"
    yield "a member of no kind", change(f'<relation id="-1" changeset="{changeset}"><member type="area" ref="1"/></relation>'), 400, "not allowed"
    yield "another changeset", change(f'<node id="-1" changeset="{changeset + 1}" lat="1" lon="1"/>'), 409, "Changeset mismatch: Provided"
    yield "a placeholder twice", change(f"{node}/>{node}/>"), 400, "must be unique"
    yield from json_documents()


def json_documents() -> Iterator[tuple[str, str, int, str]]:
    yield "JSON that is cut off", '{"osmChange":[{"create":[', 400, "JSON"
    yield "JSON without a change", "{}", 400, "osmChange"
    yield "JSON with a text for a place", json.dumps({"osmChange": [{"create": [{"type": "node", "id": -1, "lat": "1", "lon": 1}]}]}), 400, "lat not a number"
    yield "JSON with half a pair", '{"osmChange":[{"create":[{"type":"node","id":-1,"lat":1,"lon":1,"tags":{"a":"\\ud800"}}]}]}', 400, "Unicode"
    yield "JSON that is deep", '{"osmChange":' + "[" * 100_000, 400, "deep"
    yield "JSON with a long number", '{"osmChange":[{"create":[{"type":"node","id":' + "1" * 10_000 + "}]}]}", 400, "JSON"


def refusals(gateway: Gateway, changeset: int) -> int:
    count = 0
    for count, (name, body, status, text) in enumerate(documents(changeset), 1):
        came = gateway.api("POST", f"changeset/{changeset}/upload", body, ALICE)
        want(came.status, status, f"{name}: {came.text[:300]}")
        has(came.text, text, name)
        has(came.fields["Error"] or "", text.replace("é", "?"), f"{name}, in the field Error")
    one = '<node changeset="1" lat="1" lon="1"/>'
    several = f"<osm>{one}{one}</osm>"
    came = gateway.api("PUT", "node/create", several, ALICE)
    want((came.status, "more than one" in came.text), (400, True), "several nodes for one")
    return count + 1


def foreign(gateway: Gateway, changeset: int) -> None:
    body = change(f'<node id="-1" changeset="{changeset}" lat="1" lon="1"/>')
    came = gateway.api("POST", f"changeset/{changeset}/upload", body, BOB)
    want((came.status, came.text), (409, "The user doesn't own that changeset"), "a changeset of somebody else")
    for host in ("evil.example", "evil.example:80", "127.0.0.1.evil.example", "user@127.0.0.1", "", "[::1"):
        came = gateway.api("GET", "capabilities", Host=host)
        want((came.status, "This host isn't" in came.text), (421, True), f"the host {host}")
    for host in ("localhost", "LOCALHOST:1", "[::1]:80"):
        want(gateway.api("GET", "capabilities", Host=host).status, 200, f"the host {host}")


def raw(gateway: Gateway, sent: Iterator[bytes], wait: float = 60) -> bytes:
    """What comes for bytes, sent as far as somebody reads them."""
    with socket.create_connection(("127.0.0.1", gateway.port), wait) as link:
        try:
            for part in sent:
                link.sendall(part)
        except OSError:
            pass
        try:
            return link.recv(1 << 16)
        except OSError:
            return b""


def long_ones(gateway: Gateway, changeset: int) -> None:
    """Documents of 100 MB, told and untold, packed and not; none of them costs more than the gateway may take."""
    head = f"POST /api/0.6/changeset/{changeset}/upload HTTP/1.1\r\nHost: localhost\r\nAuthorization: {ALICE}\r\n".encode()
    before = megabytes(gateway)

    def told() -> Iterator[bytes]:
        yield head + b"Content-Length: 104857600\r\n\r\n"
        for _ in range(100):
            yield b" " * (1 << 20)

    def untold() -> Iterator[bytes]:
        yield head + b"Transfer-Encoding: chunked\r\n\r\n"
        for _ in range(100):
            yield b"100000\r\n" + b" " * (1 << 20) + b"\r\n"
        yield b"0\r\n\r\n"

    for name, sent in (("told", told()), ("untold", untold())):
        came = raw(gateway, sent)
        has(came.decode("latin-1"), " 413 ", f"a document of 100 MB, {name}")
    bomb = gzip.compress(b"<osmChange>" + b" " * 100_000_000, 9)
    came_of = gateway.api("POST", f"changeset/{changeset}/upload", bomb, ALICE, Content_Encoding="gzip")
    want((came_of.status, len(bomb) < 200_000), (413, True), "100 MB in gzip")
    wide = f'<osmChange><create><node id="-1" lat="{"1" * 60_000_000}'
    start = time.monotonic()
    came_of = gateway.api("POST", f"changeset/{changeset}/upload", wide, ALICE)
    want((came_of.status, "A tag has more than" in came_of.text), (400, True), f"a tag of 60 MB: {came_of.text[:200]}")
    if time.monotonic() - start > 60:
        raise Wrong("a tag of 60 MB takes more than a minute")
    item = '{"osmChange":[{"create":[{"type":"node","id":-1,"lat":1,"lon":1,"tags":{"a":"' + "x" * 30_000_000 + '"}}]}]}'
    came_of = gateway.api("POST", f"changeset/{changeset}/upload", item, ALICE)
    want((came_of.status, "more than" in came_of.text), (400, True), f"a JSON value of 30 MB: {came_of.text[:200]}")
    if megabytes(gateway) - before > MOST:
        raise Wrong(f"the gateway took {megabytes(gateway) - before:.0f} MB more")


def messages(gateway: Gateway) -> None:
    """Bytes that are no request of HTTP."""
    for sent in (b"\0" * 1000, b"GET\r\n\r\n", b"GET / HTTP/9.9\r\n\r\n", b"GET /" + b"a" * 100_000 + b" HTTP/1.1\r\nHost: localhost\r\n\r\n",
                 b"GET / HTTP/1.1\r\nHost: localhost\r\nContent-Length: x\r\n\r\n", b"GET / HTTP/1.1\r\n\r\n",
                 b"GET / HTTP/1.1\r\nHost: localhost\r\nX: " + b"a" * 100_000 + b"\r\n\r\n"):  # fmt: skip
        came = raw(gateway, iter([sent]), 20)
        if not came.startswith((b"HTTP/1.1 4", b"HTTP/1.0 4", b"HTTP/9.9 4")):
            raise Wrong(f"{sent[:40]!r} is answered with {came[:200]!r}")
    for path in ("/page/../run", "/page/%2e%2e/run", "/page/..%2frun", "/leaflet/../../../etc/passwd", "/page/", "/leaflet/"):
        came_of = gateway.ask("GET", path)
        want(came_of.status in (403, 404), True, f"{path}: {came_of.status}")


def pipelined(gateway: Gateway) -> None:
    """A reader that goes away in the middle of a long reply, and one that asks for everything at once."""
    ask = b"GET /api/0.6/capabilities HTTP/1.1\r\nHost: localhost\r\n\r\n"
    with socket.create_connection(("127.0.0.1", gateway.port), 60) as link:
        link.sendall(ask * 200)
        held = b""
        while held.count(b"HTTP/1.1 200") < 200:
            part = link.recv(1 << 16)
            if not part:
                raise Wrong("a link with many requests at once ended early")
            held += part


def run(program: str) -> str:
    with Site(program) as gateway:
        changeset = gateway.changeset()
        count = refusals(gateway, changeset)
        foreign(gateway, changeset)
        messages(gateway)
        pipelined(gateway)
        long_ones(gateway, changeset)
        state = json.loads(gateway.well("GET", "replication/state"))["sequenceNumber"]
        want(state, 1, "accepted changes: that of the changeset alone")
        taken = megabytes(gateway)
    return f"{count} documents, hosts, messages and 100 MB are refused by name; the gateway took {taken:.0f} MB at most ({os.cpu_count()} processors)"
