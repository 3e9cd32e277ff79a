"""Calls that no tool of the other parts makes, and what stands around each call: who may, forms, coding, fields."""

from __future__ import annotations

import gzip
import json
import time
import xml.etree.ElementTree as ET
import zlib

from behind import ALICE, BOB, Gateway, Site, basic, has, want

NODE = '<osm><node changeset="{}" lat="{}" lon="{}"><tag k="natural" v="tree"/></node></osm>'


def refused(gateway: Gateway, status: int, text: str, method: str, path: str, body: str | bytes | None = None, who: str = "", **fields: str) -> None:
    came = gateway.api(method, path, body, who, **fields)
    want((came.status, came.fields["Error"]), (status, came.text.strip()), f"{method} {path}, whose text is {came.text[:300]}")
    has(came.text, text, f"{method} {path}")


def about(gateway: Gateway) -> None:
    want([it.text for it in ET.fromstring(gateway.ask("GET", "/api/versions").body).iter("version")], ["0.6"], "versions")
    want(json.loads(gateway.ask("GET", "/api/versions.json").body)["api"], {"versions": ["0.6"]}, "versions")
    found = ET.fromstring(gateway.well("GET", "capabilities"))
    rows = {it.tag: it.attrib for it in found.find("api") or ()}
    want(rows["version"], {"minimum": "0.6", "maximum": "0.6"}, "version")
    want((rows["area"], rows["waynodes"], rows["relationmembers"]), ({"maximum": "0.25"}, {"maximum": "2000"}, {"maximum": "32000"}), "limits")
    want((rows["changesets"]["maximum_elements"], rows["status"]["api"]), ("10000", "online"), "capabilities")
    for path in ("/api/capabilities", "/api/0.6/capabilities.json", "/api/capabilities.json"):
        want(gateway.ask("GET", path).status, 200, path)

    def allowed(who: str) -> list[str]:
        return [it.attrib["name"] for it in ET.fromstring(gateway.well("GET", "permissions", who=who)).iter("permission")]

    want(allowed(""), [], "permissions of nobody")
    want("allow_write_api" in allowed(ALICE) and "allow_write_notes" in allowed(ALICE), True, "permissions of a user")
    want("allow_write_redactions" in allowed(BOB) and "allow_write_redactions" not in allowed(ALICE), True, "permissions of a moderator")


def users(gateway: Gateway) -> None:
    found = ET.fromstring(gateway.well("GET", "user/details", who=BOB))[0]
    want((found.attrib["id"], found.attrib["display_name"], found.find("roles/moderator") is not None), ("2", "bob", True), "user/details")
    named = basic("Ünï Cödé", "utoken")
    want(json.loads(gateway.well("GET", "user/details.json", who=named))["user"]["display_name"], "Ünï Cödé", "a name by Basic")
    want(ET.fromstring(gateway.well("GET", "user/1"))[0].attrib["display_name"], "alice", "user/1")
    want([it.attrib["id"] for it in ET.fromstring(gateway.well("GET", "users?users=3,1,9"))], ["1", "3"], "users")
    refused(gateway, 401, "authenticate", "GET", "user/details")
    refused(gateway, 401, "authenticate", "GET", "user/details", who=basic("bob", "alicetoken"))
    refused(gateway, 401, "authenticate", "GET", "user/details", who="Bearer nobodys")
    refused(gateway, 401, "authenticate", "GET", "user/details", who="Digest x")
    refused(gateway, 401, "authenticate", "GET", "user/details", who="Basic !!!")
    refused(gateway, 404, "no user", "GET", "user/99")
    has(gateway.api("GET", "user/details").fields["WWW-Authenticate"], "Basic realm=", "a challenge")


def changesets(gateway: Gateway) -> None:
    first, second = gateway.changeset(), gateway.changeset(BOB)
    alone = gateway.well("PUT", "changeset/create", '{"changeset":{"tags":{"a":"b"}}}', ALICE, Content_Type="application/json")
    bare = gateway.well("POST", "changesets", "", ALICE)
    gateway.well("PUT", f"changeset/{second}/close", who=BOB)

    def ids(query: str) -> list[int]:
        found = [int(it.attrib["id"]) for it in ET.fromstring(gateway.well("GET", f"changesets?{query}"))]
        want([it["id"] for it in json.loads(gateway.well("GET", f"changesets.json?{query}"))["changesets"]], found, f"JSON of {query}")
        return found

    fourth, third = int(bare), int(alone)
    want(ids(""), [fourth, third, second, first], "changesets, the newest first")
    want((ids("user=2"), ids("display_name=bob"), ids("closed=true")), ([second],) * 3, "changesets of bob")
    want((ids("open=true&user=1"), ids("limit=2")), ([fourth, third, first], [fourth, third]), "open ones, and two")
    want(ids(f"changesets={first},{fourth},99"), [fourth, first], "changesets by ids")
    want(ids("time=2039-01-01T00:00:00Z"), [fourth, third, first], "those that aren't closed by then")
    want(ids("time=2000-01-01,2001-01-01"), [], "those of long ago")
    want((ids("from=2000-01-01"), ids("from=2000-01-01&to=2001-01-01")), ([fourth, third, second, first], []), "by their beginnings")
    want((ids("order=oldest&limit=2"), ids("order=oldest&from=2000-01-01&user=2")), ([first, second], [second]), "the oldest first")
    for query, status, text in (
        ("display_name=nobody", 404, "no user"), ("limit=0", 400, "between"), ("limit=x", 400, "between"), ("order=other", 400, "newest or oldest"),
        ("time=yesterday", 400, "time"), ("changesets=", 400, "search"), ("user=x", 400, "number"), ("bbox=1", 400, "bbox"),
        ("user=1&display_name=alice", 400, "not both"),
    ):  # fmt: skip
        refused(gateway, status, text, "GET", f"changesets?{query}")
    retagged = gateway.well("PUT", f"changeset/{first}", '<osm><changeset><tag k="c" v="&lt;é&gt;"/></changeset></osm>', ALICE)
    want(ET.fromstring(retagged)[0][0].attrib, {"k": "c", "v": "<é>"}, "new tags")
    want(ET.fromstring(gateway.well("GET", f"changeset/{first}?include_discussion=true"))[0].find("discussion") is not None, True, "a discussion")
    refused(gateway, 409, "The user doesn't own that changeset", "PUT", f"changeset/{first}/close", who=BOB)
    refused(gateway, 409, f"The changeset {second} was closed at 20", "PUT", f"changeset/{second}/close", who=BOB)
    refused(gateway, 404, "no changeset", "GET", "changeset/999")


def elements(gateway: Gateway) -> None:
    changeset = gateway.changeset()
    one = int(gateway.well("POST", "nodes", NODE.format(changeset, "48.14123456", "-0.00000005"), ALICE))
    two = int(gateway.well("PUT", "node/create", json.dumps({"changeset": changeset, "lat": 1, "lon": 2}), ALICE, Content_Type="application/json"))
    shown = json.loads(gateway.well("GET", f"node/{one}.json"), parse_float=str)["elements"][0]
    want((shown["lat"], shown["lon"]), ("48.1412346", "-0.0000001"), "a position of more than seven places, rounded")
    way = f'<osm><way changeset="{changeset}"><nd ref="{one}"/><nd ref="{two}"/></way></osm>'
    way_id = int(gateway.well("PUT", "way/create", way, ALICE))
    moved = f'<osm><node id="{one}" changeset="{changeset}" version="1" lat="48.2" lon="11"/></osm>'
    before = int(time.time())
    time.sleep(1.2)
    want(gateway.well("PUT", f"node/{one}", moved, ALICE), "2", "a new version")
    want(ET.fromstring(gateway.well("GET", f"node/{one}?at={before}"))[0].attrib["version"], "1", "a node as it was")
    many = ET.fromstring(gateway.well("GET", f"nodes?nodes={two},{one}v1"))
    want([(it.attrib["id"], it.attrib["version"]) for it in many], [(str(two), "1"), (str(one), "1")], "many with versions")
    refused(gateway, 409, f"Version mismatch: Provided 1, server had: 2 of Node {one}", "PUT", f"node/{one}", moved, ALICE)
    gone = f'<osm><node id="{one}" changeset="{changeset}" version="2" lat="48.2" lon="11"/></osm>'
    refused(gateway, 412, f"Precondition failed: Node {one} is still used by ways {way_id}.", "DELETE", f"node/{one}", gone, ALICE)
    lost = f'<osm><relation changeset="{changeset}"><member type="way" ref="99" role=""/></relation></osm>'
    refused(gateway, 412, "Precondition failed: Relation with id 0 cannot be saved due to Way with id 99", "PUT", "relation/create", lost, ALICE)
    lost = f'<osm><way changeset="{changeset}" id="-5"><nd ref="99"/></way></osm>'
    refused(gateway, 412, "requires the nodes with id in (99), which either do not exist, or are not visible.", "PUT", "way/create", lost, ALICE)
    lost = f'<osm><way changeset="{changeset}" id="-5"><nd ref="99"/><nd ref="{two}"/><nd ref="97"/><nd ref="99"/><nd ref="98"/></way></osm>'
    refused(gateway, 412, "requires the nodes with id in (97,98,99), which either do not exist", "PUT", "way/create", lost, ALICE)
    row = f'<osmChange><create><node id="-1" changeset="{changeset}" lat="1" lon="1"/>{lost[5:-6]}</create></osmChange>'
    refused(gateway, 412, "Way -5 requires the nodes with id in (97,98,99), which", "POST", f"changeset/{changeset}/upload", row, ALICE)
    want(gateway.well("DELETE", f"way/{way_id}", f'<osm><way id="{way_id}" changeset="{changeset}" version="1"/></osm>', ALICE), "2", "a deletion")
    refused(gateway, 410, f"The way with the id {way_id} has already been deleted", "GET", f"way/{way_id}")
    want(ET.fromstring(gateway.well("GET", f"ways?ways={way_id}"))[0].attrib["visible"], "false", "what is deleted, among many")
    refused(gateway, 400, "maximum bbox size is 0.25", "GET", "map?bbox=0,0,1,1")
    refused(gateway, 400, "bbox is required", "GET", "map")
    refused(gateway, 400, "nodes is required", "GET", "nodes?nodes=1,x")
    refused(gateway, 404, "no node with the id 99", "GET", "node/99")
    refused(gateway, 404, "no version 9", "GET", f"node/{two}/9")
    refused(gateway, 400, "outside this world", "PUT", "node/create", NODE.format(changeset, "90.00000005", "0"), ALICE)
    refused(gateway, 400, "lat not a number", "PUT", "node/create", NODE.format(changeset, "NaN", "0"), ALICE)
    want(int(gateway.well("PUT", "node/create", NODE.format(changeset, "90.00000004", "180"), ALICE)) > two, True, "the edge of the globe")
    for kind in ("node", "way", "relation"):
        refused(gateway, 401, "authenticate", "PUT", f"{kind}/create", "<osm/>")


def redactions(gateway: Gateway) -> None:
    changeset = gateway.changeset()
    one = int(gateway.well("PUT", "node/create", NODE.format(changeset, "1", "1"), ALICE))
    gateway.well("PUT", f"node/{one}", f'<osm><node id="{one}" changeset="{changeset}" version="1" lat="2" lon="2"/></osm>', ALICE)
    refused(gateway, 403, "moderator", "POST", "redactions", "title=private", ALICE)
    refused(gateway, 400, "title", "POST", "redactions", "", BOB)
    number = gateway.well("POST", "redactions", "title=private+things", BOB)
    gateway.well("POST", "redactions", '{"title":"others"}', BOB)
    want(gateway.well("POST", f"node/{one}/1/redact?redaction={number}", "", BOB), "", "a mark")
    refused(gateway, 403, "redacted", "GET", f"node/{one}/1")
    refused(gateway, 400, "Cannot redact current version", "POST", f"node/{one}/2/redact?redaction={number}", "", BOB)
    want(len(ET.fromstring(gateway.well("GET", f"node/{one}/history"))), 1, "a history without it")
    shown = ET.fromstring(gateway.well("GET", f"node/{one}/history?show_redactions=true", who=BOB))
    want([it.attrib.get("redaction") for it in shown], [number, None], "a moderator's history")
    state = json.loads(gateway.well("GET", "replication/state"))
    want(json.loads(gateway.well("GET", f"replication/{state['sequenceNumber']}", who=BOB))["number"], state["sequenceNumber"], "the feed")


def notes(gateway: Gateway) -> None:
    first = json.loads(gateway.well("POST", "notes.json", "lat=48.1&lon=11.5&text=one+%3C%26%3E%0Atwo"))
    want(first["geometry"], {"type": "Point", "coordinates": [11.5, 48.1]}, "the place of a note")
    want((first["type"], first["properties"]["comments"][0]["text"]), ("Feature", "one <&>\ntwo"), "a note")
    number = first["properties"]["id"]
    gateway.well("POST", f"notes/{number}/comment?text=more", who=ALICE)
    closed = ET.fromstring(gateway.well("POST", f"notes/{number}/close", "text=", ALICE))[0]
    want((closed.findtext("status"), closed.find("date_closed") is not None), ("closed", True), "a closed note")
    want([it.text for it in closed.iterfind("comments/comment/action")], ["opened", "commented", "closed"], "what was done")
    second = json.loads(gateway.well("POST", "notes.json", '{"lat":48.2,"lon":11.6000000,"text":"json"}'))["properties"]["id"]
    box = "bbox=11,48,12,49"

    def ids(query: str) -> list[int]:
        found = [int(it.findtext("id") or 0) for it in ET.fromstring(gateway.well("GET", f"notes?{query}"))]
        rows = json.loads(gateway.well("GET", f"notes.json?{query}"))["features"]
        want([it["properties"]["id"] for it in rows], found, f"JSON of {query}")
        return found

    want((ids(box), ids(f"{box}&closed=0"), ids(f"{box}&closed=-1"), ids(f"{box}&limit=1")),
         ([second, number], [second], [second, number], [second]), "notes of a box")  # fmt: skip
    refused(gateway, 409, f"The note {number} was closed at 20", "POST", f"notes/{number}/comment?text=x", "", ALICE)
    refused(gateway, 401, "authenticate", "POST", f"notes/{second}/comment?text=x", "")
    refused(gateway, 404, "no note", "GET", "notes/99")
    refused(gateway, 400, "No text", "POST", "notes?lat=1&lon=1", "")
    refused(gateway, 400, "lat was not a number", "POST", "notes?lat=x&lon=1&text=x", "")
    refused(gateway, 400, "bbox", "GET", "notes")
    gateway.well("POST", f"notes/{number}/reopen?text=again", "", BOB)


def unfit(gateway: Gateway) -> None:
    """Characters that no XML can hold: U+FFFD in XML, counted in a line; and as they are in JSON."""
    odd = {"a\u0000b": "\ufffe\u0001 &<"}
    row = {"changeset": gateway.changeset(), "lat": 3, "lon": 3, "tags": odd}
    number = gateway.well("PUT", "node/create", json.dumps(row), ALICE, Content_Type="application/json")
    want(json.loads(gateway.well("GET", f"node/{number}.json"))["elements"][0]["tags"], odd, "such characters in JSON")
    want(ET.fromstring(gateway.well("GET", f"node/{number}"))[0][0].attrib, {"k": "a\ufffdb", "v": "\ufffd\ufffd &<"}, "such characters in XML")
    line = f"gateway: 3 characters that XML can't hold are U+FFFD in the reply to GET /api/0.6/node/{number}"
    want([it for it in gateway.lines() if "U+FFFD" in it], [line], "what was told of them")


def coding(gateway: Gateway) -> None:
    """Bodies that are packed, replies that are, and fields."""
    changeset = gateway.changeset()
    body = NODE.format(changeset, "1", "1").encode()
    for name, packed in (("gzip", gzip.compress(body)), ("deflate", zlib.compress(body)), ("identity", body)):
        gateway.well("PUT", "node/create", packed, ALICE, Content_Encoding=name)
    refused(gateway, 415, "Content-Encoding", "PUT", "node/create", body, ALICE, Content_Encoding="br")
    refused(gateway, 400, "coding", "PUT", "node/create", gzip.compress(body)[:-9], ALICE, Content_Encoding="gzip")
    refused(gateway, 400, "coding", "PUT", "node/create", b"x" * 50, ALICE, Content_Encoding="gzip")
    for method, path, wanted in (("GET", "capabilities", 200), ("HEAD", "capabilities", 200), ("OPTIONS", "map", 204)):
        came = gateway.api(method, path, Origin="http://elsewhere.example")
        want((came.status, came.fields["Access-Control-Allow-Origin"]), (wanted, "*"), f"{method} {path} of another origin")
    want(gateway.api("OPTIONS", "map").fields["Allow"], "GET, HEAD, OPTIONS", "what may be done with a map")
    refused(gateway, 403, "Pages of other hosts", "PUT", "changeset/create", "", ALICE, Origin="http://elsewhere.example")
    gateway.well("PUT", "changeset/create", "", ALICE, Origin=f"http://127.0.0.1:{gateway.port}")
    head, whole = gateway.api("HEAD", "node/1"), gateway.api("GET", "node/1")
    want((head.status, head.body, head.fields["Content-Length"]), (200, b"", str(len(whole.body))), "HEAD")
    for accept, sort in (("application/json", "application/json"), ("*/*", "application/xml"), ("text/html,application/json;q=.9,*/*", "application/xml")):
        has(gateway.api("GET", "node/1", Accept=accept).fields["Content-Type"], sort, accept)
    has(gateway.api("GET", "node/1.xml", Accept="application/json").fields["Content-Type"], "application/xml", "an end of the path")
    refused(gateway, 405, "There is no DELETE here", "DELETE", "map", who=ALICE)
    refused(gateway, 404, "There is no /api/0.6/nothing", "GET", "nothing")
    refused(gateway, 404, "traces", "GET", "gpx/1/details", who=ALICE)


def log(gateway: Gateway) -> None:
    with open(gateway.log, encoding="utf-8") as file:
        lines = file.read().splitlines()
    shown = [line for line in lines if '"GET /api/versions HTTP/1.1" 200 ' in line]
    has(shown[0], "127.0.0.1 - - [", "a line of the log")
    has("\n".join(lines), '] "PUT /api/0.6/changeset/create HTTP/1.1" 200 1', "a line with a length")
    has("\n".join(lines), "127.0.0.1 - \\xc3\\x9cn\\xc3\\xaf_C\\xc3\\xb6d\\xc3\\xa9 [", "a line with a name")


def run(program: str) -> str:
    parts = (about, users, changesets, elements, redactions, notes, unfit, coding, log)
    with Site(program, notes=True) as gateway:
        for part in parts:
            part(gateway)
        with open(gateway.log, encoding="utf-8") as file:
            count = len(file.readlines())
    return f"{count} requests of versions, users, changesets, elements, redactions, notes, codings and the log"
