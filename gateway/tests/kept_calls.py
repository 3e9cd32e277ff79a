"""What the gateway keeps itself: preferences, discussions, hidden notes; notes beyond a hundred, searched, as feeds; licences, traces, rates."""

from __future__ import annotations

import json
import os
import tempfile
import xml.etree.ElementTree as ET

from behind import ALICE, BOB, Gateway, Site, has, want
from other_calls import refused

BOX = "bbox=11,48,12,49"


def preferences(gateway: Gateway) -> None:
    def shown(who: str = ALICE) -> dict[str, str]:
        found: dict[str, str] = json.loads(gateway.well("GET", "user/preferences.json", who=who))["preferences"]
        rows = ET.fromstring(gateway.well("GET", "user/preferences", who=who)).findall("preferences/preference")
        want({it.attrib["k"]: it.attrib["v"] for it in rows}, found, "preferences as XML and as JSON")
        return found

    want(shown(), {}, "none at first")
    gateway.well(
        "PUT", "user/preferences", '<osm><preferences><preference k="a.json" v="1 &lt;"/><preference k="ü" v=""/></preferences></osm>', ALICE
    )
    want((shown(), shown(BOB)), ({"a.json": "1 <", "ü": ""}, {}), "alice's, and bob's")
    want(gateway.well("GET", "user/preferences/a.json", who=ALICE), "1 <", "one, whose key ends as a form does")
    gateway.well("PUT", "user/preferences/c%2Fd%20e", "x\ny", ALICE)
    gateway.well("PUT", "user/preferences/a.json", "2", ALICE)
    want((shown(), gateway.well("GET", "user/preferences/c%2Fd%20e", who=ALICE)), ({"a.json": "2", "c/d e": "x\ny", "ü": ""}, "x\ny"), "one by one")
    gateway.well("DELETE", "user/preferences/a.json", who=ALICE)
    refused(gateway, 404, "no such preference", "DELETE", "user/preferences/a.json", who=ALICE)
    refused(gateway, 404, "no such preference", "GET", "user/preferences/a.json", who=ALICE)
    refused(
        gateway,
        400,
        "Duplicate",
        "PUT",
        "user/preferences",
        '<osm><preferences><preference k="a" v="1"/><preference k="a" v="2"/></preferences></osm>',
        ALICE,
    )
    refused(gateway, 400, "255", "PUT", "user/preferences/long", "x" * 256, ALICE)
    many = "".join(f'<preference k="{number}" v=""/>' for number in range(151))
    refused(gateway, 413, "150", "PUT", "user/preferences", f"<osm><preferences>{many}</preferences></osm>", ALICE)
    refused(gateway, 401, "authenticate", "PUT", "user/preferences/k", "x")
    want(shown(), {"c/d e": "x\ny", "ü": ""}, "what was refused changed nothing")
    gateway.well("PUT", "user/preferences.json", '{"preferences":{"j":"1"}}', ALICE)
    want(shown(), {"j": "1"}, "all at once, by JSON")


def counts(gateway: Gateway) -> None:
    before = json.loads(gateway.well("GET", "user/details.json", who=BOB))["user"]
    want(
        (before["display_name"], before["roles"], before["languages"], before["account_created"], before["changesets"]),
        ("bob", ["moderator"], ["en"], "1970-01-01T00:00:00Z", {"count": 0}), "details of bob",
    )  # fmt: skip
    for _ in range(3):
        gateway.changeset()
    found = ET.fromstring(gateway.well("GET", "user/details", who=ALICE))[0]
    here = found.find("changesets"), found.find("blocks/received"), found.find("messages/received")
    want(
        [it.attrib for it in here if it is not None],
        [{"count": "3"}, {"count": "0", "active": "0"}, {"count": "0", "unread": "0"}],
        "counts of alice",
    )
    want(found.findtext("languages/lang"), "en", "languages")
    want(
        [it["user"]["changesets"] for it in json.loads(gateway.well("GET", "users.json?users=1,2"))["users"]], [{"count": 3}, {"count": 0}], "of both"
    )


def discussions(gateway: Gateway) -> None:
    number = gateway.changeset()
    refused(gateway, 409, "not yet closed", "POST", f"changeset/{number}/comment", "text=x", ALICE)
    gateway.well("PUT", f"changeset/{number}/close", who=ALICE)
    refused(gateway, 401, "authenticate", "POST", f"changeset/{number}/comment", "text=x")
    refused(gateway, 400, "No text", "POST", f"changeset/{number}/comment", "", BOB)
    refused(gateway, 400, "2000", "POST", f"changeset/{number}/comment", "text=" + "x" * 2001, BOB)
    refused(gateway, 404, "no changeset", "POST", "changeset/999/comment", "text=x", BOB)
    answered = ET.fromstring(gateway.well("POST", f"changeset/{number}/comment", "text=why+%3C%26%3E%0A%C3%BC", BOB))[0]
    want((answered.attrib["id"], answered.attrib["comments_count"]), (str(number), "1"), "the changeset that was commented on")
    gateway.well("POST", f"changeset/{number}/comment?text=so", "", ALICE)
    said(gateway, number)
    follows(gateway, number)
    hidden_comments(gateway, number)
    items = ET.fromstring(gateway.ask("GET", "/history/comments/feed").body).findall("channel/item")
    want([it.findtext("description") for it in items], ["so", "why <&>\nü"], "the feed of all comments")
    has(items[0].findtext("link") or "", f"/changeset/{number}#c", "where it leads")
    want(len(ET.fromstring(gateway.ask("GET", f"/changeset/{number}/comments/feed").body).findall("channel/item")), 2, "the feed of one changeset")


def comments(gateway: Gateway, number: int, more: str = "", who: str = "") -> list[ET.Element]:
    return ET.fromstring(gateway.well("GET", f"changeset/{number}?include_discussion=true{more}", who=who)).findall("changeset/discussion/comment")


def said(gateway: Gateway, number: int) -> None:
    """The two comments as XML, as JSON, and as a count."""
    bare = ET.fromstring(gateway.well("GET", f"changeset/{number}"))[0]
    want((bare.attrib["comments_count"], bare.find("discussion")), ("2", None), "a changeset without its discussion")
    found = [(it.attrib["user"], it.attrib["uid"], it.findtext("text")) for it in comments(gateway, number)]
    want(found, [("bob", "2", "why <&>\nü"), ("alice", "1", "so")], "a discussion")
    rows = json.loads(gateway.well("GET", f"changeset/{number}.json?include_discussion=true"))["changeset"]["comments"]
    want([(it["user"], it["text"], it["visible"]) for it in rows], [("bob", "why <&>\nü", True), ("alice", "so", True)], "the same as JSON")
    listed = json.loads(gateway.well("GET", f"changesets.json?changesets={number}"))["changesets"]
    want([it["comments_count"] for it in listed], [2], "how many comments a list says")


def follows(gateway: Gateway, number: int) -> None:
    """Who comments follows; by the calls of before and by those of now."""
    refused(gateway, 409, "already subscribed", "POST", f"changeset/{number}/subscribe", "", BOB)
    gateway.well("POST", f"changeset/{number}/unsubscribe", "", BOB)
    refused(gateway, 404, "not subscribed", "POST", f"changeset/{number}/unsubscribe", "", BOB)
    gateway.well("POST", f"changeset/{number}/subscribe", "", BOB)
    refused(gateway, 409, "already subscribed", "POST", f"changeset/{number}/subscription", "", BOB)
    gateway.well("DELETE", f"changeset/{number}/subscription", "", BOB)
    refused(gateway, 404, "not subscribed", "DELETE", f"changeset/{number}/subscription", "", BOB)


def hidden_comments(gateway: Gateway, number: int) -> None:
    first = comments(gateway, number)[0].attrib["id"]
    refused(gateway, 403, "moderator", "POST", f"changeset/comment/{first}/hide", "", ALICE)
    gateway.well("POST", f"changeset/comment/{first}/hide", "", BOB)
    want(len(comments(gateway, number)), 1, "a hidden comment")
    shown = comments(gateway, number, "&show_hidden_comments=true", BOB)
    want([it.attrib["visible"] for it in shown], ["false", "true"], "what a moderator sees")
    gateway.well("POST", f"changeset/comment/{first}/unhide", "", BOB)


def note(gateway: Gateway, text: str, lat: str = "48.1", who: str = "") -> int:
    number: int = json.loads(gateway.well("POST", "notes.json", f"lat={lat}&lon=11.5&text={text}", who))["properties"]["id"]
    return number


def ids(gateway: Gateway, path: str, who: str = "") -> list[int]:
    return [it["properties"]["id"] for it in json.loads(gateway.well("GET", path, who=who))["features"]]


def notes(gateway: Gateway) -> None:
    bench, tree = note(gateway, "a+Bench+here"), note(gateway, "a+tree", who=ALICE)
    gateway.well("POST", f"notes/{bench}/close?text=", "", ALICE)
    gateway.well("POST", f"notes/{tree}/comment?text=no+bench", "", BOB)
    refused(gateway, 401, "authenticate", "POST", f"notes/{tree}/subscription", "")
    refused(gateway, 404, "no note", "POST", "notes/999/subscription", "", BOB)
    gateway.well("POST", f"notes/{tree}/subscription", "", BOB)
    refused(gateway, 409, "already subscribed", "POST", f"notes/{tree}/subscription", "", BOB)
    gateway.well("DELETE", f"notes/{tree}/subscription", "", BOB)
    refused(gateway, 404, "not subscribed", "DELETE", f"notes/{tree}/subscription", "", BOB)
    for query, found in (
        ("q=bench", {bench, tree}), ("q=bench+here", {bench}), ("q=bench&closed=0", {tree}), ("display_name=bob", {tree}), ("user=1", {bench, tree}),
        ("q=nothing", set()), ("q=a&from=2000-01-01&to=2001-01-01", set()), ("q=a&limit=1&sort=created_at", {tree}),
        ("q=a&limit=1&sort=created_at&order=oldest", {bench}), (f"q=tree&{BOX}", {tree}), ("q=tree&bbox=0,0,1,1", set()),
    ):  # fmt: skip
        want(set(ids(gateway, f"notes/search.json?{query}")), found, f"a search by {query}")
    refused(gateway, 404, "not known", "GET", "notes/search?display_name=nobody")
    refused(gateway, 400, "wrong format", "GET", "notes/search?from=yesterday")
    refused(gateway, 400, "newest or oldest", "GET", "notes/search?order=x")
    for path in (f"notes/feed?{BOX}", "notes/feed", f"notes.rss?{BOX}", f"notes/{tree}.rss"):
        items = ET.fromstring(gateway.well("GET", path)).findall("channel/item")
        has(items[0].findtext("description") or "", "alice opened it: a tree\n", path)
        want((len(items), (items[0].findtext("link") or "").endswith(f"/note/{tree}")), (1 if "/1" in path or f"/{tree}." in path else 2, True), path)
    places = ET.fromstring(gateway.well("GET", f"notes.gpx?{BOX}")).findall("{*}wpt")
    want(
        [(it.attrib["lat"], it.findtext("{*}name")) for it in places],
        [("48.1000000", f"Note: {tree}"), ("48.1000000", f"Note: {bench}")],
        "notes as GPX",
    )
    refused(gateway, 403, "moderator", "DELETE", f"notes/{tree}", "text=spam", ALICE)
    want(ET.fromstring(gateway.well("DELETE", f"notes/{tree}", "text=spam", BOB)).findtext("note/status"), "hidden", "a note that bob hides")
    refused(gateway, 410, "already been deleted", "GET", f"notes/{tree}")
    refused(gateway, 410, "already been deleted", "POST", f"notes/{tree}/comment?text=x", "", ALICE)
    want((ids(gateway, f"notes.json?{BOX}"), ids(gateway, f"notes.json?{BOX}", BOB)), ([bench], [tree, bench]), "who sees it in a box")
    want(ids(gateway, "notes/search.json?q=tree"), [], "who finds it")
    gateway.well("POST", f"notes/{tree}/reopen", "", BOB)
    want(json.loads(gateway.well("GET", f"notes/{tree}.json"))["properties"]["status"], "open", "a note that is shown again")


def many_notes(gateway: Gateway) -> None:
    made = [note(gateway, f"n{number}", f"{40 + number // 50 / 1e7:.7f}") for number in range(260)]
    box = "bbox=11,39,12,41"
    want(sorted(ids(gateway, f"notes.json?{box}")), made[160:], "the newest hundred of a box")
    found = ids(gateway, f"notes.json?{box}&limit=10000")
    want(sorted(found), made, "all notes of a box, of which fifty at a time have one place")
    spread = [note(gateway, f"s{number}", f"{30 + number / 100}") for number in range(230)]
    want(sorted(ids(gateway, "notes.json?bbox=11,29,12,33&limit=10000")), spread, "all notes of a box that has more than a hundred")
    want(len(ids(gateway, "notes.json?bbox=11,29,12,33&limit=150")), 150, "as many as are asked for")
    want(ids(gateway, "notes/search.json?q=n7&limit=1"), [made[79]], "a note far back, the newest that has it")


def traces(gateway: Gateway) -> None:
    came = gateway.api("GET", "trackpoints?bbox=0,0,0.1,0.1&page=0")
    want(
        (came.status, ET.fromstring(came.body).tag, len(ET.fromstring(came.body))), (200, "{http://www.topografix.com/GPX/1/0}gpx", 0), "an empty GPX"
    )
    refused(gateway, 400, "bbox", "GET", "trackpoints?page=0")
    refused(gateway, 400, "Page number", "GET", "trackpoints?bbox=0,0,1,1&page=-1")


def licences(server: int) -> None:
    words = (
        "--copyright",
        'We & "you"',
        "--attribution",
        "https://map.example/copyright",
        "--license",
        "https://opendatacommons.org/licenses/odbl/1-0/",
    )
    with Gateway(server, more=(*words, "--public-url", "https://map.example")) as gateway:
        wanted = {"copyright": words[1], "attribution": words[3], "license": words[5]}
        for path in ("capabilities", "map?bbox=0,0,0.1,0.1", "changesets"):
            end = path.replace("?", ".json?") if "?" in path else f"{path}.json"
            found = ET.fromstring(gateway.well("GET", path)).attrib
            want({name: found.get(name) for name in wanted}, wanted, f"a licence in {path}")
            found = json.loads(gateway.well("GET", end))
            want({name: found.get(name) for name in wanted}, wanted, f"a licence in {end}")
        came = gateway.ask("GET", "/.well-known/oauth-authorization-server", Host="map.example")
        want(json.loads(came.text)["issuer"], "https://map.example", "a public address")
        want(json.loads(gateway.well("GET", "capabilities.json"))["api"]["tracepoints"], {"per_page": 5000}, "tracepoints")


def rates(server: int) -> None:
    """An address has sixty requests at once and one a second; large replies count more; others aren't held up."""
    with Gateway(server, more=("--rate", "1")) as gateway:
        ends = [gateway.api("GET", "capabilities", X_Forwarded_For="1.1.1.1").status for _ in range(70)]
        want((ends[:55], ends[-1]), ([200] * 55, 429), "seventy at once")
        came = gateway.api("GET", "capabilities", X_Forwarded_For="1.1.1.1")
        want((came.status, came.fields["Retry-After"]), (429, "1"), came.text)
        want(gateway.api("GET", "capabilities", X_Forwarded_For="2.2.2.2").status, 200, "another address")


def kept(server: int) -> None:
    with tempfile.TemporaryDirectory() as folder:
        path = os.path.join(folder, "own")
        with Gateway(server, more=("--data", path)) as gateway:
            gateway.well("PUT", "user/preferences/k", "v", ALICE)
            gateway.well("POST", "changeset/1/comment?text=kept", "", BOB)
        with Gateway(server, more=("--data", path)) as gateway, Gateway(server, more=("--data", path)) as other:
            want(gateway.well("GET", "user/preferences/k", who=ALICE), "v", "a preference behind a new start")
            for place in range(20):
                (gateway, other)[place % 2].well("PUT", f"user/preferences/k{place}", "v", ALICE)
            want(len(json.loads(other.well("GET", "user/preferences.json", who=ALICE))["preferences"]), 21, "what two gateways keep in one file")
            has(gateway.well("GET", "changeset/1?include_discussion=1"), "<text>kept</text>", "a comment behind a new start")


def run(program: str) -> str:
    parts = (counts, preferences, discussions, notes, many_notes, traces)
    with Site(program, notes=True) as gateway:
        for part in parts:
            part(gateway)
        gateway.well("PUT", "changeset/1/close", who=ALICE)
        kept(gateway.server)
        licences(gateway.server)
        rates(gateway.server)
    return "preferences, counts, discussions, notes of all sorts, traces, licences, rates, a new start"
