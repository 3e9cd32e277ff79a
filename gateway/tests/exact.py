"""Positions and texts: the values that are read and written, against what OSM's own server gives for them."""

from __future__ import annotations

import base64
import random
import re
from fractions import Fraction
from typing import Any

from behind import want
from osm_gateway.call import Form, box_of, quality
from osm_gateway.degrees import NotDecimal, degrees_of, units_in, units_of
from osm_gateway.links import Address, head_of
from osm_gateway.people import BadUsers, people_of
from osm_gateway.refusals import Refused
from osm_gateway.spool import Spool
from osm_gateway.walk import OPENED, NotJson, Path, Sort, Walk
from osm_gateway.xml_texts import Texts
from serving import Wrong

# Ruby's Float#round, of `(lat * 10000000).round`, goes to the nearest whole number, and by halves away from zero.
READ = {
    "0": 0, "-0": 0, "+1": 10_000_000, "1.": 10_000_000, ".5": 5_000_000, "48.1412345": 481_412_345, "-48.1412345": -481_412_345,
    "0.00000004": 0, "0.00000005": 1, "-0.00000005": -1, "0.00000014": 1, "0.00000015": 2, "0.00000025": 3, "-0.00000025": -3,
    "89.99999994": 899_999_999, "89.99999995": 900_000_000, "90": 900_000_000, "180.0000000": 1_800_000_000, "-180": -1_800_000_000,
    "5.0E-4": 5000, "-1.0E-4": -1000, "1e2": 1_000_000_000, "1E-7": 1, "4.9E-324": 0, "1e-999": 0, "  1.5\n": 15_000_000,
    "0.0000000" + "0" * 60 + "1": 0, "0.00000004" + "9" * 80: 0, "0.00000005" + "0" * 80: 1, "47.99999999999999289457264239899814128875": 480_000_000,
    # As a float the first of these is a little more than the half, the second a little less.
    "11.53412345": 115_341_235, "1.00000005": 10_000_001, "1.00000015": 10_000_002, "8.12345675": 81_234_568,
}  # fmt: skip
IN_JSON = re.compile(r"-?(0|[1-9][0-9]*)(\.[0-9]+([eE][+-]?[0-9]+)?|[eE][+-]?[0-9]+)")
"""What is no whole number there."""
UNREAD = ("", "-", ".", "e5", "1e", "1,5", "0x10", "1_0", "NaN", "Infinity", "-inf", "١", "１", "1e1000", "1 1", "--1", "1" * 101)
SHOWN = {
    0: "0.0000000", 1: "0.0000001", -1: "-0.0000001", 10_000_000: "1.0000000", -9_999_999: "-0.9999999", 900_000_000: "90.0000000",
    -1_800_000_000: "-180.0000000", 481_412_345: "48.1412345",
}  # fmt: skip


def positions() -> str:
    for text, wanted in READ.items():
        want(units_of(text), wanted, f"{text!r} in units")
        if IN_JSON.fullmatch(text):
            want(units_in(text), wanted, f"{text!r} of JSON in units")
    for text in UNREAD:
        try:
            raise Wrong(f"{text!r} is read as {units_of(text)}")
        except NotDecimal:
            pass
    for units, shown in SHOWN.items():
        want(degrees_of(units), shown, f"{units} in degrees")
    draw = random.Random(7)
    for _ in range(20_000):
        units = draw.randint(-1_800_000_000, 1_800_000_000)
        want(units_of(degrees_of(units)), units, "there and back")
        places = draw.randint(0, 12)
        text = f"{draw.choice(('', '-'))}{draw.randint(0, 179)}.{draw.randint(0, 10**places):0{places}}"
        exact = Fraction(text.rstrip(".") or "0") * 10**7
        half_up = (abs(exact) + Fraction(1, 2)).__floor__()
        want((units_of(text), units_in(text)), (-half_up if exact < 0 else half_up,) * 2, text)
    return f"{len(READ)} decimals as OSM rounds them, {len(UNREAD)} that are none, 20,000 drawn ones by fractions"


def boxes() -> str:
    want(box_of("-1.0E-4,0,5.0E-4,.5"), "-0.0001000,0.0000000,0.0005000,0.5000000", "a box of Java's")
    for text, text_of in ((None, "is required"), ("1,2,3", "is required"), ("1,2,3,x", "is required"), ("2,1,1,2", "minima"), ("0,0,181,1", "180")):
        try:
            raise Wrong(f"{text} is the box {box_of(text)}")
        except Refused as why:
            want((why.status, text_of in why.text), (400, True), str(text))
    return "boxes"


def texts() -> str:
    shown = Texts()
    want(shown("a<b>&\"'\t\n\r é\U0001f333\u2028"), "a&lt;b&gt;&amp;&quot;'&#9;&#10;&#13; é\U0001f333\u2028", "escapes")
    want((shown("\0x\x01\x1f\ufffe\uffff\ufffd\x7f\x85"), shown.lost), ("\ufffdx\ufffd\ufffd\ufffd\ufffd\ufffd\x7f\x85", 5), "what XML can't hold")
    return "texts"


def walks() -> str:
    text = '{"bounds":{"minlat7":1},"elements":[{"id":1,"tags":{"},{\\"":"x"}},{"id":23}],"version":"0.6"}'
    wanted: list[tuple[Path, Any]] = []
    for length in (1, 2, 3, 5, 7, len(text)):
        pieces = (text[place : place + length] for place in range(0, len(text), length))
        found = [(it.path, it.value) for it in Walk(pieces, OPENED).events() if it.sort is Sort.VALUE]
        wanted = wanted or found
        want(found, wanted, f"in pieces of {length}")
    want([value for _, value in wanted], [{"minlat7": 1}, {"id": 1, "tags": {'},{"': "x"}}, {"id": 23}, "0.6"], "the values")
    numbers = "[48.25,-0.5,1e5,2E-7,-3.25e+10,0,-0,7.0]"
    for place in range(len(numbers) + 1):
        for second in range(place, len(numbers) + 1):
            cut = iter([numbers[:place], numbers[place:second], numbers[second:]])
            found = [it.value for it in Walk(cut, frozenset({()}), parse_float=str).events() if it.sort is Sort.VALUE]
            want(found, ["48.25", "-0.5", "1e5", "2E-7", "-3.25e+10", 0, 0, "7.0"], f"numbers cut at {place} and {second}")
    bad = ("", "{", '{"a"}', '{"a":1,}', "[1", "1 2", '{"elements":[1,]}', "nan", "NaN", "[" * 100_000, '{"a":' * 100_000, "1" * 5000, '"\\ud800', "'a'")
    for broken in bad:
        try:
            list(Walk(iter([broken]), OPENED).events())
            raise Wrong(f"{broken[:20]!r} is read as JSON")
        except NotJson:
            pass
    try:
        list(Walk(iter(['{"elements":["', *["x" * 1000] * 100]), OPENED, 50_000).events())
        raise Wrong("a value that is too long is read")
    except NotJson:
        pass
    return f"JSON in pieces, {len(bad)} texts that are none"


def accepted() -> str:
    rows = {
        ("", "application/json"): 0.0, ("*/*", "application/json"): 0.0, ("application/json", "application/json"): 1.0,
        ("text/html, application/json;q=0.5", "application/json"): 0.5, ("gzip;q=0, deflate", "gzip"): 0.0, ("GZIP", "gzip"): 1.0,
    }  # fmt: skip
    for (field, name), wanted in rows.items():
        want(quality(field, name), wanted, field)
    want(Form.JSON.value, "application/json", "the type of JSON")
    return "fields Accept"


def users() -> str:
    people = people_of("# a\n\n1 a user A B\r\n2 b moderator/5 b\n@large-from 5\n")
    want([(it.id, it.name, it.moderator) for it in people.by_token.values()], [(1, "A B", False), (2, "b", True)], "users")
    want(people.changes(), 50_000, "changes of a large changeset")
    odd = people_of("1 t:o:k user a:b\n")
    want(odd.token_of("Basic " + base64.b64encode(b"a:b:t:o:k").decode()), "t:o:k", "a name and a token with colons")
    for bad in ("1 a user", "x a user A", "1 a admin A", "1 a user A\n1 b user B", "1 a user A\n2 a user B", "@large 5", "@large-from 1\n@large-from 2"):
        try:
            people_of(bad)
            raise Wrong(f"{bad!r} is read")
        except BadUsers:
            pass
    return "users texts"


def spools() -> str:
    spool = Spool()
    for _ in range(50):
        spool.write("é".encode() * 20_000 + b"x")
    want((spool.size, sum(len(it) for it in spool.pieces()), "".join(spool.texts()).count("é")), (2_000_050, 2_000_050, 1_000_000), "a body in a file")
    return "bodies in files"


def addresses() -> str:
    for text, host, url, field in (
        ("http://127.0.0.1:8080", "127.0.0.1", "http://127.0.0.1:8080", "127.0.0.1:8080"), ("http://map/", "map", "http://map:80", "map:80"),
        ("http://[::1]:8080", "::1", "http://[::1]:8080", "[::1]:8080"),
    ):  # fmt: skip
        it = Address.of(text)
        want((it.host, it.url, f"\r\nHost: {field}\r\n".encode() in head_of(it, "GET", "/")), (host, url, True), text)
    return "addresses"


def run(_: str) -> str:
    return "; ".join(part() for part in (positions, boxes, texts, walks, accepted, users, spools, addresses))
