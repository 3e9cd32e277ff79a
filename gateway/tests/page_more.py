"""The page's addresses, names, the map from afar, choosing by keys, the past in its panels, odd tags, and the page without Leaflet."""

from __future__ import annotations

import json
import tempfile
import time
from typing import Any

from behind import ALICE, BOB, Gateway, Site, has, want
from page import LAT, LON, Page, street
from selenium.webdriver import ActionChains, Keys
from serving import Link

FAR_LAT, FAR_LON = 46.0, 10.0
"""A place with more nodes than a map of the server has."""


def names(page: Page) -> list[str]:
    """What is written on the map."""
    found: list[str] = json.loads(page.driver.execute_script("return document.querySelector('.leaflet-labels-pane canvas').dataset.names ?? '[]'"))
    return found


def severe(page: Page) -> list[str]:
    return [row["message"] for row in page.driver.get_log("browser") if row["level"] == "SEVERE"]


def visit(page: Page, path: str) -> None:
    page.driver.get("about:blank")
    page.driver.get(page.site + path)


def path_of(page: Page) -> str:
    found: str = page.driver.execute_script("return location.pathname")
    return found


def uploaded(gateway: Gateway, changeset: int, rows: str, who: str = ALICE) -> dict[str, list[int]]:
    """New ids by kind."""
    reply = json.loads(
        gateway.well("POST", f"changeset/{changeset}/upload.json", f"<osmChange><create>{rows}</create></osmChange>", who, Accept="application/json")
    )
    found: dict[str, list[int]] = {}
    for row in reply["diffResult"]:
        found.setdefault(row["type"], []).append(row["new_id"])
    return found


def node(changeset: int, number: int, lat: float, lon: float, tags: str = "") -> str:
    return f'<node id="{-number}" changeset="{changeset}" lat="{lat:.7f}" lon="{lon:.7f}">{tags}</node>'


def tag(key: str, value: str) -> str:
    return f'<tag k="{key}" v="{value}"/>'


# ---- what is drawn


def odd_tags(page: Page, gateway: Gateway) -> None:
    """Values and keys that are names of what every object of JavaScript has."""
    number = gateway.changeset(comment="odd")
    lat, lon = 45.1, -29.9
    nodes = "".join(
        node(number, 1 + place, lat + place % 2 * 0.001, lon + place // 2 * 0.001, tag("place", "constructor") if place == 5 else "")
        for place in range(6)
    )
    words = (
        "highway=constructor",
        "natural=constructor",
        "waterway=toString",
        "constructor=x",
        "building=hasOwnProperty",
        "__proto__=y",
        "landuse=__proto__",
    )
    ways = "".join(
        f'<way id="{-1 - place}" changeset="{number}"><nd ref="-1"/><nd ref="-2"/><nd ref="-4"/><nd ref="-1"/>{tag(*word.split("="))}</way>'
        for place, word in enumerate(words)
    )
    made = uploaded(gateway, number, nodes + ways)
    visit(page, f"/#map=17/{lat + 0.0005}/{lon + 0.0005}")
    page.until("odd tags", lambda: page.data("drawn") == str(6 + len(words)))
    want(severe(page), [], "errors of odd tags")
    for place, word in enumerate(words):
        visit(page, f"/way/{made['way'][place]}")
        page.until("a history", lambda: page.all("#element li.version"))
        want(page.text("#element table").replace("\n", " "), word.replace("=", " "), f"the tags of {word}")
        want(page.text("#element li.version ins"), word.replace("=", " = "), f"what is said of {word}")
    want("function" in page.text("aside"), False, "a function in the panel")
    gateway.well("PUT", f"changeset/{number}/close", who=ALICE)


def written(page: Page, gateway: Gateway) -> None:
    """Names of a street along it, of a place, none of which lies over another one."""
    number = gateway.changeset(comment="names")
    nodes = [
        node(number, 1, LAT + 0.001, LON, tag("place", "village") + tag("name", "Oberdorf")),
        node(number, 2, LAT + 0.001, LON, tag("place", "hamlet") + tag("name", "Under it")),
    ]
    uploaded(gateway, number, "".join(nodes))
    gateway.well("PUT", f"changeset/{number}/close", who=ALICE)
    page.open(f"#map=17/{LAT}/{LON}")
    page.until("names", lambda: "Oberdorf" in names(page))
    want((names(page).count("Neue Gasse <i>") > 0, "Under it" in names(page)), (True, False), f"names on the map: {names(page)}")
    page.open(f"#map=12/{LAT}/{LON}")
    page.until("names from afar", lambda: "Oberdorf" in names(page))


def far(page: Page, gateway: Gateway) -> None:
    """A box with more nodes than a map has, from afar: its main road and its town, in a line what isn't shown."""
    for part in range(6):
        number = gateway.changeset(comment="many")
        nodes = "".join(
            node(number, 1 + place, FAR_LAT + part * 0.002 + place // 100 * 0.00001, FAR_LON + place % 100 * 0.0005) for place in range(9_990)
        )
        road = f'<way id="-1" changeset="{number}"><nd ref="-1"/><nd ref="-50"/><nd ref="-99"/>{tag("highway", "primary" if part % 2 else "footway")}</way>'
        uploaded(
            gateway,
            number,
            nodes
            + road
            + node(
                number, 9_999, FAR_LAT + part * 0.002, FAR_LON, tag("place", "town" if part == 0 else "isolated_dwelling") + tag("name", f"T{part}")
            ),
        )
        gateway.well("PUT", f"changeset/{number}/close", who=ALICE)
    for zoom in (11, 13):
        visit(page, f"/#map={zoom}/{FAR_LAT + 0.01}/{FAR_LON + 0.025}")
        page.until("the map from afar", lambda: "zoom in to see all" in page.text("#state"))
        want((page.data("drawn"), names(page)), ("4", ["T0"]), f"three main roads and a town at zoom {zoom}: {page.text('#state')}")
    visit(page, f"/#map=6/{FAR_LAT}/{FAR_LON}")
    page.until("a line", lambda: "zoom in to see the map" in page.text("#state"))
    for path in ("/overview/9/1/1", "/overview/10/9999/1", "/overview/11/1/x"):
        want(gateway.ask("GET", path).status, 404, path)
    # A map that has too many nodes is refused once.
    want([it for it in severe(page) if "/map.json" not in it], [], "errors of the map from afar")


# ---- addresses


def addresses(page: Page, gateway: Gateway, way: int) -> None:
    number = gateway.changeset(comment="all sorts")
    members = f'<member type="way" ref="{way}" role="street"/><member type="node" ref="-1" role=""/>'
    made = uploaded(
        gateway,
        number,
        node(number, 1, LAT, LON + 0.002, tag("natural", "tree"))
        + f'<relation id="-1" changeset="{number}">{members}{tag("type", "site")}</relation>',
    )
    gateway.well("PUT", f"changeset/{number}/close", who=ALICE)
    gateway.well("POST", f"changeset/{number}/comment", "text=well+%3Cdone%3E", BOB)
    note = json.loads(gateway.well("POST", "notes.json", f"lat={LAT}&lon={LON}&text=a+bench"))["properties"]["id"]
    tree, site = made["node"][0], made["relation"][0]
    for path, part, texts in (
        (f"/node/{tree}", "#element", ("tree", f"changeset {number}")), (f"/node/{tree}/history", "#element", ("Version 1",)),
        (f"/way/{way}", "#element", ("Neue Gasse", "Version 2")),
        (f"/relation/{site}", "#element", ("Relation", "Its 2 members")), (f"/note/{note}", "#note", ("a bench", "somebody opened it")),
        (f"/changeset/{number}", "#changeset", ("all sorts", f"created node {tree}", f"created relation {site}", "well <done>")),
        ("/user/alice", "#changeset", ("alice", "Those of everybody")),
        ("/user/%C3%9Cn%C3%AF%20C%C3%B6d%C3%A9", "#changeset", ("Ünï Cödé", "0 changesets")), ("/node/999999", "#element", ("no node with the id 999999",)),
        ("/changeset/999999", "#changeset", ("no changeset",)), ("/note/999999", "#note", ("no note",)), ("/user/nobody", "#changesets", ("no user",)),
    ):  # fmt: skip
        came = gateway.ask("GET", path)
        want((came.status, came.fields["Content-Type"]), (200, "text/html; charset=utf-8"), path)
        visit(page, path)
        page.until(f"{path} with {texts}", lambda: all(text in page.text(part) for text in texts))
        if "99" not in path and "/user" not in path:
            page.until(f"the map at {path}", lambda: "/45.000" in page.driver.execute_script("return location.hash"))
    visit(page, f"/changeset/{number}")
    page.until("what it did, on the map", lambda: page.one("#changeset").get_attribute("data-drawn") == "1")
    for path in ("/node/x", "/way", "/changeset/1/2", "/user/", "/nothing"):
        want(gateway.ask("GET", path).status, 404, path)


def click(page: Page, selector: str) -> None:
    """What is shown may come behind the address that names it."""

    def is_clicked() -> bool:
        found = page.all(selector)
        if found:
            found[0].click()
        return bool(found)

    page.until(f"{selector} to click on", is_clicked)


def links(page: Page, way: int) -> None:
    """Numbers in a history are links; the browser goes back and forth; an address that is typed into an open page moves its map."""
    visit(page, f"/way/{way}")
    page.until("a history", lambda: len(page.all("#element li.version")) == 2)
    click(page, "#element li.version:first-child a[href^='/changeset/']")
    page.until("the changeset", lambda: "What it did" in page.text("#changeset"))
    has(path_of(page), "/changeset/", "its address")
    click(page, "#changeset a[href^='/way/']")
    page.until("the way again", lambda: page.one("#element").get_attribute("data-shown") == f"way/{way}" and path_of(page) == f"/way/{way}")
    page.driver.back()
    page.until("the changeset, by going back", lambda: path_of(page).startswith("/changeset/") and page.one("#changeset").is_displayed())
    click(page, "#changeset a[href^='/user/']")
    page.until("its user", lambda: "Those of everybody" in page.text("#changeset"))
    page.driver.execute_script("location.hash = '#map=15/45.10000/-29.80000'")
    page.until("the map elsewhere", lambda: page.driver.execute_script("return location.hash") == "#map=15/45.10000/-29.80000")
    page.until("what is there", lambda: page.text("#state") == "There is nothing here")


def older(page: Page, gateway: Gateway) -> None:
    """Changesets behind the newest hundred, which come by a button: those of a user, and those of all."""
    link, numbers = Link(gateway.server, "utoken"), list[int]()
    for _ in range(3):
        numbers += [int(link.ask("PUT", "changeset/create").read()) for _ in range(75)]
        time.sleep(1.1)
    for path, wanted in (("/user/%C3%9Cn%C3%AF%20C%C3%B6d%C3%A9", numbers[::-1]), ("/history", list(range(numbers[-1], 0, -1)))):
        visit(page, path)
        listed: list[int] = []
        while len(listed) < len(wanted):
            if listed:
                page.one("#older").click()
            page.until(f"more than {len(listed)} at {path}", lambda: len(page.all("#changesets [data-id]")) > len(listed))  # noqa: B023
            listed = [int(it.get_attribute("data-id")) for it in page.all("#changesets [data-id]")]
            want(listed, wanted[: len(listed)], "the newest first")
        page.until("the end of the list", lambda: not page.one("#older").is_displayed())


# ---- the past, and keys


def past(page: Page, gateway: Gateway, way: int) -> None:
    """The slider reaches the element's panel and the notes."""
    time.sleep(1.5)
    middle = int(time.time())
    time.sleep(1.5)
    number: int = json.loads(gateway.well("POST", "notes.json", f"lat={LAT}&lon={LON}&text=late"))["properties"]["id"]
    gateway.well("POST", f"notes/{number - 1}/close?text=done", "", BOB)
    moments = json.loads(gateway.well("GET", f"way/{way}/history.json"))["elements"]
    first = int(time.mktime(time.strptime(moments[0]["timestamp"], "%Y-%m-%dT%H:%M:%SZ"))) - time.timezone
    page.open(f"#map=17/{LAT}/{LON}")
    page.until("notes", lambda: page.one("#notes ul").get_attribute("data-count") == "2")
    visit(page, f"/way/{way}#map=17/{LAT}/{LON}")
    page.until("the newest version", lambda: page.one("#element").get_attribute("data-version") == "2")
    has(page.text("#element table"), "Neue Gasse", "the tags of now")

    def go(moment: int) -> None:
        page.driver.execute_script(
            "const it = document.getElementById('moment'); it.value = arguments[0]; it.dispatchEvent(new Event('input'))", moment
        )
        page.until("the map of then", lambda: page.data("at") == str(moment))

    go(first)
    page.until("the version of then", lambda: page.one("#element").get_attribute("data-version") == "1")
    want(
        (page.one("#element").get_attribute("data-version"), "Neue Gasse" in page.text("#element table")),
        ("1", False),
        "the version of then, and its tags",
    )
    want(page.all("#element li.version")[-1].get_attribute("aria-current"), "", "which version is the one of then")
    go(first - 1)
    has(page.text("#element"), "wasn't there yet", "before it was made")
    go(middle)
    page.until("one note", lambda: page.one("#notes ul").get_attribute("data-count") == "1")
    page.part("notes")
    has(page.text("#notes ul"), "●", "a note that was open then")
    page.one("#notes li button").click()
    page.until("the note of then", lambda: "open" in page.text("#note h1"))
    want(("done" in page.text("#note"), page.all("#note textarea")), (False, []), "what was said later, and no answer to the past")
    page.one("#now").click()
    page.until("the note of now", lambda: "closed" in page.text("#note h1") and "done" in page.text("#note"))


def keys(page: Page) -> None:
    """Enter goes through what is around the middle, here two nodes at one place, Shift and Enter back."""
    page.open(f"#map=18/{LAT + 0.001}/{LON}")
    page.driver.execute_script("document.getElementById('map').focus()")
    seen = []
    for _ in range(3):
        ActionChains(page.driver).send_keys(Keys.ENTER).perform()
        seen.append(page.one("#element").get_attribute("data-shown"))
        has(page.text("#state"), " of 2: node", "which of how many it is")
    want((seen[0] == seen[2], seen[0] != seen[1]), (True, True), f"what Enter goes through: {seen}")
    ActionChains(page.driver).key_down(Keys.SHIFT).send_keys(Keys.ENTER).key_up(Keys.SHIFT).perform()
    want(page.one("#element").get_attribute("data-shown"), seen[1], "back by Shift and Enter")


def without_leaflet(page: Page) -> None:
    page.driver.execute_cdp_cmd("Network.enable", {})
    page.driver.execute_cdp_cmd("Network.setBlockedURLs", {"urls": ["*/leaflet/*"]})
    visit(page, "/")
    page.until("what is missing", lambda: "libjs-leaflet" in page.text("#state"))
    page.driver.execute_cdp_cmd("Network.setBlockedURLs", {"urls": []})


def run(program: str) -> str:
    with tempfile.TemporaryDirectory(ignore_cleanup_errors=True) as folder, Site(program, notes=True) as gateway:
        number, _ = street(gateway)
        page: Any = Page(gateway, folder)
        try:
            written(page, gateway)
            odd_tags(page, gateway)
            addresses(page, gateway, number)
            page.driver.get_log("browser")
            links(page, number)
            past(page, gateway, number)
            keys(page)
            older(page, gateway)
            want(severe(page), [], "errors of the page")
            far(page, gateway)
            without_leaflet(page)
        finally:
            page.driver.quit()
    return "names, odd tags, twelve addresses, changesets behind the newest hundred, links in histories, the past in its panels, keys, 60,000 nodes from afar, no Leaflet"
