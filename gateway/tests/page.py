"""The page in a headless Chromium: a town, a street and its history, the time before it, a note; by mouse and by keyboard."""

from __future__ import annotations

import json
import os
import tempfile
import time
from collections.abc import Callable
from typing import Any

from behind import ALICE, BOB, Gateway, Site, has, want
from osmosis import loaded
from selenium import webdriver
from selenium.common.exceptions import StaleElementReferenceException
from selenium.webdriver import ActionChains, Keys
from selenium.webdriver.chrome.service import Service
from selenium.webdriver.common.by import By
from serving import Wrong

PICTURE = os.environ.get("PICTURE", "")
"""Where a picture of the page is written, if anywhere."""
WAIT = 120.0
LAT, LON = 45.0005, -29.9925
"""The middle of the street, beside the town."""
ROAD, NOTHING = [252, 214, 164, 255], [0, 0, 0, 0]
PIXEL = """
const map = document.getElementById("map"), canvas = map.querySelector("canvas"), at = map.getBoundingClientRect(), own = canvas.getBoundingClientRect();
const scale = canvas.width / own.width, x = at.left + at.width / 2 - own.left, y = at.top + at.height / 2 - own.top;
return [...canvas.getContext("2d").getImageData(Math.round(x * scale), Math.round(y * scale), 1, 1).data];
"""


class Page:
    def __init__(self, gateway: Gateway, folder: str) -> None:
        options = webdriver.ChromeOptions()
        for word in ("--headless=new", "--no-sandbox", "--disable-gpu", "--window-size=1280,860", f"--user-data-dir={folder}/chromium", "--lang=en-GB"):
            options.add_argument(word)
        options.binary_location = "/usr/bin/chromium"
        options.set_capability("goog:loggingPrefs", {"browser": "ALL"})
        self.driver = webdriver.Chrome(service=Service("/usr/bin/chromedriver"), options=options)
        self.site = f"http://127.0.0.1:{gateway.port}"

    def one(self, selector: str) -> Any:
        return self.driver.find_element(By.CSS_SELECTOR, selector)

    def all(self, selector: str) -> list[Any]:
        return self.driver.find_elements(By.CSS_SELECTOR, selector)

    def text(self, selector: str) -> str:
        return str(self.one(selector).text)

    def until(self, what: str, is_so: Callable[[], object]) -> None:
        end = time.monotonic() + WAIT

        def is_so_now() -> object:
            try:
                return is_so()
            except StaleElementReferenceException:
                return False  # the page was drawn anew in between

        while not is_so_now():
            if time.monotonic() > end:
                raise Wrong(f"{what} doesn't come; the page says {self.text('#state')!r} and {self.text('aside')[:400]!r}")
            time.sleep(0.05)

    def open(self, place: str) -> None:
        self.driver.get("about:blank")
        self.driver.get(f"{self.site}/{place}")
        self.until("the map", lambda: int(self.data("drawn") or 0) > 0)

    def data(self, name: str) -> str | None:
        found: str | None = self.driver.execute_script("return document.body.dataset[arguments[0]] ?? null", name)
        return found

    def part(self, name: str) -> None:
        self.one(f"nav [data-part={name}]").click()

    def click_map(self, right: int = 0, down: int = 0) -> None:
        ActionChains(self.driver).move_to_element_with_offset(self.one("#map"), right, down).click().perform()

    def pixel(self) -> list[int]:
        found: list[int] = self.driver.execute_script(PIXEL)
        return found


def street(gateway: Gateway) -> tuple[int, int]:
    """A street that is mapped by alice and named by bob, each in a changeset that is closed; its id, and a second before it."""
    time.sleep(2)
    before = int(time.time()) - 1
    first = gateway.changeset(ALICE, "a new street")
    nodes = "".join(f'<node id="{-number}" changeset="{first}" lat="{LAT}" lon="{LON + (number - 2) * 0.001}"/>' for number in (1, 2, 3))
    way = f'<way id="-1" changeset="{first}"><nd ref="-1"/><nd ref="-2"/><nd ref="-3"/><tag k="highway" v="primary"/></way>'
    gateway.well("POST", f"changeset/{first}/upload", f"<osmChange><create>{nodes}{way}</create></osmChange>", ALICE)
    gateway.well("PUT", f"changeset/{first}/close", who=ALICE)
    download = json.loads(gateway.well("GET", f"changeset/{first}/download.json"))["osmChange"]
    rows = [row for block in download for rows in block.values() for row in rows]
    number, refs = next((row["id"], row["nodes"]) for row in rows if row["type"] == "way")
    time.sleep(2)
    second = gateway.changeset(BOB, "its name &lt;b&gt;")
    listed = "".join(f'<nd ref="{ref}"/>' for ref in refs)
    named = f'<way id="{number}" version="1" changeset="{second}">{listed}<tag k="highway" v="primary"/><tag k="name" v="Neue Gasse &lt;i&gt;"/></way>'
    gateway.well("PUT", f"way/{number}", f"<osm>{named}</osm>", BOB)
    gateway.well("PUT", f"changeset/{second}/close", who=BOB)
    return number, before


def history(page: Page, number: int) -> None:
    """A click on the street shows it, and who made it of what."""
    want(page.pixel(), ROAD, "the colour in the middle of the map, a main road's")
    page.click_map()
    page.until("the history", lambda: len(page.all("#element li.version")) == 2)
    page.until("the name beside the mouse", lambda: [it.text for it in page.all(".leaflet-tooltip")] == ["Neue Gasse <i>"])
    shown = page.text("#element")
    for text in (f"Way {number}: Neue Gasse <i>", "Version 2 by bob", "its name <b>", "Version 1 by alice", "a new street", "3 nodes", "primary"):
        has(shown, text, "the street in the panel")
    want(page.text("#element li.version:first-child ins"), "name = Neue Gasse <i>", "what bob changed")


def past(page: Page, before: int) -> None:
    """The slider goes back to before the street, and forward again."""
    drawn = int(page.data("drawn") or 0)
    slider = page.one("#moment")
    slider.send_keys(Keys.ARROW_LEFT)
    while int(page.driver.execute_script("return document.getElementById('moment').value")) > before:
        slider.send_keys(Keys.ARROW_LEFT)
    page.until("the map of then", lambda: int((page.data("at") or "0").replace("now", "0")) == int(slider.get_attribute("value")))
    want(int(page.data("drawn") or 0) < drawn, True, f"less than {drawn} elements")
    want(page.pixel(), NOTHING, "where the street will be")
    page.one("#map").send_keys(Keys.ENTER)
    page.until("nothing in the middle", lambda: "nothing in the middle" in page.text("#state"))
    page.one("#now").click()
    page.until("the map of now", lambda: page.data("at") == "now" and int(page.data("drawn") or 0) == drawn)
    page.until("the street, with the line around what was chosen", lambda: page.pixel() != NOTHING)


def changesets(page: Page) -> None:
    loaded_before = page.one("#changesets ol").get_attribute("data-loaded")
    page.part("changesets")
    page.until("the changesets anew", lambda: page.one("#changesets ol").get_attribute("data-loaded") != loaded_before)
    want(len(page.all("#changesets li button")), 3, "changesets: the town's, alice's and bob's")
    first = page.one("#changesets li button")
    for text in ("its name <b>", "bob", "1 change", "closed"):
        has(first.text, text, "the newest changeset")
    first.click()
    want(first.get_attribute("aria-current"), "true", "the chosen changeset")


def notes(page: Page, gateway: Gateway) -> None:
    """A note by nobody, a comment that needs a token, and then one with it."""
    page.part("notes")
    page.one("#place").click()
    page.click_map(60, 60)
    page.until("a form", lambda: page.all("#note textarea"))
    page.one("#note textarea").send_keys("A bench <stands> here")
    page.one("#note [data-do=open]").click()
    page.until("the note", lambda: page.all("#note [data-do=comment]"))
    page.one("#note textarea").send_keys("nobody says")
    page.one("#note [data-do=comment]").click()
    page.until("a refusal", lambda: "needs a token" in page.text("#note .wrong"))
    page.part("caller")
    page.one("#token").send_keys("bobtoken", Keys.ENTER)
    page.until("who it is", lambda: page.text("#who") == "This is bob.")
    page.part("notes")
    page.until("the list", lambda: page.all("#notes li button"))
    page.one("#notes li button").click()
    page.one("#note textarea").send_keys("I have seen it")
    page.one("#note [data-do=comment]").click()
    page.until("the comment", lambda: len(page.all("#note .said")) == 2)
    comments = json.loads(gateway.well("GET", "notes/1.json"))["properties"]["comments"]
    want([(row.get("user"), row["text"]) for row in comments], [(None, "A bench <stands> here"), ("bob", "I have seen it")], "the note")
    page.one("#note [data-do=close]").click()
    page.until("the closed note", lambda: page.all("#note [data-do=reopen]"))


def keyboard(page: Page, number: int) -> None:
    """From the start of the page on by keys alone: the map, its middle, the slider, the parts."""
    page.open(f"#map=18/{LAT}/{LON}")
    keys = ActionChains(page.driver)
    for _ in range(12):
        keys.send_keys(Keys.TAB).perform()
        if page.driver.execute_script("return document.activeElement.id") == "map":
            break
    else:
        raise Wrong("the map doesn't come by Tab")
    keys.send_keys(Keys.ENTER).perform()
    page.until("the street", lambda: page.one("#element").get_attribute("data-shown") == f"way/{number}")
    seen = set()
    for _ in range(30):
        keys.send_keys(Keys.TAB).perform()
        seen.add(page.driver.execute_script("const it = document.activeElement; return it.id || it.dataset.part || it.tagName"))
    want({"earlier", "moment", "later", "now", "element", "changesets", "notes", "caller"} - seen, set(), "what Tab reaches")


def narrow(page: Page) -> None:
    page.driver.set_window_size(500, 900)
    page.open(f"#map=17/{LAT}/{LON}")
    wide, inner, tall, panel = page.driver.execute_script(
        "return [document.documentElement.scrollWidth, innerWidth, document.getElementById('map').clientHeight, document.querySelector('aside').clientHeight]"
    )
    want((wide <= inner, tall > 200, panel > 150), (True, True, True), f"a narrow screen: {wide} of {inner} wide, a map of {tall}, a panel of {panel}")
    page.driver.set_window_size(1280, 860)


def clean(page: Page) -> int:
    """Nothing was asked of another host, and nothing failed but what the test refused."""
    asked = page.driver.execute_script("return performance.getEntriesByType('resource').map((it) => it.name)")
    want([it for it in asked if not it.startswith((page.site, "data:"))], [], "requests to other hosts")
    severe = [row["message"] for row in page.driver.get_log("browser") if row["level"] == "SEVERE" and "401" not in row["message"]]
    want(severe, [], "errors of the page")
    return len(asked)


def picture(page: Page, gateway: Gateway, number: int, path: str) -> None:
    changeset = gateway.changeset(ALICE, "no signs in names")
    row = gateway.well("GET", f"way/{number}").replace(" &lt;i&gt;", "").replace('changeset="3"', f'changeset="{changeset}"')
    gateway.well("PUT", f"way/{number}", row, ALICE)
    page.driver.set_window_size(1280, 860)
    page.open("#map=17/45.0018/-29.9962")
    page.click_map(300, 171)
    page.until("a history", lambda: page.all("#element li.version"))
    time.sleep(2)
    page.driver.save_screenshot(path)


def run(program: str) -> str:
    with tempfile.TemporaryDirectory(ignore_cleanup_errors=True) as folder, Site(program, notes=True) as gateway:
        loaded(gateway, folder, gateway.server)
        number, before = street(gateway)
        page = Page(gateway, folder)
        try:
            page.open(f"#map=17/{LAT}/{LON}")
            drawn = page.data("drawn")
            history(page, number)
            past(page, before)
            changesets(page)
            page.open(f"#map=18/{LAT}/{LON}")
            notes(page, gateway)
            keyboard(page, number)
            narrow(page)
            asked = clean(page)
            if PICTURE:
                picture(page, gateway, number, PICTURE)
            version = page.driver.capabilities["browserVersion"]
        finally:
            page.driver.quit()
    return f"Chromium {version}: {drawn} elements drawn, a street, its history, the time before it, a note; keys, a narrow screen, {asked} requests to this host alone"
