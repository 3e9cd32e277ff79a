"""iD: its sequence of requests in a headless Chromium, once at /id and once from another origin, and the files of a build.

Debian has no iD, so what is driven is a stand-in with iD's entry points (id_trial), which speaks as iD's documentation says.
"""

from __future__ import annotations

import functools
import json
import os
import tempfile
import threading
from collections.abc import Iterator
from contextlib import contextmanager
from http.server import SimpleHTTPRequestHandler, ThreadingHTTPServer

from behind import HERE, Gateway, Site, has, want
from oauth import registered
from page import Page
from selenium.webdriver.common.by import By

BUILD = os.path.join(HERE, "id_trial")
LAT, LON = 47.5, 9.5
STEPS = 20


class Quiet(SimpleHTTPRequestHandler):
    def log_message(self, *_: object) -> None:
        pass


@contextmanager
def elsewhere() -> Iterator[int]:
    """Another origin with the same build."""
    server = ThreadingHTTPServer(("127.0.0.1", 0), functools.partial(Quiet, directory=BUILD))
    threading.Thread(target=server.serve_forever, daemon=True).start()
    try:
        yield int(server.server_address[1])
    finally:
        server.shutdown()
        server.server_close()


def log_in(page: Page) -> None:
    """The small window: a wrong token, and the right one."""
    own = page.driver.current_window_handle
    page.until("the small window", lambda: len(page.driver.window_handles) == 2)
    page.driver.switch_to.window(next(it for it in page.driver.window_handles if it != own))
    for token in ("nonsense", "alicetoken"):
        page.until("the form", lambda: page.all("[name=token]"))
        for field, text in (("name", "alice"), ("token", token)):
            page.one(f"[name={field}]").clear()
            page.one(f"[name={field}]").send_keys(text)
        page.one("[value=yes]").click()
        if token == "nonsense":
            page.until("a refusal", lambda: page.all(".wrong"))
    page.driver.switch_to.window(own)
    page.until("the small window's end", lambda: len(page.driver.window_handles) == 1)


def spoken(page: Page, address: str) -> list[str]:
    """What went well, from the first request to the last."""
    page.driver.get("about:blank")
    page.driver.get(f"{address}#map=17/{LAT}/{LON}")
    page.one("#login").click()
    log_in(page)

    def ended() -> bool:
        return bool(page.data("wrong")) or "all" in json.loads(page.data("steps") or "[]")

    page.until("the end", ended)
    want(page.data("wrong"), "", f"what went wrong at {address}, behind {page.data('steps')}")
    steps: list[str] = json.loads(page.data("steps") or "[]")
    want((len(steps), page.driver.find_elements(By.CSS_SELECTOR, "#wrong")), (STEPS, []), f"steps: {steps}")
    return steps


def files(gateway: Gateway) -> None:
    """What of a build is served, and what isn't."""
    want((gateway.ask("GET", "/id").status, gateway.ask("GET", "/id").fields["Location"]), (302, "/id/"), "/id")
    index = gateway.ask("GET", "/id/")
    has(index.text, 'src="/id/iD.min.js"', "the program of the build")
    has(index.fields["Content-Security-Policy"], "frame-ancestors 'none'", "no frame around iD")
    want("unsafe-eval" in index.fields["Content-Security-Policy"], False, "no eval")
    want(gateway.ask("GET", "/id/iD.css").status, 200, "a file")
    for path in ("../id_editor.py", "%2e%2e/id_editor.py", "..%2fid_editor.py", "nothing.js", "%00", "//etc/passwd", "%2fetc%2fpasswd"):
        want(gateway.ask("GET", f"/id/{path}").status, 404, f"a path out of the folder, {path}")


def run(program: str) -> str:
    with tempfile.TemporaryDirectory(ignore_cleanup_errors=True) as folder, Site(
        program, notes=True, more=("--id", BUILD)
    ) as gateway, elsewhere() as port:
        files(gateway)
        page = Page(gateway, folder)
        try:
            here = spoken(page, f"{page.site}/id")
            number, _ = registered(
                gateway, f"http://127.0.0.1:{port}/land.html", ("read_prefs", "write_prefs", "write_api", "read_gpx", "write_notes")
            )
            there = spoken(page, f"http://127.0.0.1:{port}/elsewhere.html?url={page.site}&client_id={number}")
            want(there, here, "the same from another origin")
            want(page.driver.get_cookies(), [], "cookies")
            severe = [
                row["message"]
                for row in page.driver.get_log("browser")
                if row["level"] == "SEVERE" and not any(it in row["message"] for it in (" 401 ", " 409 "))
            ]
            want([it for it in severe if "favicon" not in it], [], "errors of the page")
        finally:
            page.driver.quit()
        with open(gateway.log, encoding="utf-8") as file:
            asked = sum('"OPTIONS ' in line for line in file)
    with Site(program) as gateway:
        came = gateway.ask("GET", "/id/")
        want(came.status, 404, "/id without a build")
        has(came.text, "https://github.com/openstreetmap/iD/releases", "where there is one")
    return f"{len(here)} steps of iD's at /id and from another origin, with {asked} preflights"
