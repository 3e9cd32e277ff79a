"""The editor iD at /id: a build that somebody has downloaded, set up for this server; or a page that says where there is one."""

from __future__ import annotations

import os

from aiohttp import web

from . import pages
from .call import Gateway
from .refusals import Refused

SOURCE = "https://github.com/openstreetmap/iD/releases"
PROGRAMS = ("iD.min.js", "iD.js")
# iD has styles in attributes, and asks servers of pictures, of words and of places, which its user chooses.
CSP = (
    "default-src 'self'; script-src 'self'; style-src 'self' 'unsafe-inline'; img-src * data: blob:; connect-src *; font-src 'self' data:; "
    "worker-src 'self' blob:; base-uri 'none'; form-action 'self'; frame-ancestors 'none'"
)
# The page that hands the code over is a line of script in itself.
LAND_CSP = "default-src 'none'; script-src 'self' 'unsafe-inline'; base-uri 'none'; frame-ancestors 'none'"


def program_of(folder: str) -> str:
    """The script of a build; a text of what is missing is raised where it is none."""
    if not os.path.isfile(os.path.join(folder, "iD.css")):
        raise ValueError(f"{folder} has no iD.css: --id takes the folder `dist` of a build of iD")
    for name in PROGRAMS:
        if os.path.isfile(os.path.join(folder, name)):
            return name
    raise ValueError(f"{folder} has neither {' nor '.join(PROGRAMS)}: --id takes the folder `dist` of a build of iD")


def with_csp(reply: web.StreamResponse, policy: str) -> web.StreamResponse:
    reply.headers["Content-Security-Policy"] = policy
    return reply


async def moved(_: Gateway, request: web.Request) -> web.StreamResponse:
    """A browser keeps `#map=` over this."""
    return web.Response(status=302, headers={"Location": f"/id/{'?' if request.query_string else ''}{request.query_string}"})


async def there(gateway: Gateway, _: web.Request) -> web.StreamResponse:
    """Whether there is a build, for the page's link to it."""
    return web.json_response({"there": bool(gateway.words.id)}, headers={"Cache-Control": "no-cache"})


async def index(gateway: Gateway, _: web.Request) -> web.StreamResponse:
    if not gateway.words.id:
        return pages.page(
            "The editor iD isn't here yet",
            pages.paragraph("The gateway serves a build of iD, and has none. Whoever runs it downloads one and says where it lies:"),
            f'<p>1. <a href="{SOURCE}">a release of iD</a>, of which the folder <code>dist</code> is needed;</p>\n'
            "<p>2. <code>gateway/run --id FOLDER ..</code>.</p>\n",
            pages.paragraph("iD then needs nothing else: it is set up for this server, and logs in by a name and a token."), status=404,
        )  # fmt: skip
    text = pages.of_file("id.html").replace("PROGRAM", program_of(gateway.words.id))
    return with_csp(web.Response(text=text, content_type="text/html", charset="utf-8"), CSP)


async def land(gateway: Gateway, _: web.Request) -> web.StreamResponse:
    """Where OAuth leads the small window of iD: the build's own page, or one that does the same."""
    own = os.path.join(gateway.words.id, "land.html") if gateway.words.id else ""
    return with_csp(web.FileResponse(own if os.path.isfile(own) else os.path.join(pages.FOLDER, "land.html")), LAND_CSP)


async def file(gateway: Gateway, request: web.Request) -> web.StreamResponse:
    """A file of the build, and nothing outside of it."""
    folder = os.path.realpath(gateway.words.id) if gateway.words.id else ""
    path = os.path.realpath(os.path.join(folder, request.match_info["path"].replace("\0", "")))
    if not folder or os.path.commonpath((folder, path)) != folder or not os.path.isfile(path):
        raise Refused(404, f"There is no {request.path}")
    return with_csp(web.FileResponse(path), CSP)
