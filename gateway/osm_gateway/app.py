"""The table of calls, and what stands around each of them: hosts, origins, refusals, fields of replies."""

from __future__ import annotations

import os
import re
import time
from collections.abc import Awaitable, Callable, Iterator

from aiohttp import ClientPayloadError, web

from . import blocks_page, calls_about, calls_blocks, calls_changesets, calls_discussions, calls_elements, calls_notes, calls_oauth, calls_preferences, calls_users, changesets_feed, id_editor, overview, pages
from .call import Call, Gateway
from .doubts import unknown
from .limits import TooMany, address_of
from .links import InDoubt
from .log import shown, tell, where
from .metrics import OTHER
from .origins import PAGE_CSP, check_host, cors, has_bearer, options
from .refusals import Refused
from .spool import NoDisk

Handler = Callable[[Call], Awaitable[web.StreamResponse]]
LEAFLET = "/usr/share/javascript/leaflet"
"""Of Debian's libjs-leaflet."""
END = r"{end:(?:\.json|\.xml)?}"
KIND, KINDS, ID, VERSION = "{kind:node|way|relation}", "{kinds:nodes|ways|relations}", "{id:[0-9]{1,19}}", "{version:[0-9]{1,19}}"
MORE_FORMS = r"{end:\.rss|\.gpx}"
API = "/api/0.6/"
TABLE: tuple[tuple[str, str, Handler], ...] = (
    # A path is looked for from the first on, so what is asked most stands first. It begins with API where it doesn't begin with a slash.
    ("GET", "map", calls_elements.read_map),
    ("PUT", f"{KIND}/create", calls_elements.create),
    ("POST", "{kind:node|way|relation}s", calls_elements.create),
    ("GET", KINDS, calls_elements.read_many),
    ("GET", f"{KIND}/{ID}", calls_elements.read),
    ("PUT", f"{KIND}/{ID}", calls_elements.modify),
    ("DELETE", f"{KIND}/{ID}", calls_elements.delete),
    ("GET", f"{KIND}/{ID}/{{what:history|relations|[0-9]{{1,19}}}}", calls_elements.read),
    ("GET", f"{{kind:way|relation}}/{ID}/full", calls_elements.read),
    ("GET", f"node/{ID}/ways", calls_elements.read),
    ("GET", "/api/versions", calls_about.versions),
    ("GET", "/api/capabilities", calls_about.capabilities),
    ("GET", "capabilities", calls_about.capabilities),
    ("GET", "permissions", calls_about.permissions),
    ("GET", "user/details", calls_about.user_details),
    ("GET", "user/preferences", calls_preferences.read_all),
    ("PUT", "user/preferences", calls_preferences.write_all),
    ("GET", "user/blocks/active", calls_blocks.active),
    ("GET", f"user/{ID}", calls_about.user),
    ("GET", "users", calls_about.users),
    ("PUT", "changeset/create", calls_changesets.create),
    ("POST", "changesets", calls_changesets.create),
    ("GET", "changesets", calls_changesets.read_some),
    ("GET", f"changeset/{ID}", calls_changesets.read),
    ("PUT", f"changeset/{ID}", calls_changesets.update),
    ("PUT", f"changeset/{ID}/close", calls_changesets.close),
    ("POST", f"changeset/{ID}/upload", calls_changesets.upload),
    ("GET", f"changeset/{ID}/download", calls_changesets.download),
    ("POST", f"changeset/{ID}/comment", calls_discussions.comment),
    ("POST", f"changeset/{ID}/subscribe", calls_discussions.subscribe),
    ("POST", f"changeset/{ID}/unsubscribe", calls_discussions.unsubscribe),
    ("POST", f"changeset/{ID}/subscription", calls_discussions.subscribe),
    ("DELETE", f"changeset/{ID}/subscription", calls_discussions.unsubscribe),
    ("POST", f"changeset/comment/{ID}/hide", calls_discussions.seen(False)),
    ("POST", f"changeset/comment/{ID}/unhide", calls_discussions.seen(True)),
    ("POST", "user_blocks", calls_blocks.create),
    ("GET", f"user_blocks/{ID}", calls_blocks.read),
    ("DELETE", f"user_blocks/{ID}", calls_blocks.revoke),
    ("GET", "trackpoints", calls_about.trackpoints),
    ("POST", f"{KIND}/{ID}/{VERSION}/redact", calls_elements.redact),
    ("POST", "redactions", calls_elements.new_redaction),
    ("GET", "replication/{piece:state|[0-9]{1,19}}", calls_elements.feed),
    ("POST", "notes", calls_notes.create),
    ("GET", "notes", calls_notes.search),
    ("GET", f"notes/{ID}", calls_notes.read),
    ("DELETE", f"notes/{ID}", calls_notes.hide),
    ("GET", "notes/search", calls_notes.search_texts),
    ("GET", "notes/feed", calls_notes.feed),
    ("POST", f"notes/{ID}/{{what:comment|close|reopen}}", calls_notes.change),
    ("POST", f"notes/{ID}/subscription", calls_notes.subscribe),
    ("DELETE", f"notes/{ID}/subscription", calls_notes.unsubscribe),
)
OWN_ENDS: tuple[tuple[str, str, Handler], ...] = (
    ("GET", "user/preferences/{key:.+}", calls_preferences.read),
    ("PUT", "user/preferences/{key:.+}", calls_preferences.write),
    ("DELETE", "user/preferences/{key:.+}", calls_preferences.delete),
    ("GET", "/history/feed", changesets_feed.feed),
    ("GET", "/user/{name:[^/]+}/history/feed", changesets_feed.feed),
    ("GET", "/overview/{z:1[0-2]}/{x:[0-9]{1,4}}/{y:[0-9]{1,4}}", overview.tile),
    ("GET", f"notes{MORE_FORMS}", calls_notes.search),
    ("GET", f"notes/search{MORE_FORMS}", calls_notes.search_texts),
    ("GET", f"notes/{ID}{MORE_FORMS}", calls_notes.read),
)
"""A key may end with .json, so these paths have no end that says a form; and notes have more forms."""
UNSERVED = (
    (re.compile(r"/api/0\.6/(gpx.*|user/gpx_files|gpx/create)"), "GPS traces aren't served here"),
    (re.compile(r"/api/0\.6/(changeset/[0-9]+/expand_bbox|user/messages.*|map\.gz)"), "This isn't served here"),
    (re.compile(r"/api/0\.[0-57-9].*|/api/1.*"), "This is version 0.6 of the API"),
)
"""What OSM's API has and nobody behind the gateway."""


def name_of(handler: Callable[..., object]) -> str:
    """What a call is counted as: the end of its module's name, and its own."""
    return f"{handler.__module__.rpartition('.')[2].removeprefix('calls_')}.{handler.__qualname__.partition('.')[0]}"


def served(gateway: Gateway, handler: Handler) -> Callable[[web.Request], Awaitable[web.StreamResponse]]:
    async def answer(request: web.Request) -> web.StreamResponse:
        request["call"] = name_of(handler)
        call = Call(gateway, request)
        try:
            reply = await handler(call)
            await call.confirmed()
            return reply
        except InDoubt as why:
            raise unknown(why, "this was done", "Look whether it was before you send it again.") from None
        finally:
            call.close()

    return answer


# ---- what stands around each call


def unfound(request: web.Request, why: web.HTTPException) -> web.StreamResponse:
    """A path or a method that no call has, told apart where OSM has one; and what aiohttp refuses by itself."""
    unserved = next((text for path, text in UNSERVED if path.fullmatch(request.path)), None)
    if unserved:
        return refused(Refused(404, unserved))
    if isinstance(why, web.HTTPMethodNotAllowed):
        reply = refused(Refused(405, f"There is no {why.method} here, but {' and '.join(sorted(why.allowed_methods))}"))
        reply.headers["Allow"] = why.headers["Allow"]
        return reply
    return refused(Refused(why.status, f"There is no {request.path}" if why.status == 404 else why.reason))


def refused(why: Refused) -> web.Response:
    """The text stands in the field Error too, where JOSM reads it."""
    reply = web.Response(status=why.status, text=why.text, content_type="text/plain")
    reply.headers["Error"] = re.sub(r"[^\x20-\x7e]+", "?", why.text)[:1000]
    if why.status == 401:
        reply.headers["WWW-Authenticate"] = 'Basic realm="Hegunsap: a name, and the token as the password", charset="UTF-8"'
    if why.status == 503:
        reply.headers["Retry-After"] = "5"
    if isinstance(why, TooMany):
        reply.headers["Retry-After"] = str(why.seconds)
    return reply


async def fields(request: web.Request, reply: web.StreamResponse) -> None:
    """Pages of any host may read; what is read depends on who asks and in which form."""
    cors(request, reply)
    if reply.status == 401 and has_bearer(request):
        # A challenge of Basic would make a browser ask its user for a password.
        reply.headers["WWW-Authenticate"] = 'Bearer error="invalid_token"'
    if request.path.startswith("/api/"):
        reply.headers["Cache-Control"] = "no-cache"
        reply.headers["Vary"] = "Accept, Accept-Encoding, Authorization"
    else:
        reply.headers.setdefault("Content-Security-Policy", PAGE_CSP)
    reply.headers["X-Content-Type-Options"] = "nosniff"
    reply.headers["Server"] = "Hegunsap"


def around(gateway: Gateway) -> object:
    @web.middleware
    async def answer(request: web.Request, handler: Callable[[web.Request], Awaitable[web.StreamResponse]]) -> web.StreamResponse:
        address, begun = address_of(request), time.monotonic()
        try:
            check_host(gateway.words, request)
            gateway.rates.check(address)
            reply = options(request) if request.method == "OPTIONS" else await handler(request)
        except Refused as why:
            if isinstance(why, NoDisk):
                tell(f"{shown(request.method)} {shown(request.path)}: no room on the disk: {why.why}")
            reply = refused(why)
        except web.HTTPException as why:
            reply = unfound(request, why)
        except (ConnectionError, ClientPayloadError) as why:
            tell(f"{shown(request.method)} {shown(request.path)}: its sender is gone: {shown(str(why))[:200]}")
            reply = refused(Refused(400, "The document ends too early"))
        except Exception as why:
            tell(f"{shown(request.method)} {shown(request.path)}: {where(why)}")
            reply = refused(Refused(500, f"The gateway failed at this: {type(why).__name__}"))
        gateway.rates.count(address, reply.body_length or reply.content_length or 0)
        if gateway.counts is not None:
            gateway.counts.answered(request.get("call", OTHER), reply.status, time.monotonic() - begun)
        texts = request.get("texts")
        if texts is not None and texts.lost:
            tell(f"{texts.lost} characters that XML can't hold are U+FFFD in the reply to {request.method} {shown(request.path)}")
        return reply

    return answer


# ---- the page


FORMS: tuple[tuple[tuple[str, ...], str, Callable[[Gateway, web.Request], Awaitable[web.StreamResponse]]], ...] = (
    (("GET", "POST"), "/oauth2/authorize", calls_oauth.authorize),
    (("GET",), "/oauth2/authorize/native", calls_oauth.native),
    (("POST",), "/oauth2/token", calls_oauth.token),
    (("POST",), "/oauth2/revoke", calls_oauth.revoke),
    (("GET", "POST"), "/oauth2/applications", calls_oauth.applications),
    (("GET", "POST"), "/oauth2/authorized_applications", calls_oauth.authorized),
    (("GET", "POST"), "/users", calls_users.edit),
    (("GET", "POST"), "/user_blocks", blocks_page.newest),
    (("GET", "POST"), "/user_blocks/{id:[0-9]{1,19}}", blocks_page.one),
    (("GET",), "/history/comments/feed", calls_discussions.feed),
    (("GET",), "/changeset/{id:[0-9]{1,19}}/comments/feed", calls_discussions.feed),
    (("GET",), "/id", id_editor.moved),
    (("GET",), "/id/", id_editor.index),
    (("GET",), "/id/there", id_editor.there),
    (("GET",), "/id/land.html", id_editor.land),
    (("GET",), "/id/{path:.+}", id_editor.file),
    (("GET",), "/.well-known/oauth-authorization-server", calls_oauth.metadata),
    # Where JOSM looks for it.
    (("GET",), "/api/.well-known/oauth-authorization-server", calls_oauth.metadata),
)
"""Pages and endpoints that are none of OSM's API."""


def shown_by(gateway: Gateway, handler: Callable[[Gateway, web.Request], Awaitable[web.StreamResponse]]) -> Callable[[web.Request], Awaitable[web.StreamResponse]]:
    async def answer(request: web.Request) -> web.StreamResponse:
        request["call"] = name_of(handler)
        return await handler(gateway, request)

    return answer


ADDRESSES = (
    f"/{KIND}/{ID}{{rest:(?:/history)?/?}}", f"/changeset/{ID}{{rest:/?}}", f"/note/{ID}{{rest:/?}}", "/user/{name:[^/]+}{rest:/?}",
    "/user/{name:[^/]+}/{what:history|notes}", "/history",
)  # fmt: skip
"""What JOSM, iD and people open: the page reads its own address."""


async def index(_: Gateway, __: web.Request) -> web.StreamResponse:
    return web.Response(text=pages.of_file("index.html"), content_type="text/html", charset="utf-8")


CALLS = sorted({name_of(it[2]) for it in (*TABLE, *OWN_ENDS)} | {name_of(it) for it in (index, *(row[2] for row in FORMS))})
"""What requests are counted as."""


def routes(gateway: Gateway) -> Iterator[tuple[str, str, Callable[[web.Request], Awaitable[web.StreamResponse]]]]:
    for end, table in ((END, TABLE), ("", OWN_ENDS)):
        for method, path, handler in table:
            yield method, ("" if path.startswith("/") else API) + path + end, served(gateway, handler)
    for methods, path, page in FORMS:
        for method in methods:
            yield method, path, shown_by(gateway, page)
    for path in ("/", *ADDRESSES):
        yield "GET", path, shown_by(gateway, index)


def app_of(gateway: Gateway) -> web.Application:
    gateway.overview = overview.Kept()
    app = web.Application(middlewares=[around(gateway)])  # type: ignore[list-item]
    for method, path, handler in routes(gateway):
        for name in (method, "HEAD") if method == "GET" else (method,):
            app.router.add_route(name, path, handler)
    app.router.add_static("/page", pages.FOLDER)
    if os.path.isdir(LEAFLET):
        app.router.add_static("/leaflet", LEAFLET, follow_symlinks=True)
    app.on_response_prepare.append(fields)
    return app
