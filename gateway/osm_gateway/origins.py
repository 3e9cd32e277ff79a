"""Which hosts and which pages may call: names of this host, and pages of other hosts (CORS), which never come with cookies."""

from __future__ import annotations

import re

from aiohttp import web

from .refusals import Refused
from .words import Words

OPEN = re.compile(r"/api(/.*)?|/oauth2/(token|revoke)|(/api)?/\.well-known/.*")
"""What pages of other hosts call. The forms aren't among it."""
METHODS = "GET, HEAD, POST, PUT, DELETE, OPTIONS"
HEADERS = "Authorization, Accept, Accept-Language, Content-Type, Content-Encoding, X-Requested-With"
EXPOSED = "Error, Retry-After, WWW-Authenticate"
PAGE_CSP = "default-src 'self'; img-src 'self' data:; base-uri 'none'; form-action 'self'; frame-ancestors 'none'"
HANDS_OVER = ("/oauth2/token", "/oauth2/revoke")


def has_bearer(request: web.Request) -> bool:
    return request.headers.get("Authorization", "").lstrip().lower().startswith("bearer ")


def check_host(words: Words, request: web.Request) -> None:
    """A page of another name that resolves to this host must not speak for its reader. A browser adds a name and a password
    that it knows by itself, and never a Bearer: so a page of another host changes something by a Bearer alone."""
    named = request.headers.get("Host")
    if named is None and request.version >= (1, 1):
        raise Refused(400, "The field Host is missing")
    host = re.fullmatch(r"(\[[0-9a-f:.]+\]|[^:\[\]]*)(:[0-9]{1,5})?", (named if named is not None else "localhost").lower())
    if not host or host[1].strip("[]") not in words.hosts:
        raise Refused(421, f"This host isn't {(named or '')[:100]}; --host says what else it is called")
    origin = request.headers.get("Origin")
    if not origin or request.method in ("GET", "HEAD", "OPTIONS") or origin.split("://", 1)[-1] == named:
        return
    if not (has_bearer(request) and OPEN.fullmatch(request.path) or request.path in HANDS_OVER):
        raise Refused(403, "Pages of other hosts may read here, and change something with a Bearer alone")


def cors(request: web.Request, reply: web.StreamResponse) -> None:
    """Never with credentials of the browser's own, so that `*` gives nothing away."""
    if OPEN.fullmatch(request.path) or request.method in ("GET", "HEAD") and not request.path.startswith(("/oauth2/", "/users")):
        reply.headers["Access-Control-Allow-Origin"] = "*"
        reply.headers["Access-Control-Expose-Headers"] = EXPOSED


def options(request: web.Request) -> web.Response:
    """What a call may be done with, and a browser's question whether a page of another host may (a preflight)."""
    found = request.match_info.http_exception
    if not isinstance(found, web.HTTPMethodNotAllowed):
        raise Refused(404, f"There is no {request.path}")
    headers = {"Allow": ", ".join(sorted({*found.allowed_methods, "OPTIONS"}))}
    if OPEN.fullmatch(request.path):
        headers |= {
            "Access-Control-Allow-Origin": "*", "Access-Control-Allow-Methods": METHODS, "Access-Control-Allow-Headers": HEADERS,
            "Access-Control-Max-Age": "3600",
        }  # fmt: skip
    return web.Response(status=204, headers=headers)
