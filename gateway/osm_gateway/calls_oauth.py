"""OAuth's pages and endpoints: /oauth2/authorize, /oauth2/token, /oauth2/revoke, what says where they are, and the forms
by which an application is registered and withdrawn. No cookie is set anywhere: each form has its user's name and token."""

from __future__ import annotations

import asyncio
import base64
import binascii
from collections.abc import Callable
from html import escape
from typing import Any
from urllib.parse import parse_qsl, unquote, urlencode, urlsplit

from aiohttp import web
from oauthlib.oauth2 import FatalClientError, OAuth2Error

from . import pages
from .call import Gateway
from .oauth import OUT_OF_BAND, SCOPES, is_redirect
from .people import User
from .refusals import Refused

FORM_BYTES, FORM_SECONDS = 1 << 16, 30.0
WRONG = "That name and that token don't belong together."


async def form_of(request: web.Request) -> dict[str, str]:
    """The fields of a form; of a name that comes twice the first."""
    text = b""
    try:
        async with asyncio.timeout(FORM_SECONDS):
            async for data in request.content.iter_any():
                text += data
                if len(text) > FORM_BYTES:
                    raise Refused(413, f"The form has more than {FORM_BYTES} bytes")
    except TimeoutError:
        raise Refused(408, f"The form didn't come within {FORM_SECONDS:.0f} seconds") from None
    try:
        rows = parse_qsl(text.decode("utf-8"), keep_blank_values=True, max_num_fields=100)
    except ValueError:
        raise Refused(400, "The form can't be read") from None
    return dict(reversed(rows))


def target_of(address: str) -> str:
    """Where a browser may be led after the form, as its Content-Security-Policy says it."""
    parts = urlsplit(address)
    return f"{parts.scheme}://{parts.netloc}" if parts.scheme in ("http", "https") else f"{parts.scheme}:"


# ---- /oauth2/authorize


def redirected(address: str) -> web.Response:
    return web.Response(status=302, headers={"Location": address, "Cache-Control": "no-store", "Referrer-Policy": "no-referrer"})


def led(gateway: Gateway, address: str) -> web.Response:
    """Back to the application, or to a page that shows the code."""
    return redirected(f"/oauth2/authorize/native?{urlsplit(address).query}" if address.startswith(OUT_OF_BAND) else address)


async def authorize(gateway: Gateway, request: web.Request) -> web.StreamResponse:
    uri, oauth = str(request.url), gateway.oauth
    try:
        scopes, found = oauth.validate_authorization_request(uri)
        given = await form_of(request) if request.method == "POST" else {}
        if not given:
            return consent(gateway, scopes, found)
        if given.get("answer") != "yes":
            denied = {"error": "access_denied", "error_description": "The user has denied it"} | ({"state": found["state"]} if found["state"] else {})
            address = found["redirect_uri"]
            return led(gateway, f"{address}{'&' if '?' in address else '?'}{urlencode(denied)}")
        user = gateway.callers.log_in(request, given.get("name", ""), given.get("token", ""))
        if user is None:
            return consent(gateway, scopes, found, given.get("name", ""), WRONG)
        headers, _, _ = oauth.create_authorization_response(uri, credentials={"user": user})
        return led(gateway, headers["Location"])
    except FatalClientError as why:
        # Whoever can't be led back to a known address stays here (RFC 6749, section 4.1.2.1).
        return pages.page(
            "This can't be allowed", pages.paragraph(f"{why.error}: {why.description or 'the application is not known here'}"), status=400
        )
    except OAuth2Error as why:
        fault: Any = why
        return (
            led(gateway, fault.in_uri(fault.redirect_uri))
            if why.redirect_uri
            else pages.page("This can't be allowed", pages.paragraph(str(why)), status=400)
        )


def consent(gateway: Gateway, scopes: list[str], found: dict[str, Any], name: str = "", wrong: str = "") -> web.Response:
    it = gateway.oauth.grants.application(found["client_id"])
    address = found["redirect_uri"]
    where = "shows you a code for it" if address == OUT_OF_BAND else f"leads you to {target_of(address)}"
    return pages.page(
        f"May {it.name if it else '?'} work in your name?",
        pages.paragraph("It will be able to"), pages.listed(SCOPES[scope] for scope in scopes),
        pages.paragraph(f"This page then {where}. The application never sees your token."),
        pages.form(
            pages.paragraph(wrong, "wrong") if wrong else "", pages.who(name), pages.button("answer", "yes", "Allow it"),
            pages.button("answer", "no", "Deny it", unchecked=True),
        ),
        status=401 if wrong else 200, form_action="" if address == OUT_OF_BAND else target_of(address),
    )  # fmt: skip


async def native(gateway: Gateway, request: web.Request) -> web.StreamResponse:
    """The code of an application without an address."""
    code = request.query.get("code")
    if not code:
        return pages.page("It wasn't allowed", pages.paragraph("You may close this page."))
    return pages.page("The code for the application", pages.paragraph("Copy it into the application:"), f"<p><code>{escape(code)}</code></p>\n")


# ---- /oauth2/token, /oauth2/revoke


async def asked(request: web.Request) -> str:
    """The parameters as a form: of the body, of the query too (iD has them there), and an application's Basic."""
    given = dict(request.query) | await form_of(request)
    kind, _, text = request.headers.get("Authorization", "").strip().partition(" ")
    if kind.lower() == "basic":
        try:
            number, _, secret = base64.b64decode(text.strip(), validate=True).decode("utf-8").partition(":")
        except (binascii.Error, UnicodeDecodeError):
            raise Refused(401, "The field Authorization can't be read") from None
        given |= {"client_id": unquote(number), "client_secret": unquote(secret)}
    return urlencode(given)


def said(found: tuple[dict[str, str], str, int]) -> web.Response:
    headers, text, status = found
    reply = web.Response(status=status, text=text or "", content_type="application/json", charset="utf-8")
    reply.headers.update({name: value for name, value in headers.items() if name != "Content-Type"})
    reply.headers.update({"Cache-Control": "no-store", "Pragma": "no-cache"})
    return reply


async def token(gateway: Gateway, request: web.Request) -> web.StreamResponse:
    return await answered(gateway, request, gateway.oauth.create_token_response)


async def revoke(gateway: Gateway, request: web.Request) -> web.StreamResponse:
    return await answered(gateway, request, gateway.oauth.create_revocation_response)


async def answered(gateway: Gateway, request: web.Request, answer: Callable[..., Any]) -> web.Response:
    """What oauthlib answers; a wrong code or secret counts as a guess."""
    gateway.callers.check(request)
    form = await asked(request)
    reply = said(answer(f"{gateway.site(request)}{request.path}", "POST", form, {}))
    if reply.status in (400, 401):
        gateway.callers.guessed(request, form)
    return reply


async def metadata(gateway: Gateway, request: web.Request) -> web.StreamResponse:
    return web.json_response(gateway.oauth.metadata(gateway.site(request)))


# ---- applications


async def applications(gateway: Gateway, request: web.Request) -> web.StreamResponse:
    """A form that registers one, as a user of the users text."""
    given = await form_of(request) if request.method == "POST" else {}
    if not given:
        return registering({}, "")
    user = gateway.callers.log_in(request, given.get("name", ""), given.get("token", ""))
    redirects, scopes = given.get("redirects", "").split(), [it for it in SCOPES if it in given]
    if user is None:
        return registering(given, WRONG)
    title = given.get("application", "").strip()
    if not title or len(title) > 100 or not scopes:
        return registering(given, "An application has a name of at most a hundred characters, and is allowed something.")
    if not 0 < len(redirects) <= 20 or not all(map(is_redirect, redirects)):
        return registering(given, f"An address is https, http to 127.0.0.1 or localhost, a scheme of the application's own, or {OUT_OF_BAND}.")
    number, secret = gateway.oauth.grants.register(user, title, redirects, scopes, "secret" in given)
    rows = [f"client_id {number}"] + ([f"client_secret {secret}"] if secret else [])
    return pages.page(
        f"{title} is registered",
        pages.listed(rows),
        pages.paragraph("The secret isn't shown again." if secret else "It has no secret, and uses PKCE."),
    )


def registering(given: dict[str, str], wrong: str) -> web.Response:
    boxes = "".join(
        pages.entry(text, scope, "yes", "checkbox", "checked" if scope in given or not given and "gpx" not in scope else "")
        for scope, text in SCOPES.items()
    )
    field = f'<textarea name="redirects" rows="3">{escape(given.get("redirects", ""))}</textarea>'
    redirects = f"<label>Addresses that it may be led back to, one a line {field}</label>\n"
    keeps = "It can keep a secret (a web server can, a page or a program on a desk can't)"
    parts = (
        pages.paragraph(wrong, "wrong") if wrong else "", pages.entry("The application's name", "application", given.get("application", "")), redirects,
        pages.paragraph("What it may ask for:"), boxes,
        pages.entry(keeps, "secret", "yes", "checkbox", "checked" if "secret" in given else ""),
        pages.paragraph("Who you are:"), pages.who(given.get("name", "")), pages.button("do", "register", "Register it"),
    )  # fmt: skip
    return pages.page("Register an application", pages.form(*parts), status=400 if wrong else 200)


async def authorized(gateway: Gateway, request: web.Request) -> web.StreamResponse:
    """What a user has allowed, and a way to end it."""
    given = await form_of(request) if request.method == "POST" else {}
    if not given:
        return pages.page("Applications that you have allowed something", pages.form(pages.who(), pages.button("do", "show", "Show them")))
    user = gateway.callers.log_in(request, given.get("name", ""), given.get("token", ""))
    if user is None:
        return pages.page(
            "Applications",
            pages.form(pages.paragraph(WRONG, "wrong"), pages.who(given.get("name", "")), pages.button("do", "show", "Show them")),
            status=401,
        )
    if "end" in given:
        gateway.oauth.grants.withdraw(user, given["end"])
    return shown(gateway, user)


def shown(gateway: Gateway, user: User) -> web.Response:
    rows = gateway.oauth.grants.granted(user)
    parts = [pages.paragraph(f"{name}: {scopes}") + pages.button("end", number, f"End what {name} may") for number, name, scopes, _ in rows]
    title = f"What {user.name} has allowed"
    return pages.page(
        title,
        pages.form(*parts, pages.paragraph("To end one, say again who you are:"), pages.who(user.name)) if rows else pages.paragraph("Nothing."),
    )


__all__ = ["applications", "authorize", "authorized", "metadata", "native", "revoke", "token"]
