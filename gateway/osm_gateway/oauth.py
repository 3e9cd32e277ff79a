"""OAuth 2.0 (RFC 6749, 7636, 7009, 8414) by python3-oauthlib: applications, codes and tokens, in the gateway's own file.

A token of it stands for a user of the users text: behind the gateway the user's own token is used. It ends with its revocation,
and when the user's token in the users text is another one.
"""

from __future__ import annotations

import hashlib
import hmac
import re
import secrets
from collections.abc import Iterable
from dataclasses import dataclass
from typing import Any
from urllib.parse import urlsplit

from oauthlib import oauth2

from .people import People, User
from .store import Store, now

LIBRARY: Any = oauth2
"""Untyped: where its validator is to answer, its stubs say that nothing comes back."""
Request = Any
SCOPES = {
    "read_prefs": "read who you are and your preferences",
    "write_prefs": "change your preferences",
    "write_api": "change the map",
    "write_changeset_comments": "comment on changesets",
    "write_notes": "open, comment on and close notes",
    "write_redactions": "redact versions, where you are a moderator",
    "write_blocks": "block users, where you are a moderator",
    "read_gpx": "read your GPS traces (there are none here)",
    "write_gpx": "upload GPS traces (there are none here)",
}
"""Names as on OSM's servers, and what each allows."""
CODE_SECONDS = 600
OUT_OF_BAND = "urn:ietf:wg:oauth:2.0:oob"
"""A program without an address: its user copies the code from a page."""
LOOPBACK = ("127.0.0.1", "::1", "localhost")
UNSAFE = ("javascript", "data", "vbscript", "file", "blob", "about", "ftp", "ws", "wss")


@dataclass(frozen=True)
class Application:
    client_id: str
    name: str
    redirects: tuple[str, ...]
    scopes: tuple[str, ...]
    secret: str | None = None
    """The hash of it; None of a public one, which can't keep any."""


BUILT_IN = {
    "id": Application("id", "iD on this server", ("/id/land.html",), tuple(SCOPES)),
    "josm": Application("josm", "JOSM", ("http://127.0.0.1:8111/oauth_authorization",), tuple(SCOPES)),
}
"""Those that nobody has to register. A path is one of this host."""


def digest(*texts: str) -> str:
    return hashlib.sha256("\0".join(texts).encode("utf-8", "surrogatepass")).hexdigest()


def is_redirect(text: str) -> bool:
    """Whether an application may be given this address: https, http to the user's own machine, or a scheme of its own."""
    if text == OUT_OF_BAND:
        return True
    try:
        parts = urlsplit(text)
        port = parts.port
    except ValueError:
        return False
    if re.search(r"[\x00-\x20\x7f-\uffff\"'<>\\;,]", text) or parts.fragment or parts.username or port == 0:
        return False
    if parts.scheme == "http":
        return parts.hostname in LOOPBACK
    return bool(parts.scheme and parts.scheme not in UNSAFE and (parts.hostname or parts.scheme != "https"))


def is_same(registered: str, found: str, host: str) -> bool:
    """Whether an address is a registered one. The port of a loopback's is free (RFC 8252, section 7.3)."""
    if registered == found:
        return True
    a, b = urlsplit(registered), urlsplit(found)
    if registered.startswith("/"):
        return b.scheme in ("http", "https") and b.netloc == host and found.partition(b.netloc)[2] == registered
    if a.scheme == "http" and a.hostname in ("127.0.0.1", "::1"):
        return (a.scheme, a.hostname, a.path, a.query) == (b.scheme, b.hostname, b.path, b.query) and not b.username
    return False


class Grants(LIBRARY.RequestValidator):  # type: ignore[misc]
    """What oauthlib asks of us: who is registered, what was granted, and what is to be kept."""

    def __init__(self, store: Store, people: People) -> None:
        self.store, self.people = store, people

    # ---- applications

    def application(self, number: str | None) -> Application | None:
        if number in BUILT_IN:
            return BUILT_IN[number]
        row = self.store.one("SELECT id, name, redirects, scopes, secret FROM applications WHERE id = ?", number or "")
        return Application(row[0], row[1], tuple(row[2].split("\n")), tuple(row[3].split()), row[4]) if row else None

    def register(self, owner: User, name: str, redirects: Iterable[str], scopes: Iterable[str], has_secret: bool) -> tuple[str, str]:
        """Its id, and its secret where it has one."""
        number, secret = secrets.token_urlsafe(24), secrets.token_urlsafe(32) if has_secret else ""
        values = (number, digest(secret) if secret else None, name, "\n".join(redirects), " ".join(scopes), owner.id, now())
        self.store.do("INSERT INTO applications VALUES (?, ?, ?, ?, ?, ?, ?)", *values)
        return number, secret

    def validate_client_id(self, client_id: str, request: Request, *_: Any, **__: Any) -> bool:
        request.client = self.application(client_id)
        return request.client is not None

    def client_authentication_required(self, request: Request, *_: Any, **__: Any) -> bool:
        found = self.application(request.client_id)
        return found is None or found.secret is not None

    def authenticate_client(self, request: Request, *_: Any, **__: Any) -> bool:
        found = self.application(request.client_id)
        shown = digest(str(request.client_secret or ""))
        if found is None or found.secret is None or not hmac.compare_digest(found.secret, shown):
            return False
        request.client = found
        return True

    def authenticate_client_id(self, client_id: str, request: Request, *_: Any, **__: Any) -> bool:
        request.client = self.application(client_id)
        return request.client is not None and request.client.secret is None

    def validate_redirect_uri(self, client_id: str, redirect_uri: str, request: Request, *_: Any, **__: Any) -> bool:
        host = urlsplit(request.uri).netloc
        return any(is_same(it, redirect_uri, host) for it in request.client.redirects)

    def get_default_redirect_uri(self, client_id: str, request: Request, *_: Any, **__: Any) -> str | None:
        redirects: tuple[str, ...] = request.client.redirects
        return redirects[0] if len(redirects) == 1 and not redirects[0].startswith("/") else None

    def validate_response_type(self, client_id: str, response_type: str, *_: Any, **__: Any) -> bool:
        return response_type == "code"

    def validate_grant_type(self, client_id: str, grant_type: str, *_: Any, **__: Any) -> bool:
        return grant_type == "authorization_code"

    def get_default_scopes(self, client_id: str, request: Request, *_: Any, **__: Any) -> list[str]:
        return ["read_prefs"]

    def validate_scopes(self, client_id: str, scopes: list[str], client: Application, *_: Any, **__: Any) -> bool:
        return set(scopes) <= set(client.scopes)

    def is_pkce_required(self, client_id: str, request: Request) -> bool:
        return request.client.secret is None

    # ---- codes

    def save_authorization_code(self, client_id: str, code: dict[str, str], request: Request, *_: Any, **__: Any) -> None:
        user: User = request.user
        values = (digest(code["code"]), client_id, user.id, request.redirect_uri, " ".join(request.scopes), request.code_challenge)
        self.store.do_all((
            ("DELETE FROM codes WHERE until < ?", (now(),)),
            ("INSERT INTO codes VALUES (?, ?, ?, ?, ?, ?, ?, 0)", (*values, now() + CODE_SECONDS)),
        ))  # fmt: skip

    def validate_code(self, client_id: str, code: str, client: Application, request: Request, *_: Any, **__: Any) -> bool:
        row = self.store.one("SELECT user, redirect, scopes, challenge, used, application, until FROM codes WHERE hash = ?", digest(code))
        if row is None or row[5] != client_id or row[6] < now():
            return False
        if row[4]:
            # Somebody has it twice: what was given for it ends (RFC 6749, section 4.1.2).
            self.store.do("DELETE FROM tokens WHERE code = ?", digest(code))
            return False
        request.user, request.scopes = self.people.by_id.get(row[0]), row[2].split()
        request.granted_redirect, request.granted_challenge = row[1], row[3]
        return request.user is not None

    def confirm_redirect_uri(self, client_id: str, code: str, redirect_uri: str, client: Application, request: Request, *_: Any, **__: Any) -> bool:
        return bool(redirect_uri == request.granted_redirect)

    def get_code_challenge(self, code: str, request: Request) -> str | None:
        challenge: str | None = request.granted_challenge
        return challenge

    def get_code_challenge_method(self, code: str, request: Request) -> str:
        return "S256"

    def invalidate_authorization_code(self, client_id: str, code: str, request: Request, *_: Any, **__: Any) -> None:
        """It was used up with its token."""

    # ---- tokens

    def save_bearer_token(self, token: dict[str, Any], request: Request, *_: Any, **__: Any) -> None:
        """Keeps the token and uses its code up, both or none."""
        text, user = token["access_token"], request.user
        values = (digest(text), request.client_id, user.id, digest(text, user.token), token["scope"], digest(request.code), now())
        self.store.do_all((
            ("INSERT INTO tokens VALUES (?, ?, ?, ?, ?, ?, ?)", values),
            ("UPDATE codes SET used = 1 WHERE hash = ?", (digest(request.code),)),
        ))  # fmt: skip

    def revoke_token(self, token: str, token_type_hint: str | None, request: Request, *_: Any, **__: Any) -> None:
        self.store.do("DELETE FROM tokens WHERE hash = ? AND application = ?", digest(token), request.client.client_id)

    def user_of(self, token: str) -> tuple[User, frozenset[str]] | None:
        """Whom a token stands for, and what it allows."""
        row = self.store.one("SELECT user, bound, scopes FROM tokens WHERE hash = ?", digest(token))
        user = self.people.by_id.get(row[0]) if row else None
        if row is None or user is None or not hmac.compare_digest(row[1], digest(token, user.token)):
            return None
        return user, frozenset(row[2].split())

    def granted(self, user: User) -> list[tuple[str, str, str, int]]:
        """What a user has allowed: the application's id and name, the scopes, since when."""
        rows = self.store.all("SELECT application, scopes, min(made) FROM tokens WHERE user = ? GROUP BY application, scopes", user.id)
        found = [(row, self.application(row[0])) for row in rows]
        return [(row[0], it.name if it else row[0], row[1], row[2]) for row, it in found]

    def withdraw(self, user: User, application: str) -> int:
        """Ends all tokens that an application has of a user; how many there were."""
        return self.store.do("DELETE FROM tokens WHERE user = ? AND application = ?", user.id, application)


class Codes(LIBRARY.AuthorizationCodeGrant):  # type: ignore[misc]
    """Codes with PKCE by S256 alone: `plain` protects nobody who listens."""

    refresh_token = False
    _code_challenge_methods = {"S256": LIBRARY.AuthorizationCodeGrant._code_challenge_methods["S256"]}


class Lasting(LIBRARY.BearerToken):  # type: ignore[misc]
    """Tokens that last until they are revoked, as those of OSM's servers."""

    def create_token(self, request: Request, refresh_token: bool = False, **more: Any) -> dict[str, Any]:
        token: dict[str, Any] = super().create_token(request, refresh_token=False, **more)
        del token["expires_in"]
        token["created_at"] = now()
        return token


class OAuth(LIBRARY.AuthorizationEndpoint, LIBRARY.TokenEndpoint, LIBRARY.RevocationEndpoint):  # type: ignore[misc]
    """The three of oauthlib's endpoints that are served."""

    def __init__(self, store: Store, people: People) -> None:
        self.grants = Grants(store, people)
        codes, tokens = Codes(self.grants), Lasting(self.grants, token_generator=lambda _: secrets.token_urlsafe(32))
        LIBRARY.AuthorizationEndpoint.__init__(self, "code", tokens, {"code": codes})
        LIBRARY.TokenEndpoint.__init__(self, "authorization_code", tokens, {"authorization_code": codes})
        LIBRARY.RevocationEndpoint.__init__(self, self.grants, ["access_token"])

    def metadata(self, site: str) -> dict[str, Any]:
        """Where the endpoints are, and what they take (RFC 8414, section 2)."""
        authentication = ["none", "client_secret_post", "client_secret_basic"]
        return {
            "issuer": site,
            "authorization_endpoint": f"{site}/oauth2/authorize",
            "token_endpoint": f"{site}/oauth2/token",
            "revocation_endpoint": f"{site}/oauth2/revoke",
            "scopes_supported": list(SCOPES),
            "response_types_supported": ["code"],
            "response_modes_supported": ["query"],
            "grant_types_supported": ["authorization_code"],
            "token_endpoint_auth_methods_supported": authentication,
            "revocation_endpoint_auth_methods_supported": authentication,
            "code_challenge_methods_supported": ["S256"],
        }
