"""OAuth 2.0 as scripts, web servers and programs without an address use it, with python3-requests-oauthlib; and what must be refused."""

from __future__ import annotations

import json
import os
import re
import tempfile
from urllib.parse import parse_qsl, urlencode, urlsplit

from behind import ALICE, BOB, Came, Gateway, Site, basic, has, want

os.environ["OAUTHLIB_INSECURE_TRANSPORT"] = "1"  # the loopback alone

from requests_oauthlib import OAuth2Session  # noqa: E402

BACK = "http://127.0.0.1:8111/back"
OOB = "urn:ietf:wg:oauth:2.0:oob"
# The pair of RFC 7636, appendix B.
VERIFIER, CHALLENGE = "dBjftJeZ4CVP-mB92K27uhbUJU1p1r_wW1gFWFOEjXk", "E9Melhoa2OwvFrEMTJguCHaoeK1t8URWbuGJSstw-cM"
FORM = "application/x-www-form-urlencoded"


def post(gateway: Gateway, path: str, fields: dict[str, str], **more: str) -> Came:
    return gateway.ask("POST", path, urlencode(fields), Content_Type=FORM, **more)


def registered(gateway: Gateway, redirect: str, scopes: tuple[str, ...], secret: bool = False) -> tuple[str, str]:
    fields = {"application": "A <trial>", "redirects": redirect, "name": "alice", "token": "alicetoken"} | {it: "yes" for it in scopes}
    came = post(gateway, "/oauth2/applications", fields | ({"secret": "yes"} if secret else {}))
    want(came.status, 200, f"registering: {came.text}")
    has(came.text, "A &lt;trial&gt; is registered", "a name as a text")
    found = dict(re.findall(r"<li>(client_\w+) ([\w-]+)</li>", came.text))
    return found["client_id"], found.get("client_secret", "")


def allowed(gateway: Gateway, address: str, name: str = "alice", token: str = "alicetoken", answer: str = "yes") -> Came:
    """The form of consent, filled in."""
    path = address.removeprefix(f"http://127.0.0.1:{gateway.port}")
    page = gateway.ask("GET", path)
    want((page.status, "Set-Cookie" in page.fields), (200, False), f"the form: {page.text[:300]}")
    has(page.fields["Content-Security-Policy"], "frame-ancestors 'none'", "no frame around the form")
    return post(gateway, path, {"name": name, "token": token, "answer": answer})


def code_of(came: Came) -> dict[str, str]:
    want(came.status, 302, f"the way back: {came.text[:300]}")
    return dict(parse_qsl(urlsplit(came.fields["Location"]).query))


def address(number: str, **more: str) -> str:
    fields = {
        "client_id": number,
        "response_type": "code",
        "redirect_uri": BACK,
        "scope": "read_prefs",
        "code_challenge": CHALLENGE,
        "code_challenge_method": "S256",
    }
    return "/oauth2/authorize?" + urlencode({name: value for name, value in (fields | more).items() if value})


def exchanged(gateway: Gateway, number: str, code: str, **more: str) -> Came:
    fields = {"grant_type": "authorization_code", "client_id": number, "code": code, "redirect_uri": BACK, "code_verifier": VERIFIER}
    return post(gateway, "/oauth2/token", {name: value for name, value in (fields | more).items() if value})


def bearer(gateway: Gateway, number: str, scope: str, name: str = "alice") -> str:
    code = code_of(allowed(gateway, address(number, scope=scope), name, f"{name}token"))["code"]
    came = exchanged(gateway, number, code)
    want(came.status, 200, f"a token: {came.text}")
    return f"Bearer {json.loads(came.text)['access_token']}"


# ---- the ways to a token


def session(gateway: Gateway) -> None:
    """A script with python3-requests-oauthlib: PKCE, a state, a loopback's port that wasn't registered."""
    site = f"http://127.0.0.1:{gateway.port}"
    found = json.loads(gateway.ask("GET", "/.well-known/oauth-authorization-server").text)
    want((found["issuer"], found["code_challenge_methods_supported"]), (site, ["S256"]), "what the server says of itself")
    number, _ = registered(gateway, BACK, ("read_prefs", "write_api"))
    it = OAuth2Session(number, redirect_uri="http://127.0.0.1:22999/back", scope=["read_prefs", "write_api"])
    start, state = it.authorization_url(found["authorization_endpoint"], code_challenge=CHALLENGE, code_challenge_method="S256")
    back = allowed(gateway, start)
    want(code_of(back)["state"], state, "the state that comes back")
    token = it.fetch_token(found["token_endpoint"], authorization_response=back.fields["Location"], include_client_id=True, code_verifier=VERIFIER)
    want((token["token_type"], sorted(token["scope"]), "refresh_token" in token), ("Bearer", ["read_prefs", "write_api"], False), "a token")
    want(it.get(f"{site}/api/0.6/user/details.json").json()["user"]["display_name"], "alice", "whom it stands for")
    made = it.put(f"{site}/api/0.6/changeset/create", data='<osm><changeset><tag k="comment" v="by OAuth"/></changeset></osm>')
    want(made.status_code, 200, f"a changeset: {made.text}")
    want(json.loads(gateway.well("GET", f"changeset/{made.text}.json"))["changeset"]["user"], "alice", "whose changeset it is")
    want(it.put(f"{site}/api/0.6/user/preferences/a", data="b").status_code, 403, "what wasn't allowed")
    want(it.post(found["revocation_endpoint"], data={"token": token["access_token"], "client_id": number}).status_code, 200, "a revocation")
    want(it.get(f"{site}/api/0.6/user/details.json").status_code, 401, "a token that was revoked")


def with_secret(gateway: Gateway) -> None:
    """A web server, which has a secret, in a body or by Basic; and a program without an address, whose user copies the code."""
    number, secret = registered(gateway, f"https://editor.example/back\n{OOB}", ("read_prefs", "write_notes"), secret=True)
    place = "https://editor.example/back"
    start = address(number, redirect_uri=place, scope="read_prefs write_notes", code_challenge="", code_challenge_method="")
    ways: tuple[tuple[dict[str, str], dict[str, str]], ...] = (
        ({"client_secret": secret}, {}), ({"client_id": ""}, {"Authorization": basic(number, secret)}),
    )  # fmt: skip
    for given, headers in ways:
        code = code_of(allowed(gateway, start, "bob", "bobtoken"))["code"]
        fields = {"grant_type": "authorization_code", "client_id": number, "code": code, "redirect_uri": place} | given
        came = post(gateway, "/oauth2/token", {name: value for name, value in fields.items() if value}, **headers)
        want(came.status, 200, f"a token for {sorted(given)}: {came.text}")
        want((came.fields["Cache-Control"], "expires_in" in json.loads(came.text)), ("no-store", False), "a token that lasts")
    code = code_of(allowed(gateway, start, "bob", "bobtoken"))["code"]
    wrong = {"grant_type": "authorization_code", "client_id": number, "code": code, "redirect_uri": place, "client_secret": "x"}
    want(
        (post(gateway, "/oauth2/token", wrong).status, post(gateway, "/oauth2/token", wrong | {"client_secret": ""}).status),
        (401, 401),
        "a wrong secret",
    )
    shown = allowed(gateway, address(number, redirect_uri=OOB), "bob", "bobtoken")
    want(urlsplit(shown.fields["Location"]).path, "/oauth2/authorize/native", "a page that shows the code")
    copied = re.findall("<code>(.*?)</code>", gateway.ask("GET", shown.fields["Location"]).text)
    want(exchanged(gateway, number, copied[0], redirect_uri=OOB, client_secret=secret).status, 200, "a code that was copied")


def as_the_editor(gateway: Gateway) -> None:
    """iD has the parameters of the token in the query of a POST without a body; its address is this host's /id/land.html."""
    place = f"http://127.0.0.1:{gateway.port}/id/land.html"
    code = code_of(allowed(gateway, address("id", redirect_uri=place, scope="read_prefs write_prefs write_api read_gpx write_notes")))["code"]
    fields = {"client_id": "id", "redirect_uri": place, "grant_type": "authorization_code", "code": code, "code_verifier": VERIFIER}
    came = gateway.ask("POST", f"/oauth2/token?{urlencode(fields)}", Content_Type=FORM)
    want(came.status, 200, f"a token for iD: {came.text}")
    has(json.loads(came.text)["scope"], "write_api", "what it allows")
    with open(gateway.log, encoding="utf-8") as file:
        want(code in file.read(), False, "a code in the log")


# ---- what is refused


def refusals(gateway: Gateway) -> None:
    number, _ = registered(gateway, BACK, ("read_prefs",))
    for why, path in (
        ("an unknown application", address("nobody")),
        ("another address", address(number, redirect_uri="https://elsewhere.example/back")),
        ("an address that only begins so", address(number, redirect_uri=f"{BACK}/more")),
        ("no address of iD's host", address("id", redirect_uri="http://elsewhere.example/id/land.html")),
    ):  # fmt: skip
        came = gateway.ask("GET", path)
        want((came.status, came.fields["Location"]), (400, None), f"{why}: nobody is led there")
    for why, more, error in (
        ("without PKCE", {"code_challenge": "", "code_challenge_method": ""}, "invalid_request"),
        ("plain", {"code_challenge_method": "plain"}, "invalid_request"),
        ("a scope that it hasn't", {"scope": "read_prefs write_api"}, "invalid_scope"),
        ("a token at once", {"response_type": "token"}, "unsupported_response_type"),
    ):  # fmt: skip
        came = gateway.ask("GET", address(number, state="s", **more))
        want((came.status, code_of(came)["error"], code_of(came)["state"]), (302, error, "s"), why)
    want(
        code_of(allowed(gateway, address(number, state="s"), answer="no")),
        {"error": "access_denied", "error_description": "The user has denied it", "state": "s"},
        "a denial",
    )
    want(allowed(gateway, address(number), "alice", "bobtoken").status, 401, "a wrong token in the form")
    code = code_of(allowed(gateway, address(number)))["code"]
    for why, more in (("a wrong verifier", {"code_verifier": "x" * 43}), ("no verifier", {"code_verifier": ""}), ("another application", {"client_id": "josm"}),
                      ("another address", {"redirect_uri": f"{BACK}2"}), ("a wrong code", {"code": "x"})):  # fmt: skip
        want(exchanged(gateway, number, **({"code": code} | more)).status // 100, 4, why)
    first = exchanged(gateway, number, code)
    want(first.status, 200, f"the code is there still: {first.text}")
    who = f"Bearer {json.loads(first.text)['access_token']}"
    gateway.well("GET", "user/details", who=who)
    want(json.loads(exchanged(gateway, number, code).text)["error"], "invalid_grant", "a code for a second time")
    want(gateway.api("GET", "user/details", who=who).status, 401, "the token of a code that came twice")
    for redirects in ("javascript:alert(1)", "http://elsewhere.example/", "https://user@h.example/", "https://h.example/#x", "", "data:text/html,x"):
        fields = {"application": "x", "redirects": redirects, "read_prefs": "yes", "name": "alice", "token": "alicetoken"}
        want(post(gateway, "/oauth2/applications", fields).status, 400, f"an application at {redirects}")


def scopes(gateway: Gateway) -> None:
    """Each kind of call with a token that allows it, and with one that doesn't."""
    number, _ = registered(gateway, BACK, ("read_prefs", "write_prefs", "write_api", "write_notes"))
    calls = {
        "read_prefs": ("GET", "user/details"), "write_prefs": ("PUT", "user/preferences/k"), "write_api": ("PUT", "changeset/create"),
        "write_notes": ("POST", "notes?lat=1&lon=1&text=x"),
    }  # fmt: skip
    whos = {scope: bearer(gateway, number, scope) for scope in calls}
    for scope, (method, path) in calls.items():
        for other, who in whos.items():
            came = gateway.api(method, path, "" if method == "GET" else "v" if "pref" in path else "", who)
            want(came.status, 200 if scope == other else 403, f"{method} {path} with {other}: {came.text}")
    talker = bearer(gateway, registered(gateway, BACK, ("write_changeset_comments",))[0], "write_changeset_comments")
    talk = gateway.changeset()
    gateway.well("PUT", f"changeset/{talk}/close", who=ALICE)
    ends = [gateway.api("POST", f"changeset/{talk}/comment?text=x", "", it).status for it in (talker, whos["write_api"], whos["write_notes"])]
    want((ends, gateway.api("PUT", "changeset/create", "", talker).status), ([200, 200, 403], 403), "comments")
    want(gateway.api("GET", "capabilities", who=whos["write_notes"]).status, 200, "what anybody may read")
    want(json.loads(gateway.well("GET", "permissions.json", who=whos["write_api"]))["permissions"], ["allow_write_api"], "permissions of a token")
    want(gateway.api("POST", "redactions", "title=x", bearer(gateway, number, "write_api", "bob")).status, 403, "a redaction without its scope")


def withdrawn(gateway: Gateway) -> None:
    """What a user has allowed, as he sees and ends it."""
    number, _ = registered(gateway, BACK, ("read_prefs",))
    who = bearer(gateway, number, "read_prefs", "bob")
    gateway.well("GET", "user/details", who=who)
    mine = {"name": "bob", "token": "bobtoken"}
    has(post(gateway, "/oauth2/authorized_applications", mine).text, "A &lt;trial&gt;: read_prefs", "what bob has allowed")
    want(post(gateway, "/oauth2/authorized_applications", {"name": "alice", "token": "x", "end": number}).status, 401, "nobody else ends it")
    post(gateway, "/oauth2/authorized_applications", mine | {"end": number})
    want(gateway.api("GET", "user/details", who=who).status, 401, "what was ended")


def kept(server: int) -> None:
    """Behind a new start tokens are there still; not where the user has another token, or is gone."""
    with tempfile.TemporaryDirectory() as folder:
        more = ("--data", os.path.join(folder, "own"))
        with Gateway(server, more=more) as gateway:
            who = bearer(gateway, registered(gateway, BACK, ("read_prefs",))[0], "read_prefs")
        with Gateway(server, more=more) as gateway:
            gateway.well("GET", "user/details", who=who)
        with open(os.path.join(folder, "own"), "rb") as file:
            want(who.partition(" ")[2].encode() in file.read(), False, "a token in the file")
        for users in ("1 anothertoken user alice\n2 bobtoken moderator bob\n", "2 bobtoken moderator bob\n"):
            with Gateway(server, more=more, users=users) as gateway:
                want(gateway.api("GET", "user/details", who=who).status, 401, "a token of somebody who has another one, or is gone")


def guesses(server: int) -> None:
    """An address guesses twenty times and then waits, by Basic, Bearer, in the form; others aren't held up, nor is the name for whom it is known."""
    with Gateway(server) as gateway:

        def tried(address: str, who: str) -> Came:
            return gateway.api("GET", "user/details", who=who, X_Forwarded_For=f"10.0.0.1, {address}")

        want(tried("9.9.9.9", ALICE).status, 200, "alice from her address")
        want([tried("5.5.5.5", "Bearer revoked").status for _ in range(30)], [401] * 30, "the same wrong token, which is no guess")
        ends = [tried("1.1.1.1", basic("alice", f"w{it}") if it % 2 else f"Bearer w{it}").status for it in range(22)]
        want((ends[:20], ends[20:]), ([401] * 20, [429] * 2), "guesses of an address")
        came = tried("1.1.1.1", ALICE)
        want((came.status, 0 < int(came.fields["Retry-After"]) <= 6), (429, True), f"the right token among guesses: {came.text}")
        form = address("josm", redirect_uri="http://127.0.0.1:8111/oauth_authorization")
        want(post(gateway, form, {"name": "alice", "token": "x", "answer": "yes"}, X_Forwarded_For="1.1.1.1").status, 429, "the same in the form")
        want(tried("2.2.2.2", BOB).status, 200, "another address")
        many = [tried(f"3.3.{place // 15}.1", basic("alice", f"wrong{place}")).status for place in range(75)]
        want((many[0], many[-1]), (401, 429), "guesses of a name by many addresses")
        want((tried("4.4.4.4", ALICE).status, tried("9.9.9.9", ALICE).status), (429, 200), "alice from a new address, and from her own")


def run(program: str) -> str:
    with Site(program, notes=True) as gateway:
        parts = (session, with_secret, as_the_editor, refusals, scopes, withdrawn)
        for part in parts:
            part(gateway)
        kept(gateway.server)
        guesses(gateway.server)
    return f"requests-oauthlib logs in; {len(parts) + 2} parts of applications, codes, tokens, scopes, refusals, a new start, guesses"
