"""Pages of other hosts: every call of the interface with a Bearer, and its preflight; passwords, cookies and frames stay refused."""

from __future__ import annotations

from behind import ALICE, Came, Gateway, Site, want
from oauth import BACK, bearer, registered

ORIGIN = "https://editor.example"
NODE = '<osm><node changeset="{}" lat="1" lon="1"/></osm>'


def preflight(gateway: Gateway, method: str, path: str) -> None:
    came = gateway.ask(
        "OPTIONS", path, Origin=ORIGIN, Access_Control_Request_Method=method, Access_Control_Request_Headers="authorization,content-type"
    )
    want(
        (came.status, came.fields["Access-Control-Allow-Origin"], came.fields["Access-Control-Allow-Credentials"]),
        (204, "*", None),
        f"a preflight of {path}",
    )
    allowed = came.fields["Access-Control-Allow-Methods"].split(", "), came.fields["Access-Control-Allow-Headers"].lower().split(", ")
    want((method in allowed[0], {"authorization", "content-type"} <= set(allowed[1])), (True, True), f"what {path} allows")


def asked(gateway: Gateway, method: str, path: str, body: str | None = None, who: str = "", **fields: str) -> Came:
    came = gateway.api(method, path, body, who, Origin=ORIGIN, **fields)
    want(came.fields["Access-Control-Allow-Origin"], "*", f"the origin of {method} {path}, {came.status}")
    return came


def with_bearer(gateway: Gateway, who: str) -> int:
    """Each sort of call, with its preflight; how many there were."""
    number = asked(gateway, "PUT", "changeset/create", "<osm><changeset/></osm>", who).text
    node = asked(gateway, "PUT", "node/create", NODE.format(number), who).text
    moved = f'<osm><node id="{node}" version="1" changeset="{number}" lat="1" lon="2"/></osm>'
    gone = f'<osm><node id="{node}" version="2" changeset="{number}"/></osm>'
    calls: tuple[tuple[str, str, str | None], ...] = (
        ("GET", "capabilities.json", None), ("GET", "map?bbox=0,0,0.1,0.1", None), ("GET", "user/details.json", None), ("GET", "user/preferences", None),
        ("PUT", "user/preferences/a", "b"), ("DELETE", "user/preferences/a", None), ("PUT", f"node/{node}", moved), ("DELETE", f"node/{node}", gone),
        ("POST", f"changeset/{number}/upload", f'<osmChange><create><node id="-1" changeset="{number}" lat="1" lon="1"/></create></osmChange>'),
        ("PUT", f"changeset/{number}", "<osm><changeset/></osm>"), ("PUT", f"changeset/{number}/close", None), ("GET", f"changeset/{number}/download", None),
        ("POST", f"changeset/{number}/comment?text=x", ""), ("POST", f"changeset/{number}/unsubscribe", ""), ("GET", "changesets?user=1", None),
        ("POST", "notes?lat=1&lon=1&text=x", ""), ("POST", "notes/1/comment?text=y", ""), ("POST", "notes/1/close", ""),
        ("POST", "notes/1/reopen", ""), ("GET", "notes?bbox=0,0,2,2", None),
    )  # fmt: skip
    for method, path, body in calls:
        preflight(gateway, method, f"/api/0.6/{path}")
        came = asked(gateway, method, path, body, who)
        want(came.status, 200, f"{method} {path} from another origin: {came.text}")
    for path in ("/oauth2/token", "/oauth2/revoke"):
        preflight(gateway, "POST", path)
        want(gateway.ask("POST", path, "", Origin=ORIGIN).fields["Access-Control-Allow-Origin"], "*", path)
    want(
        asked(gateway, "PUT", "node/create", "<osm/>", who).fields["Access-Control-Expose-Headers"].split(", ")[0],
        "Error",
        "a refusal that may be read",
    )
    return len(calls) + 4


def refused(gateway: Gateway, who: str) -> None:
    for fields in ({"who": ALICE}, {"who": ""}, {"who": "", "Cookie": "session=1"}):
        came = asked(gateway, "PUT", "changeset/create", "<osm><changeset/></osm>", **fields)
        want((came.status, "Bearer alone" in came.text), (403, True), f"a change from another origin with {fields}")
    want(asked(gateway, "POST", "notes?lat=1&lon=1&text=x", "").status, 403, "a note from another origin, by nobody")
    came = gateway.api("PUT", "changeset/create", "<osm><changeset/></osm>", "", Cookie="token=alicetoken")
    want((came.status, came.fields["Set-Cookie"]), (401, None), "a cookie")
    came = asked(gateway, "GET", "user/details", who="Bearer nobodys")
    want(
        (came.status, came.fields["WWW-Authenticate"]), (401, 'Bearer error="invalid_token"'), "a challenge that makes no browser ask for a password"
    )
    for path in ("/oauth2/authorize?client_id=josm", "/oauth2/applications", "/oauth2/authorized_applications"):
        want(gateway.ask("GET", path, Origin=ORIGIN).fields["Access-Control-Allow-Origin"], None, f"{path}, which no other page reads")
        want(gateway.ask("POST", path, "name=alice&token=alicetoken", who, Origin=ORIGIN).status, 403, f"{path}, which no other page sends")
    for path in ("/", "/oauth2/applications", "/oauth2/authorize?client_id=nobody", "/id/"):
        policy = gateway.ask("GET", path).fields["Content-Security-Policy"]
        for name in ("frame-ancestors 'none'", "base-uri 'none'", "form-action 'self'", "default-src '"):
            want(name in policy, True, f"{name} in the policy of {path}: {policy}")


def run(program: str) -> str:
    with Site(program, notes=True) as gateway:
        number, _ = registered(gateway, BACK, ("read_prefs", "write_prefs", "write_api", "write_notes"))
        who = bearer(gateway, number, "read_prefs write_prefs write_api write_notes")
        count = with_bearer(gateway, who)
        with_bearer(gateway, "Bearer alicetoken")
        refused(gateway, who)
    return f"{count} calls from another origin by a token of OAuth and by a user's; passwords, cookies, frames refused"
