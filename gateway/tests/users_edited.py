"""The page by which moderators add, change and take out users, and the users text that it writes, which the server's own program has to take."""

from __future__ import annotations

import asyncio
import contextlib
import fcntl
import io
import json
import os
import random
import re
import resource
import signal
import stat
import subprocess
import tempfile
import time
from concurrent.futures import ThreadPoolExecutor
from html import unescape
from urllib.parse import urlencode

from behind import ALICE, BOB, Came, Gateway, Site, basic, has, refuses_to_start, want
from osm_gateway import users_file
from osm_gateway.people import BadUsers, People, people_of
from osm_gateway.processes import Columns
from osm_gateway.refusals import Refused
from osm_gateway.store import Store
from osm_gateway.users_file import Found, UsersFile, read_people, replace_text
from osm_gateway.users_text import Draft
from serving import Wrong

FORM = "application/x-www-form-urlencoded"
HIS = {"name": "bob", "token": "bobtoken"}
ODD = (
    "# the first line\r\n1 alicetoken user/1000000 alice\r\n\r\n002 bobtoken moderator/7 bob\r\n# 4 gonetoken user gone\r\n"
    "@large-from 5\r\n3 utoken user  Ünï  Cödé \r\n# the end"
)
"""Comments, an empty line, limits, zeros, spaces, a byte 13 before each 10, and no end of the last line."""
KEPT = "# highest id: {} (kept by the gateway, so that no id is given twice)"


def path_of(gateway: Gateway) -> str:
    return os.path.join(gateway.folder.name, "users.txt")


def text_of(gateway: Gateway) -> str:
    with open(path_of(gateway), encoding="utf-8", newline="") as file:
        return file.read()


def put(gateway: Gateway, text: str) -> None:
    """As an editor does who knows of no lock; the gateway isn't told."""
    with open(path_of(gateway), "w", encoding="utf-8", newline="") as file:
        file.write(text)


def read_again(gateway: Gateway) -> None:
    before = len(gateway.lines())
    gateway.process.send_signal(signal.SIGHUP)
    until = time.monotonic() + 20
    while not any("read again" in line for line in gateway.lines()[before:]):
        if time.monotonic() > until:
            raise Wrong("the text isn't read again")
        time.sleep(0.02)


def post(gateway: Gateway, fields: dict[str, str], **more: str) -> Came:
    return gateway.ask("POST", "/users", urlencode(fields), Content_Type=FORM, **more)


def shown(gateway: Gateway, who: dict[str, str] | None = None) -> str:
    """The page with the table."""
    came = post(gateway, (who or HIS) | {"do": "show"})
    want((came.status, came.fields["Cache-Control"], came.fields["Set-Cookie"]), (200, "no-store", None), f"the table: {came.text}")
    return came.text


def seen(page: str) -> str:
    found = re.search('name="seen" value="([^"]+)"', page)
    if not found:
        raise Wrong(f"the page has no mark of the text: {page}")
    return found[1]


def table(page: str) -> list[tuple[str, ...]]:
    rows = re.findall("<tr><td>.*? ([0-9]+)</label></td><td>(.*?)</td><td>(.*?)</td><td>(.*?)</td></tr>", page)
    return [tuple(map(unescape, row)) for row in rows]


def done(gateway: Gateway, do: str, status: int = 200, who: dict[str, str] | None = None, **fields: str) -> str:
    """What the page says to a change of the text as it is now."""
    came = post(gateway, (who or HIS) | {"do": do, "seen": seen(shown(gateway, who))} | fields)
    want(came.status, status, f"{do} {fields}: {came.text}")
    return came.text


def unchanged(gateway: Gateway, status: int, text: str, do: str, who: dict[str, str] | None = None, **fields: str) -> None:
    before = text_of(gateway), os.stat(path_of(gateway)).st_ino
    has(unescape(done(gateway, do, status, who, **fields)), text, f"{do} {fields}")
    want((text_of(gateway), os.stat(path_of(gateway)).st_ino), before, f"the text behind {do} {fields}")


def token_of(page: str) -> str:
    found = re.findall("<code>([A-Za-z0-9_-]{43})</code>", page)
    want(len(found), 1, f"tokens of the page {page}")
    return str(found[0])


def taken(program: str, path: str) -> bool:
    """Whether the server's own program takes the text of a file."""
    status = subprocess.run([program, "pipe", "--users", path], stdin=subprocess.DEVNULL, stdout=subprocess.DEVNULL).returncode
    if status not in (0, 2):
        raise Wrong(f"the program ends with status {status}")
    return status == 0


def takes(program: str, gateway: Gateway) -> None:
    want(taken(program, path_of(gateway)), True, f"whether the server takes {text_of(gateway)}")
    want(sorted(os.listdir(gateway.folder.name)), ["log", "told", "users.txt", "users.txt.lock"], "what stands beside it")


def details(gateway: Gateway, who: str) -> Came:
    return gateway.api("GET", "user/details.json", who=who)


# ---- what it does


def changes(program: str, gateway: Gateway) -> None:
    put(gateway, ODD)
    os.chmod(path_of(gateway), 0o640)
    read_again(gateway)
    rows = [("1", "alice", "user", "1,000,000"), ("2", "bob", "moderator", "7"), ("3", " Ünï  Cödé ", "user", "")]
    page = shown(gateway)
    want(table(page), rows, "the table")
    want([it for it in ("alicetoken", "bobtoken", "utoken", "gonetoken") if it in page], [], "tokens of the page")
    name = 'Dora: <b>&amp; "Ω"'
    page = done(gateway, "add", new=name, moderator="yes")
    token = token_of(page)
    want(text_of(gateway), f"{ODD}\r\n4 {token} moderator {name}\r\n{KEPT.format(4)}\r\n", "a text with one more")
    has(page, "reads alone, and changes the map and notes once the server", "what is said to a new user")
    want(table(page), rows + [("4", name, "moderator", "")], "the table with one more")
    want(stat.S_IMODE(os.stat(path_of(gateway)).st_mode), 0o640, "the mode of the text")
    takes(program, gateway)
    want(json.loads(details(gateway, basic(name, token)).text)["user"]["id"], 4, "who is new")
    reads = [
        gateway.api("GET", path, who=basic(name, token)).status for path in ("map?bbox=0,0,0.1,0.1", "changesets", "notes?bbox=0,0,1,1", "node/1")
    ]
    want(reads, [200, 200, 200, 404], "reads by who is new, before the servers know")
    for method, path in (("GET", "node/1/history?show_redactions=true"), ("PUT", "changeset/create"), ("POST", "notes?lat=1&lon=1&text=x")):
        want(gateway.api(method, path, "", basic(name, token)).status, 401, f"{path} by who is new, before the servers know")
    want(token in shown(gateway), False, "the token, a second time")
    others(program, gateway, {"name": name, "token": token})


def others(program: str, gateway: Gateway, new: dict[str, str]) -> None:
    """The new moderator changes the others; of each line a part alone."""
    wanted = text_of(gateway)

    def step(do: str, before: str, after: str, **fields: str) -> str:
        nonlocal wanted
        page = done(gateway, do, 200, new, **fields)
        want(wanted.count(before), 1, before)
        wanted = wanted.replace(before, after.format(token=re.findall("<code>(.*)</code>", page)[0] if "{token}" in after else ""))
        want(text_of(gateway), wanted, f"the text behind {do}")
        takes(program, gateway)
        return page

    step("rename", "user/1000000 alice", "user/1000000 alicia the 2nd", user="1", other="alicia the 2nd")
    want((details(gateway, ALICE).status, details(gateway, basic("alicia the 2nd", "alicetoken")).status), (401, 200), "her names")
    step("demote", "002 bobtoken moderator/7", "002 bobtoken user/7", user="2")
    ends = post(gateway, HIS).status, gateway.api("POST", "user_blocks", "user=1&period=1&reason=x", BOB).status
    want(ends, (403, 403), "who is no moderator now")
    for do, text in (("demote", "is the last moderator"), ("out", "is the last moderator")):
        before = text_of(gateway)
        came = post(gateway, new | {"do": do, "seen": seen(shown(gateway, new)), "user": "4"})
        want((came.status, f"{new['name']} {text}" in unescape(came.text), text_of(gateway)), (409, True, before), f"{do} of the last moderator")
    step("promote", "002 bobtoken user/7", "002 bobtoken moderator/7", user="2")
    token = token_of(step("token", "3 utoken", "3 {token}", user="3"))
    want((details(gateway, "Bearer utoken").status, details(gateway, f"Bearer {token}").status), (401, 200), "another token")
    step("out", re.findall("1 alicetoken.*\r\n", wanted)[0], "", user="1")
    want(details(gateway, "Bearer alicetoken").status, 401, "who is out")


def ids(program: str, server: int) -> None:
    """None is given twice: the comment keeps the highest, and the gateway remembers it where a hand has taken that out too."""
    with tempfile.TemporaryDirectory() as folder:
        more = ("--edit-users", "--data", os.path.join(folder, "own"))
        with Gateway(server, more=more) as gateway:
            has(done(gateway, "add", new="dora"), "with the id 4", "an id")
            done(gateway, "out", user="4")
            want(text_of(gateway), f"{gateway.users}{KEPT.format(4)}\n", "a text without her")
            has(done(gateway, "add", new="dora"), "with the id 5", "the next one")
            put(gateway, f"{gateway.users}9 ninetoken user nine\n")
            read_again(gateway)
            put(gateway, gateway.users)
            read_again(gateway)
            has(done(gateway, "add", new="emil"), "with the id 10", "one behind those that a hand took out")
        with Gateway(server, more=more) as gateway:
            has(done(gateway, "add", new="emil"), "with the id 11", "one behind a new start, with a text that knows of none")
            put(gateway, f"{gateway.users}# highest id: 77\n")
            has(done(gateway, "add", new="emil"), "with the id 78", "one behind a comment")
            want(text_of(gateway).count("# highest id: 78\n"), 1, "the comment that was there")
            put(gateway, f"{gateway.users}{(1 << 63) - 1} lasttoken user last\n")
            unchanged(gateway, 409, "There is no id left", "add", new="emil")
            takes(program, gateway)


# ---- what it refuses


def strangers(gateway: Gateway) -> None:
    """Who may not, and pages of other hosts; a GET does nothing."""
    before, stamp = text_of(gateway), seen(shown(gateway))
    out = {"do": "out", "user": "1", "seen": stamp}
    for name, token, status in (("bob", "x", 401), ("alice", "bobtoken", 401), ("alice", "alicetoken", 403)):
        came = post(gateway, out | {"name": name, "token": token})
        want((came.status, "<table" in came.text), (status, False), f"{name}, {token}: {came.text}")
    want(post(gateway, out, who=BOB).status, 401, "a field Authorization alone")
    for origin in ("https://elsewhere.example", "null"):
        want(post(gateway, HIS | out, Origin=origin).status, 403, f"a page of {origin}")
    page = gateway.ask("GET", f"/users?{urlencode(HIS | out)}")
    want((page.status, page.fields["Cache-Control"], page.fields["Access-Control-Allow-Origin"]), (200, "no-store", None), "the form")
    want(("<table" in page.text, page.fields["Set-Cookie"]), (False, None), "the form")
    has(page.fields["Content-Security-Policy"], "frame-ancestors 'none'", "no frame around the form")
    want(gateway.ask("PUT", "/users", urlencode(HIS | out)).status, 405, "PUT")
    gateway.well("POST", "user_blocks", "user=2&period=1&reason=x", BOB)
    unchanged(gateway, 403, "has been blocked", "out", user="1")
    want(text_of(gateway), before, "the text")


def guesses(server: int) -> None:
    with Gateway(server, more=("--edit-users", "--guesses", "5")) as gateway:
        ends = [post(gateway, {"name": "bob", "token": f"w{it}"}, X_Forwarded_For="1.1.1.1").status for it in range(7)]
        want(ends, [401] * 5 + [429] * 2, "guesses")
        want(post(gateway, HIS, X_Forwarded_For="1.1.1.1").status, 429, "the right token among them")
        want(post(gateway, HIS, X_Forwarded_For="2.2.2.2").status, 200, "another address")


def refusals(gateway: Gateway) -> None:
    for name in ("", "x" * 256, "a\n9 evil moderator b", "a\rb", "a\tb", " a", "a ", "\x00", "a\x7f", "a\x85b", "a\u2028b", "a\u202eb", "a\uffff"):
        text = "1 to 255 characters" if len(name) in (0, 256) else "no controls"
        unchanged(gateway, 400, text, "add", new=name)
        unchanged(gateway, 400, text, "rename", user="1", other=name)
    unchanged(gateway, 409, "alice is the name of the user 1", "add", new="alice")
    unchanged(gateway, 409, "alice is the name of the user 1", "rename", user="2", other="alice")
    for do in ("rename", "token", "promote", "demote", "out"):
        unchanged(gateway, 404, "no user with the id 9", do, user="9", other="x")
        unchanged(gateway, 400, "Choose a user", do, other="x")
        unchanged(gateway, 400, "Choose a user", do, user="1 ", other="x")
    unchanged(gateway, 409, "The role of alice is user already", "demote", user="1")
    unchanged(gateway, 409, "The role of bob is moderator already", "promote", user="2")
    for do in ("demote", "out"):
        unchanged(gateway, 409, "bob is the last moderator, and stays one", do, user="2")
    unchanged(gateway, 400, "nothing that is done", "other", user="1")


def changed_underneath(gateway: Gateway) -> None:
    """By an editor between the table and the change; and a text that can't be read, or has a moderator no longer."""
    before, stamp = text_of(gateway), seen(shown(gateway))
    put(gateway, f"{before}# by hand\n")
    for mark in (stamp, "", "x"):
        came = post(gateway, HIS | {"do": "out", "user": "1", "seen": mark})
        want((came.status, text_of(gateway)), (409, f"{before}# by hand\n"), "a text that has changed")
        has(came.text, "The users text has changed", "a text that has changed")
        want(seen(came.text) not in (stamp, ""), True, "the table anew")
    stamp = seen(came.text)
    put(gateway, f"{before}4 broken\n")
    has(unescape(post(gateway, HIS | {"do": "show"}).text), f"can't be read: line {len(before.splitlines()) + 1}: it isn't ID TOKEN", "a broken text")
    put(gateway, before.replace("bobtoken moderator", "bobtoken user"))
    page = shown(gateway)
    want(post(gateway, HIS | {"do": "out", "user": "1", "seen": seen(page)}).status, 403, "whom the text has as a moderator no longer")
    put(gateway, f"{before[:-1]}\r")
    unchanged(gateway, 409, "another line would be read otherwise", "add", new="dora")
    put(gateway, f"{before}#{'x' * ((1 << 20) - len(before.encode()) - 10)}\n")
    unchanged(gateway, 409, "more than 1048576 bytes", "add", new="dora")
    put(gateway, before)


def unwritable(gateway: Gateway) -> None:
    """No right to write there, something in the way, a full disk: told, and nothing is changed."""
    path = path_of(gateway)
    os.mkdir(f"{path}.new")
    unchanged(gateway, 503, "can't be written, so nothing was changed", "add", new="dora")
    os.rmdir(f"{path}.new")
    if os.geteuid():
        os.chmod(gateway.folder.name, 0o555)
        unchanged(gateway, 503, "Permission denied", "add", new="dora")
        os.chmod(gateway.folder.name, 0o755)
    before = text_of(gateway)
    put(gateway, f"{before}#{'x' * 900_000}\n")
    limits = resource.prlimit(gateway.process.pid, resource.RLIMIT_FSIZE, (500_000, resource.RLIM_INFINITY))
    unchanged(gateway, 503, "can't be written, so nothing was changed", "add", new="dora")
    resource.prlimit(gateway.process.pid, resource.RLIMIT_FSIZE, limits)
    want(os.path.exists(f"{path}.new"), False, "what was begun")
    put(gateway, before)
    done(gateway, "add", new="dora")


def unallowed(server: int) -> None:
    with Gateway(server) as gateway:
        for came in (gateway.ask("GET", "/users"), post(gateway, HIS | {"do": "show"})):
            want((came.status, "--edit-users" in came.text), (404, True), "the page where nobody allows it")
    with tempfile.TemporaryDirectory() as folder:
        pipe = os.path.join(folder, "pipe")
        os.mkfifo(pipe)
        refuses_to_start(Gateway(server, more=("--edit-users", "--users", pipe)), "is no plain file")


# ---- several at once


def three(program: str, gateway: Gateway) -> None:
    """Through three processes: each knows at once who is new and who is out, and of many who write at once none loses what another wrote."""
    for _ in range(3):
        token = token_of(done(gateway, "add", new="dora"))
        number = people_of(text_of(gateway)).by_name["dora"].id
        want([details(gateway, f"Bearer {token}").status for _ in range(24)], [200] * 24, "who is new")
        done(gateway, "out", user=str(number))
        want([details(gateway, f"Bearer {token}").status for _ in range(24)], [401] * 24, "who is out")

    def adds(name: str) -> int:
        """How often somebody else came first."""
        tries = 0
        while True:
            came = post(gateway, HIS | {"do": "add", "new": name, "seen": seen(shown(gateway))})
            if came.status == 200:
                return tries
            want(came.status, 409, came.text)
            tries += 1

    names = [f"one of many {number}" for number in range(12)]
    with ThreadPoolExecutor(6) as pool:
        list(pool.map(adds, names))
    people = people_of(text_of(gateway))
    want({it.name for it in people.by_id.values()}, {"alice", "bob", "Ünï Cödé", *names}, "all whom somebody added")
    want((len(people.by_id), people.highest), (15, 18), "their ids")
    stamp = seen(shown(gateway))
    with ThreadPoolExecutor(6) as pool:
        ends = list(pool.map(lambda name: post(gateway, HIS | {"do": "add", "new": name, "seen": stamp}).status, [f"late {it}" for it in range(6)]))
    want(sorted(ends), [200] + [409] * 5, "six changes of the same text")
    takes(program, gateway)


# ---- the file alone


def files(folder: str) -> None:
    """Owner, mode and a link to the file stay; a file that isn't the one that was read stays too; who writes waits for others."""
    path, link = os.path.join(folder, "text"), os.path.join(folder, "link")
    with open(path, "wb") as file:
        file.write(b"old")
    os.symlink("text", link)
    if os.geteuid() == 0:
        os.chown(path, 1234, 4321)
    os.chmod(path, 0o640)
    before, found = os.stat(path), Found.at(link)
    with open(f"{path}.lock", "wb") as lock, ThreadPoolExecutor(1) as pool:
        fcntl.flock(lock, fcntl.LOCK_EX)
        waiting = pool.submit(replace_text, link, found, b"new")
        time.sleep(0.3)
        want((waiting.done(), os.path.exists(f"{path}.new")), (False, False), "a writer who waits")
        fcntl.flock(lock, fcntl.LOCK_UN)
        waiting.result(10)
    after = os.stat(path)
    want((after.st_uid, after.st_gid, after.st_mode), (before.st_uid, before.st_gid, before.st_mode), "owner and mode")
    want((after.st_ino == before.st_ino, os.readlink(link)), (False, "text"), "a new file, and the link to it")
    try:
        replace_text(link, found, b"newer")
        raise Wrong("a text is written over one that wasn't read")
    except Refused as why:
        want((why.status, Found.at(path).data, sorted(os.listdir(folder))), (409, b"new", ["link", "text", "text.lock"]), "what stays")


def slow(folder: str) -> None:
    """A process that doesn't read the new text is told of; and an id that was seen is kept where the text has it no longer."""
    path = os.path.join(folder, "slow")
    with open(path, "w") as file:
        file.write("1 a moderator A\n7 b user B\n")
    store, reads = Store(), Columns(1, 2)
    it = UsersFile(path, read_people(path), store, reads, None)
    users_file.READING = 0.2
    want(asyncio.run(it.read_everywhere()), False, "whether both have read it")
    reads.all[1][0] = time.monotonic() + 60
    with open(path, "w") as file:
        file.write("1 a moderator A\n")
    want((asyncio.run(it.read_everywhere()), it.people.highest, it.highest()), (True, 1, 7), "whether both have read it, and ids")
    store.do("INSERT INTO preferences VALUES (9, 'k', 'v')")
    want(it.highest(), 9, "an id of whom something is kept")


# ---- the text alone


def read(text: str) -> People | None:
    try:
        return people_of(text)
    except BadUsers:
        return None


def rules(program: str, path: str) -> int:
    """The gateway takes a text where the server does."""
    most = (1 << 63) - 1
    texts = (
        "", "\n", "\r\n", "#", "1 a user A", "1 a user A\r", "1 a user \r", "1 a user \r\n", "1 a user A\n\r", "0 a user A", "00 a user A", "01 a user A",
        f"{most} a user A", f"{most + 1} a user A", f"0{most} a user A", "9999999999999999999 a user A", "-1 a user A", "+1 a user A", "1 a user/0 A",
        f"1 a user/{most} A", f"1 a user/{most + 1} A", "1 a user/ A", "1 a user/00000000000000000001 A", "1 a moderator/01 A", "1 a User A", "1 a  user A",
        " 1 a user A", "1 a user  ", "1 a user  A", "1 a user", f"1 {'t' * 128} user A", f"1 {'t' * 129} user A", "1 é user A", "1 \x7f user A",
        f"1 a user {'Ω' * 255}", f"1 a user {'Ω' * 256}", "1 a user A\n2 a user B", "1 a user A\n1 b user B", "1 a user A\n2 b user A", "1 a user A\n01 b user B",
        "1 a user \0\x01\x7f", "1 a user A\x85B\u2028C", "\ufeff1 a user A", "@large-from 0", "@large-from", "@large-from  1", "@large-from 1 ", "@large-from -1",
        f"@large-from {(1 << 64) - 1}", f"@large-from {1 << 64}", f"@large-from {'0' * 99}7", "@large-from 1\n@large-from 1", "@", "@large-from 1\r\n1 a user A",
        f"#{'x' * ((1 << 20) - 1)}", f"#{'x' * (1 << 20)}", "# highest id: 5\n1 a user A", "١ a user A", "1 a user/١ A", "1 a user A\n 2 b user B",
    )  # fmt: skip
    for text in texts:
        with open(path, "w", encoding="utf-8", newline="") as file:
            file.write(text)
        want(read(text) is not None, taken(program, path), f"whether {text[:60]!r} is taken")
    return len(texts)


def drawn_text(drawn: random.Random) -> str:
    lines = []
    for number in drawn.sample(range(1, 30), drawn.randint(1, 6)):
        limit = drawn.choice(("", "/5", "/007"))
        role, name = drawn.choice(("user", "moderator")), drawn.choice(("A", " B", "ü "))
        lines.append(f"{drawn.choice(('', '0'))}{number} t{number} {role}{limit} {name}{number}")
    for line in ("", "# a comment", "# highest id: 12", "@large-from 8", "#1 t1 user A1"):
        lines.insert(drawn.randint(0, len(lines)), line)
    text = "".join(line + drawn.choice(("\n", "\n", "\r\n")) for line in lines)
    return text if drawn.random() < 0.7 else text.rstrip("\r\n")


def others_of(text: str, number: int, has_end: bool) -> list[str]:
    """The lines with their ends, but for the user's and the comment on ids. A last line without an end may have got one."""
    lines = [line for line in text.splitlines(keepends=True) if not line.startswith("# highest id") and not re.match(f"0*{number} ", line)]
    return lines if has_end else [*lines[:-1], lines[-1].rstrip("\r\n")]


def drawn_change(drawn: random.Random, draft: Draft) -> tuple[int, bool]:
    """Whom it was done to, and whether they are there still."""
    number, do = drawn.choice(list(draft.wanted)), drawn.randrange(5)
    if do == 0:
        return draft.add("new", False, "newtoken", 20).id, True
    if do == 1:
        return draft.rename(number, "new").id, True
    if do == 2:
        return draft.renew(number, "newtoken").id, True
    if do == 3:
        return draft.give_role(number, not draft.user(number).moderator).id, True
    return draft.take_out(number).id, False


def drawn_changes(program: str, path: str, count: int) -> None:
    """All lines but one are the same, byte by byte; and the server takes what comes out."""
    drawn = random.Random(7)
    for case in range(count):
        text = drawn_text(drawn)
        draft = Draft(text)
        try:
            number, is_there = drawn_change(drawn, draft)
        except Refused as why:
            has(why.text, "is the last moderator", repr(text))
            continue
        after = draft.text()
        has_end = text.endswith("\n")
        want(others_of(after, number, has_end), others_of(text, number, has_end), f"case {case}: other lines of {text!r}")
        people = people_of(after)
        want((number in people.by_id, people.large_from), (is_there, 8), f"case {case}: {after!r}")
        want(people.highest, max(people_of(text).highest, number), f"case {case}: the highest id of {after!r}")
        if case % 10 == 0:
            with open(path, "w", encoding="utf-8", newline="") as file:
                file.write(after)
            want(taken(program, path), True, f"whether the server takes {after!r}")


def run(program: str) -> str:
    with tempfile.TemporaryDirectory() as folder:
        files(folder)
        with contextlib.redirect_stderr(io.StringIO()):
            slow(folder)
    with tempfile.TemporaryDirectory() as folder:
        count = rules(program, os.path.join(folder, "users"))
        drawn_changes(program, os.path.join(folder, "users"), 1000)
    with Site(program, more=("--edit-users",)) as gateway:
        refusals(gateway)
        changed_underneath(gateway)
        unwritable(gateway)
        strangers(gateway)
        ids(program, gateway.server)
        guesses(gateway.server)
        unallowed(gateway.server)
    with Site(program, notes=True, more=("--edit-users",)) as gateway:
        changes(program, gateway)
    with tempfile.TemporaryDirectory() as folder:
        with Site(program, more=("--edit-users", "--processes", "3", "--data", os.path.join(folder, "own"))) as gateway:
            three(program, gateway)
    return f"users added, renamed, given roles and tokens, taken out, by one process and by three; refusals; {count} texts as the server reads them"
