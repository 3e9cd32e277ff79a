#!/usr/bin/env python3
"""Where a journal can't be, and what becomes of one that others touch: examples/kept/paths.py [--program PROGRAM] [--mirror PROGRAM]
    [--races 20]

Starts `PROGRAM serve --journal PATH` where PATH is no plain file, lies where nothing can be made or written, or is a file that another program
has open, by whatever name; and several at once where there is no file yet. Each has to end with status 3 at once and leave all that is there as
it is, and of several one serves. Rights are tried as nobody where this is run by root, by setpriv, and a disk that can only be read is mounted
where that may be done.

Then a file is moved away, replaced, deleted or cut under a running server. It is told what comes of it; what was told of changes has to stand
in a file that was moved.

PROGRAM is crates/osm/out/osm where none is named; a mirror, crates/osm_mirror/out/osm_mirror, is tried where there is one. Status 0 where all
holds, 1 where something doesn't, 2 where it can't be run.
"""

from __future__ import annotations

import argparse
import os
import signal
import socket
import stat
import subprocess
import sys
import tempfile
import time
from collections.abc import Callable, Iterator
from contextlib import contextmanager

HERE = os.path.dirname(os.path.abspath(__file__))
sys.path.insert(1, os.path.join(HERE, ".."))

from kept_file import HEADER, REFUSED, SEAL, UNOPENED, read  # noqa: E402
from kill import END_WAIT, PROGRAM  # noqa: E402
from serving import Link, tell_faults  # noqa: E402
from traced import own_port  # noqa: E402

MIRROR = os.path.join(HERE, "..", "..", "crates", "osm_mirror", "out", "osm_mirror")
NOBODY = "65534"
USERS = "1 token1 user user1\n"
AT_ONCE = 4
EMPTY = HEADER + SEAL


def seen(folder: str) -> dict[str, tuple[int, bytes]]:
    """All that is in a folder: its kind with its rights, and what it has or names."""
    found = {}
    for name in sorted(os.listdir(folder)):
        path = os.path.join(folder, name)
        mode = os.lstat(path).st_mode
        data = read(path) if stat.S_ISREG(mode) else os.fsencode(os.readlink(path)) if stat.S_ISLNK(mode) else b""
        found[path] = mode, data
        if stat.S_ISDIR(mode):
            found |= seen(path)
    return found


def write(path: str, data: bytes) -> None:
    with open(path, "wb") as file:
        file.write(data)


class Running:
    """A server that is to be ended by its input."""

    def __init__(self, words: list[str], port: int) -> None:
        self.port = port
        self.process = subprocess.Popen([*words, "--listen", f"127.0.0.1:{port}", "--until-input-ends"], stdin=subprocess.PIPE)

    def listens(self) -> bool:
        """Whether it takes links, once it does or has ended."""
        until = time.monotonic() + END_WAIT
        while self.process.poll() is None:
            try:
                socket.create_connection(("127.0.0.1", self.port), 5).close()
                return True
            except ConnectionError:
                if time.monotonic() > until:
                    raise
                time.sleep(0.01)
        return False

    def change(self) -> int:
        """Makes a changeset, and tells its number, or 0 where it isn't told."""
        reply = Link(self.port, "token1", kept=1).ask("PUT", "changeset/create", {"tags": {}})
        return int(reply.body) if reply.status == 200 else 0

    def has(self, changeset: int) -> bool:
        return Link(self.port, kept=1).ask("GET", f"changeset/{changeset}").status == 200

    def file(self, path: str) -> bytes:
        """The journal's file as the server has it open, also where it has no name any more."""
        folder = f"/proc/{self.process.pid}/fd"
        names = (os.path.join(folder, it) for it in os.listdir(folder))
        return next(read(it) for it in names if os.readlink(it).startswith(path))

    def ends_itself(self) -> bool:
        """Whether it ends in order, though its input doesn't."""
        try:
            return self.process.wait(END_WAIT) == 0
        except subprocess.TimeoutExpired:
            return False

    def end(self) -> int:
        """The status with which it ends where its input does."""
        assert self.process.stdin
        self.process.stdin.close()
        return int(self.process.wait(END_WAIT))


class Trial:
    def __init__(self, program: str, mirror: str, folder: str) -> None:
        self.program, self.mirror, self.top = os.path.abspath(program), os.path.abspath(mirror), folder
        self.users = self.path("users")
        write(self.users, USERS.encode())
        self.faults: list[str] = []
        self.folders = 0

    def path(self, *names: str) -> str:
        return os.path.join(self.top, *names)

    def fresh(self) -> str:
        """A new folder."""
        self.folders += 1
        os.mkdir(self.path(str(self.folders)), 0o755)
        return self.path(str(self.folders))

    def words(self, path: str, command: str = "serve") -> list[str]:
        start = [self.mirror] if command == "mirror" else [self.program, command]
        return [*start, "--users", self.users, "--workers", "2", "--journal", path]

    def status(self, path: str, command: str = "serve", before: tuple[str, ...] = (), folder: str | None = None) -> int | None:
        """The status of one that is started on the path and has no input, or none where it doesn't end."""
        words = [*before, *self.words(path, command), "--listen", f"127.0.0.1:{own_port()}", "--until-input-ends"]
        try:
            return int(subprocess.run(words, stdin=subprocess.DEVNULL, cwd=folder, timeout=END_WAIT, check=False).returncode)
        except subprocess.TimeoutExpired:
            return None

    def wants(self, name: str, status: int | None, wanted: int) -> None:
        print(f"| {name} | {status} |", flush=True)
        if status != wanted:
            self.faults.append(f"{name}: the status is {status}, not {wanted}")

    def refuses(self, name: str, folder: str, path: str, before: tuple[str, ...] = (), wanted: int = UNOPENED) -> None:
        """A start ends with that status, and all in the folder is as it was."""
        left = seen(folder)
        self.wants(name, self.status(path, before=before), wanted)
        if seen(folder) != left:
            self.faults.append(f"{name}: what was there is another, {[it for it in seen(folder) if it not in left]}")

    @contextmanager
    def running(self, path: str) -> Iterator[Running]:
        port = own_port()
        it = Running(self.words(path), port)
        try:
            if not it.listens():
                self.faults.append(f"a server that should serve ends with status {it.process.returncode}")
            yield it
        finally:
            it.process.kill()
            it.process.wait()

    # ---- what is no plain file, or can't be made

    def try_kinds(self) -> None:
        for name, make in KINDS.items():
            folder = self.fresh()
            path = os.path.join(folder, "journal")
            self.refuses(name, folder, make(path) or path)
        for device in ("/dev/full", "/dev/null", "/dev/zero", "/dev/stdin", "/proc/self/mem"):
            self.wants(device, self.status(device), UNOPENED)

    def try_other_names(self) -> None:
        """What stands under the name under which a new file is made."""
        for name, make in KINDS_OF_NEW.items():
            folder = self.fresh()
            path = os.path.join(folder, "journal")
            make(f"{path}.new")
            self.refuses(f"beside journal.new, {name}", folder, path)

    def try_short_names(self) -> None:
        """Somebody's file under that name, of 15 bytes or less, isn't told from what a creation left. What comes of it is told alone."""
        for name, theirs, link in (
            ("somebody's 7 bytes", "journal.new", ""),
            ("a link to somebody's 7 bytes", "diary", "diary"),
            ("a link to nothing", "", "diary"),
        ):
            folder = self.fresh()
            if theirs:
                write(os.path.join(folder, theirs), b"a diary")
            if link:
                os.symlink(link, os.path.join(folder, "journal.new"))
            status = self.status(os.path.join(folder, "journal"))
            left = ", ".join(f"{os.path.basename(its)} {data.rstrip(bytes(1))!r}" for its, (_, data) in seen(folder).items())
            print(f"| beside journal.new, {name} (told alone) | {status}; then there is {left} |")

    # ---- rights

    def try_rights(self) -> None:
        nobody = ("setpriv", f"--reuid={NOBODY}", f"--regid={NOBODY}", "--clear-groups") if os.geteuid() == 0 else ()
        for name, of_folder, of_file, wanted in RIGHTS:
            folder = self.fresh()
            path = os.path.join(folder, "journal")
            if of_file is not None:
                write(path, EMPTY)
                os.chmod(path, of_file)
            os.chmod(folder, of_folder)
            if nobody:
                for it in (folder, path)[: 1 + (of_file is not None)]:
                    os.chown(it, int(NOBODY), int(NOBODY))
            if nobody and wanted:
                self.refuses(name, folder, path, nobody, wanted)
            else:
                self.wants(name, self.status(path, before=nobody), wanted)
            os.chmod(folder, 0o755)

    def try_read_only(self) -> None:
        folder = self.fresh()
        mount = ["mount", "-t", "tmpfs", "none", folder]
        if os.geteuid() != 0 or subprocess.run(mount, stderr=subprocess.DEVNULL, check=False).returncode != 0:
            print("| a disk that can only be read | not tried: none can be mounted |")
            return
        try:
            write(os.path.join(folder, "kept"), EMPTY)
            subprocess.run(["mount", "-o", "remount,ro", folder], check=True)
            self.refuses("a file on a disk that can only be read", folder, os.path.join(folder, "kept"))
            self.refuses("no file on a disk that can only be read", folder, os.path.join(folder, "journal"))
        finally:
            subprocess.run(["umount", "--lazy", folder], check=True)

    # ---- several programs

    def try_two(self) -> None:
        folder = self.fresh()
        path = os.path.join(folder, "journal")
        os.symlink("journal", os.path.join(folder, "link"))
        with self.running(path) as first:
            numbers = [first.change()]
            os.link(path, os.path.join(folder, "name"))
            others = ["serve", "serve-notes", *["mirror"] * os.access(self.mirror, os.X_OK)]
            for command in others:
                self.wants(f"open already, `{command}`", self.status(path, command), UNOPENED)
            for name in ("link", "name"):
                self.wants(f"open already, by another name ({name})", self.status(os.path.join(folder, name)), UNOPENED)
            self.wants("open already, by a path from the folder", self.status("journal", folder=folder), UNOPENED)
            numbers.append(first.change())
            self.wants("the first one goes on, and ends by its input", first.end() if all(map(first.has, numbers)) else None, 0)
        self.must_have("the file of the first one", path, numbers)

    def try_races(self, races: int) -> None:
        served = 0
        for _ in range(races):
            path = os.path.join(self.fresh(), "journal")
            several = [Running(self.words(path), own_port()) for _ in range(AT_ONCE)]
            serving = [it for it in several if it.listens()]
            statuses = [it.process.returncode for it in several if it not in serving]
            served += len(serving) == 1
            if len(serving) != 1 or any(status != UNOPENED for status in statuses) or os.listdir(os.path.dirname(path)) != ["journal"]:
                self.faults.append(f"of several at once {len(serving)} serve, and the others end with {statuses}")
            for it in serving:
                self.wants_quietly(it.end())
        print(f"| {AT_ONCE} at once where there is no file, {races} times | one serves {served} times, the others {UNOPENED} |")

    def wants_quietly(self, status: int) -> None:
        if status != 0:
            self.faults.append(f"one that serves ends with {status}")

    # ---- files that others touch

    def must_have(self, name: str, path: str, changesets: list[int]) -> None:
        with self.running(path) as it:
            if it.process.poll() is not None or not all(map(it.has, changesets)):
                self.faults.append(f"{name} hasn't the changesets {changesets}")

    def try_moved(self, name: str, move: Callable[[str], str]) -> None:
        """A file that has another name stays the server's. What has its name now is as it was given, and the server ends by itself."""
        path = os.path.join(self.fresh(), "journal")
        with self.running(path) as it:
            numbers = [it.change()]
            moved = move(path)
            numbers.append(it.change())
            lies = read(path) if os.path.exists(path) else None
            told = "both changes are told" if all(numbers) else "a change isn't told"
            by_itself = lies is not None and it.ends_itself()
            status = it.end()
        now = "nothing lies at the path" if lies is None else f"at the path lie {len(lies)} bytes as they were put there"
        how = "it ended by itself" if by_itself else "ended by its input"
        print(f"| {name} under a server | {told}, {now}, {how}, status {status}; the moved file has both |")
        if not all(numbers) or status != 0 or lies not in (None, EMPTY) or by_itself != (lies is not None):
            self.faults.append(f"{name}: {numbers}, {how}, status {status}")
        self.must_have(f"{name}: the moved file", moved, numbers)

    def try_moved_and_made(self) -> None:
        """A second server makes a new file where the first one's was, which ends by itself behind its next change."""
        path = os.path.join(self.fresh(), "journal")
        with self.running(path) as first:
            numbers = [first.change()]
            os.rename(path, f"{path}.away")
            with self.running(path) as second:
                other = [second.change(), second.change(), second.change()]
                numbers.append(first.change())
                if not first.ends_itself():
                    self.faults.append("a server at whose path another one has made a file goes on")
                self.wants("the second server, at the path of a file that was moved away", second.end(), 0)
            self.wants("the first one, whose file was moved away", first.end(), 0)
        self.must_have("the moved file", f"{path}.away", numbers)
        self.must_have("the new file", path, other)

    def try_deleted(self) -> None:
        path = os.path.join(self.fresh(), "journal")
        with self.running(path) as it:
            numbers = [it.change()]
            os.remove(path)
            numbers.append(it.change())
            rescued = f"{path}.rescued"
            write(rescued, it.file(path))
            status = it.end()
        left = "a file" if os.path.exists(path) else "nothing"
        print(f"| a file that is deleted under a server | changes {numbers} are told, status {status}; then {left} lies there |")
        self.must_have("what /proc/PID/fd had while it ran", rescued, numbers)

    def try_cut(self) -> None:
        """Nobody else may write to the file; this one is refused then, and not taken for another."""
        path = os.path.join(self.fresh(), "journal")
        with self.running(path) as it:
            numbers = [it.change()]
            os.truncate(path, 0)
            numbers.append(it.change())
            status = it.end()
        print(f"| a file that somebody else cuts to nothing under a server | changes {numbers} are told, status {status} |")
        self.wants("the file that is left of it", self.status(path), REFUSED)

    def try_stopped(self) -> None:
        """One that is stopped (SIGSTOP) has its file all the same."""
        path = os.path.join(self.fresh(), "journal")
        with self.running(path) as it:
            it.change()
            os.kill(it.process.pid, signal.SIGSTOP)
            self.wants("a file whose program is stopped by SIGSTOP", self.status(path), UNOPENED)
            os.kill(it.process.pid, signal.SIGCONT)
            it.process.kill()
            it.process.wait()
            self.wants("the same once that was killed", self.status(path), 0)


# ---- what may lie at a path; a maker returns another path where that is the one to try


def folder_at(path: str) -> None:
    os.mkdir(path)


def socket_at(path: str) -> None:
    with socket.socket(socket.AF_UNIX) as it:
        it.bind(path)


def link_to_nothing(path: str) -> None:
    os.symlink("nothing", path)


def circle(path: str) -> None:
    os.symlink("journal", path)


def link_to_fifo(path: str) -> None:
    os.mkfifo(f"{path}.fifo")
    os.symlink(f"{path}.fifo", path)


def in_no_folder(path: str) -> str:
    return os.path.join(path, "journal")


def in_a_file(path: str) -> str:
    write(path, EMPTY)
    return os.path.join(path, "journal")


def with_a_slash(path: str) -> str:
    return f"{path}/"


def long_name(path: str) -> str:
    return path + "x" * (255 - len("journal"))


def too_long(path: str) -> str:
    return path + "x" * 300


def someones(path: str) -> None:
    write(path, b"somebody's diary, which is longer")


KINDS: dict[str, Callable[[str], str | None]] = {
    "a folder": folder_at,
    "a FIFO": os.mkfifo,
    "a socket": socket_at,
    "a link to a FIFO": link_to_fifo,
    "a link to nothing": link_to_nothing,
    "a link to itself": circle,
    "in a folder that isn't there": in_no_folder,
    "in a file": in_a_file,
    "a name that ends in /": with_a_slash,
    "a name of 255 bytes, so that there is none for .new": long_name,
    "a name of 307 bytes": too_long,
}
KINDS_OF_NEW: dict[str, Callable[[str], None]] = {
    "a folder": folder_at,
    "a FIFO": os.mkfifo,
    "a socket": socket_at,
    "a link to itself": lambda path: os.symlink(os.path.basename(path), path),
    "somebody's file of 33 bytes": someones,
}
RIGHTS = (
    ("no file, and a folder without the right to write", 0o555, None, UNOPENED),
    ("no file, and a folder without any right", 0o000, None, UNOPENED),
    ("a file in a folder without any right", 0o000, 0o644, UNOPENED),
    ("a file that may only be read", 0o755, 0o444, UNOPENED),
    ("a file that may only be written", 0o755, 0o222, UNOPENED),
    ("a file without any right", 0o755, 0o000, UNOPENED),
    ("a file in a folder that may be entered and not read, so not synced", 0o311, 0o644, UNOPENED),
    ("a file in a folder that may not be written", 0o555, 0o644, 0),
)


def renamed(path: str) -> str:
    os.rename(path, f"{path}.away")
    return f"{path}.away"


def replaced(path: str) -> str:
    os.rename(path, f"{path}.away")
    write(path, EMPTY)
    return f"{path}.away"


def folder_renamed(path: str) -> str:
    folder = os.path.dirname(path)
    os.rename(folder, f"{folder}.away")
    return os.path.join(f"{folder}.away", "journal")


def main() -> int:
    parser = argparse.ArgumentParser(usage=(__doc__ or "").split("\n\n")[0].partition(": ")[2])
    parser.add_argument("--program", default=PROGRAM)
    parser.add_argument("--mirror", default=MIRROR)
    parser.add_argument("--races", type=int, default=20)
    it = parser.parse_args()
    if not os.access(it.program, os.X_OK):
        print(f"there is no program {it.program}: ./osm build makes it", file=sys.stderr)
        return 2
    with tempfile.TemporaryDirectory() as folder:
        os.chmod(folder, 0o755)
        trial = Trial(it.program, it.mirror, os.path.realpath(folder))
        print("| what | status |\n|---|---|")
        trial.try_kinds()
        trial.try_other_names()
        trial.try_short_names()
        trial.try_rights()
        trial.try_read_only()
        trial.try_two()
        trial.try_races(it.races)
        trial.try_moved("a file that is renamed", renamed)
        trial.try_moved("a file that is replaced by another", replaced)
        trial.try_moved("a folder that is renamed", folder_renamed)
        trial.try_moved_and_made()
        trial.try_deleted()
        trial.try_cut()
        trial.try_stopped()
    return tell_faults(trial.faults)


if __name__ == "__main__":
    sys.exit(main())
