"""Whole repositories: whose are wanted by a report, how they are fetched and vouched for, and how the relay takes them over."""
import base64
import concurrent.futures
import contextlib
import datetime
import hashlib
import os
import pathlib
import re
import threading
import time
import urllib.parse
from typing import Callable, Iterable, Iterator, NamedTuple, Optional

from jupwachay import tables, vouching
from jupwachay.addresses import Reach
from jupwachay.commits import Commit, commit_of
from jupwachay.files import sync_folder
from jupwachay.frames import NODE, Event, event
from jupwachay.identities import Documents
from jupwachay.items import Unread
from jupwachay.relay import Relay
from jupwachay.tapes import records
from jupwachay.web import Connection, Refused, Unanswered

LONGEST = 268_435_456
TOGETHER = 100  # repositories that are vouched for at once
TOGETHER_BYTES = 1 << 30  # no more of them are begun once they have as much
MOST_FAILURES = 3  # of a home, one after another; then it is asked no more in this run
BRIEF = 0.5  # seconds
YOUNG = 60  # seconds for which a document counts where a repository is fetched
KIND = "application/vnd.ipld.car"
LOSING = re.compile(r"(\S+) (\d+) refused (?:5|19|2[0-3]) \S+(?P<fetch>.*)")
LOST = re.compile(r"(did:\S+) (?:in)?active \S+ (?:up|down) lost \S+")

Say = Callable[[str], None]


class Failed(Exception):
    """Why an account's repository isn't there."""


class Later(Exception):
    """A repository that is fetched with the next ones."""


# Which accounts a report names.


class Report(NamedTuple):
    """What a report says: the accounts that it calls lost, and the messages (host, number) by which one was lost, with whether its
    repository was taken over in the same step."""

    lost: "list[str]"
    messages: "dict[tuple[str, int], bool]"


class Wanted:
    """An account that a report names: the highest revision of its refused commits, and whether a repository was taken over."""

    __slots__ = ("rev", "is_synced")

    def __init__(self) -> None:
        self.rev: Optional[str] = None
        self.is_synced = False


def read_report(lines: Iterable[str]) -> Report:
    report = Report([], {})
    for line in lines:
        losing, told = LOSING.fullmatch(line.strip()), LOST.fullmatch(line.strip())
        if told:
            report.lost.append(told[1])
        elif losing:
            report.messages[losing[1], int(losing[2])] = " synced " in losing["fetch"]
    return report


def events(tapes: Iterable[pathlib.Path], say: Say) -> "Iterator[tuple[str, Event]]":
    """The events of tapes, each with its host."""
    for path in tapes:
        for host, message in records(path, say):
            with contextlib.suppress(Unread):
                yield host, event(message)


def named(report: Report, told: "Iterable[tuple[str, Event]]") -> "dict[str, Wanted]":
    """The accounts that a report names, by the events of its tapes."""
    found = {did: Wanted() for did in report.lost}
    for host, each in told if report.messages else ():
        is_synced = report.messages.get((host, each.seq))
        if is_synced is not None:
            wanted = found.setdefault(each.did, Wanted())
            wanted.rev = max(filter(None, (wanted.rev, each.rev)), default=None)
            wanted.is_synced |= is_synced
    return found


def not_new(told: "Iterable[tuple[str, Event]]") -> "list[str]":
    """The accounts of which the first commit follows on another one that isn't there."""
    seen, found = set(), []
    for _, each in told:
        if each.kind in ("#commit", "#sync") and each.did not in seen:
            seen.add(each.did)
            if each.kind == "#commit" and not each.is_first:
                found.append(each.did)
    return found


# Files.


def path_of(folder: pathlib.Path, did: str) -> pathlib.Path:
    """The file under which the relay looks for an account's repository: the link over the bytes of its DID."""
    link = NODE + hashlib.sha256(did.encode()).digest()
    return folder / "repos" / f"b{base64.b32encode(link).decode().lower().rstrip('=')}.car"


def remove(folder: pathlib.Path, did: str) -> None:
    """Takes an account's repository away."""
    path_of(folder, did).unlink(missing_ok=True)
    sync_folder(folder / "repos")


def remove_used(folder: pathlib.Path, did: str, rev: Optional[str]) -> None:
    """Takes an account's repository away where the account stands at its revision, or later."""
    with contextlib.suppress(Unread, FileNotFoundError):
        if rev is not None and commit_of(path_of(folder, did)).rev <= rev:
            remove(folder, did)


def remove_begun(folder: pathlib.Path) -> None:
    """Takes away what was begun and isn't whole."""
    for path in (folder / "repos").glob("*.car.new"):
        path.unlink(missing_ok=True)


# Fetching.


class Limits(NamedTuple):
    """What a run of fetches may take."""

    jobs: int = 4
    patience: float = 600.0  # seconds for one repository
    seconds: float = float("inf")
    bytes: int = 2**63


class Fetcher:
    """Fetches repositories, some side by side, as far as the run's limits go."""

    def __init__(self, folder: pathlib.Path, reach: Reach, limits: Limits, tell: Say):
        self.folder, self.reach, self.limits, self.tell = folder, reach, limits, tell
        self.end, self.left = time.monotonic() + limits.seconds, limits.bytes
        self.lock, self.is_stopped, self.unjudged = threading.Lock(), False, 0
        self.failures: "dict[str, int]" = {}

    def new_path(self, did: str) -> pathlib.Path:
        """Where a repository stands until it is vouched for."""
        return path_of(self.folder, did).with_suffix(".car.new")

    def stop(self) -> None:
        """Takes away what is begun; nothing more is begun."""
        with self.lock:
            self.is_stopped = True
            remove_begun(self.folder)

    def fetch_all(self, homes: "dict[str, Optional[str]]") -> "dict[str, str]":
        """Fetches the repositories of accounts from their homes, and says of each why it isn't there, in nothing where it is. Those
        that were put off since there is much to judge first aren't in it."""
        self.unjudged, faults = 0, {}
        pool = concurrent.futures.ThreadPoolExecutor(self.limits.jobs)
        futures = {did: pool.submit(self.fetched, did, home) for did, home in homes.items()}
        try:
            # A signal that comes just before a wait is seen at its end alone, so no wait is long.
            while concurrent.futures.wait(futures.values(), timeout=BRIEF).not_done:
                pass
            for did, future in futures.items():
                with contextlib.suppress(Later):
                    faults[did] = future.result()
        except BaseException:
            self.stop()
            raise
        finally:
            pool.shutdown(wait=False, cancel_futures=True)
        return faults

    def fetched(self, did: str, home: Optional[str]) -> str:
        """Why an account's repository could not be written; nothing where it could."""
        if self.unjudged >= TOGETHER_BYTES:
            raise Later
        path = self.new_path(did)
        try:
            self.fetch(did, home, path)
            return ""
        except (Failed, Unanswered) as why:
            path.unlink(missing_ok=True)
            return str(why)
        except OSError as why:
            path.unlink(missing_ok=True)
            why.filename = str(path)
            raise

    def fetch(self, did: str, home: Optional[str], path: pathlib.Path) -> None:
        """Writes an account's repository, as its home gives it, to a file."""
        seconds = min(self.limits.patience, self.end - time.monotonic())
        if home is None:
            raise Failed("its home isn't known")
        if seconds <= 0:
            raise Failed(f"the run's {self.limits.seconds:g} seconds are over (--seconds)")
        if self.failures.get(home, 0) >= MOST_FAILURES:
            raise Failed(f"{home} failed before")
        target = f"/xrpc/com.atproto.sync.getRepo?did={urllib.parse.quote(did, safe='')}"
        size = 0
        with self.begun(path) as file, Connection(home, self.reach, seconds) as connection:
            for piece in self.pieces(connection, target):
                size += len(piece)
                self.take(len(piece), size)
                file.write(piece)
                self.tell(f"{did} {size} bytes")
            file.flush()
            os.fsync(file.fileno())

    def begun(self, path: pathlib.Path):
        """A file that is written, unless the run is being stopped."""
        with self.lock:
            if self.is_stopped:
                raise Failed("the run is stopped")
            return open(path, "wb")

    def pieces(self, connection: Connection, target: str) -> Iterator[bytes]:
        """The pieces of an answer. Which homes fail for one account after another is kept."""
        try:
            yield from connection.pieces(target, KIND)
        except Unanswered as why:
            if not isinstance(why, Refused) or why.may_change():
                with self.lock:
                    self.failures[connection.host] = self.failures.get(connection.host, 0) + 1
            raise
        with self.lock:
            self.failures[connection.host] = 0

    def take(self, count: int, size: int) -> None:
        """Counts bytes of a repository, with those that it has by now."""
        if size > LONGEST:
            raise Failed(f"it has more than {LONGEST} bytes")
        with self.lock:
            self.left -= count
            self.unjudged += count
            if self.left < 0:
                raise Failed(f"the run's {self.limits.bytes} bytes are used (--bytes)")


# Vouching, and taking over.


def look_up(folder: pathlib.Path, dids: Iterable[str], documents: Documents, tell: Say, is_any_enough: bool) -> None:
    """Has the tables name the homes of accounts: those that they have now, or any that the tables have already."""
    known = tables.homes(folder) if is_any_enough else {}
    gathered, since = vouching.Gathered(), time.time() - YOUNG
    for did in dids:
        if did not in known:
            gathered.account(did)
            gathered.renewed[did] = since
    tables.merge(folder, vouching.judge(gathered, documents, tell).homes, ())


def vouched(folder: pathlib.Path, files: "dict[str, pathlib.Path]", revs: "dict[str, Optional[str]]", documents: Documents,
            tell: Say) -> "dict[str, str]":
    """Vouches for repositories in the tables, and says of each account why its one isn't used, in nothing where it is. Those that
    aren't used are taken away."""
    gathered, faults, found = vouching.Gathered(), {}, {}
    for did, path in files.items():
        try:
            found[did] = commit_of(path)
        except Unread as why:
            faults[did] = f"its repository isn't read: {why}"
        else:
            faults[did] = unfit(did, found[did], revs.get(did))
            if not faults[did]:
                gathered.commit(found[did])
    judged = vouching.judge(gathered, documents, tell)
    for each in judged.verdicts:
        if each.word != "good":
            faults[each.commit.did] = f"its repository is {each.word}: {each.why}"
    tables.merge(folder, judged.homes, judged.good())
    for did, fault in faults.items():
        if fault:
            files[did].unlink(missing_ok=True)
    return faults


def unfit(did: str, commit: Commit, rev: Optional[str]) -> str:
    """Why a repository under this commit isn't one that an account at a revision needs; nothing where it is."""
    if commit.did != did:
        return f"its repository is of {commit.did}"
    if rev is not None and commit.rev < rev:
        return f"its repository has revision {commit.rev}, and the commit that was refused {rev}"
    return ""


def give_name(folder: pathlib.Path, did: str) -> str:
    """Puts a repository that is vouched for where the relay looks for it, and gives its revision."""
    path = path_of(folder, did)
    os.replace(path.with_suffix(".car.new"), path)
    sync_folder(path.parent)
    return commit_of(path).rev


def moment() -> str:
    """Now, as it goes out in an event."""
    return datetime.datetime.now(datetime.timezone.utc).strftime("%Y-%m-%dT%H:%M:%SZ")


def take_over(relay: Relay, did: str) -> str:
    """The relay's line on taking an account's repository over, which is taken away then."""
    line = relay.sync(did, moment())
    if line.startswith("synced "):
        remove(relay.folder, did)
    return line
