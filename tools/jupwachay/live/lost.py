"""Accounts that are lost: their repositories are fetched, vouched for, and taken over by the relay's `sync`."""
import asyncio
import concurrent.futures
import contextlib
import os
import pathlib
import time
from typing import Optional

from jupwachay import files, names, repositories, tapes, vouching
from jupwachay.commits import commit_of
from jupwachay.endings import Ended
from jupwachay.frames import event
from jupwachay.items import Unread
from jupwachay.live.authorities import Tables
from jupwachay.live.configuration import Repositories
from jupwachay.live.runs import Runs
from jupwachay.live.tail import Tail
from jupwachay.live.vouched import Good, Shared, SharedDocuments
from jupwachay.speech import printable, say

SECONDS_YOUNG = 60.0  # a home is looked up anew where its document is older
SECONDS_IN_AN_HOUR = 3600.0
REQUESTS = 10
REFUSED = 15


class Lost:
    """An account that is lost."""

    def __init__(self, did: str, rev: Optional[str]):
        self.did, self.rev = did, rev  # the highest revision of its commits that were refused
        self.since, self.next, self.failures, self.why = time.time(), time.monotonic(), 0, ""
        self.is_tried = self.is_wanted = False  # wanted by an operator, lost or not
        self.is_doubtful = False  # whether the relay has to be asked first if it is lost


class NotBack(Exception):
    """Why an account isn't back yet."""


class Finder:
    """The tasks that bring lost accounts back."""

    def __init__(self, folder: pathlib.Path, words: Repositories, runs: Runs, tables: Tables, tail: Tail, shared: Shared):
        self.folder, self.words, self.runs, self.tables, self.tail, self.shared = folder, words, runs, tables, tail, shared
        self.path = folder / "live.lost"
        self.lost: "dict[str, Lost]" = {}
        self.news = asyncio.Event()
        self.back = self.failed = 0
        self.pool = concurrent.futures.ThreadPoolExecutor(words.at_once, "fetching")
        self.begin_hour()

    def begin_hour(self) -> None:
        """Begins an hour, in which a number of bytes may be fetched."""
        limits = repositories.Limits(self.words.at_once, self.words.patience, float("inf"), self.words.bytes_per_hour)
        self.fetcher = repositories.Fetcher(self.folder, self.shared.reach, limits, lambda _: None)
        self.hour_ends = time.monotonic() + SECONDS_IN_AN_HOUR

    def begin(self) -> None:
        """Begins with the accounts that were lost when an earlier run ended."""
        (self.folder / "repos").mkdir(exist_ok=True)
        with contextlib.suppress(FileNotFoundError):
            for line in self.path.read_text(encoding="ascii", errors="replace").splitlines():
                did, _, rev = line.partition(" ")
                if names.is_did(did):
                    self.lost[did] = Lost(did, rev or None)

    def lose(self, did: str, rev: Optional[str], is_doubtful: bool = False) -> None:
        """Has an account brought back that is lost, by a commit of this revision, or that may be."""
        found = self.lost.get(did)
        if found is None:
            found = self.lost[did] = Lost(did, rev)
            found.is_doubtful = is_doubtful
            self.news.set()
        elif rev is not None:
            found.rev = max(rev, found.rev or rev)
        found.is_doubtful &= is_doubtful

    def lose_left(self, tape: pathlib.Path) -> None:
        """Has the accounts looked at of a tape that was left: nobody has read the report that says whose commits on it were refused."""
        with contextlib.suppress(OSError, Ended):
            for _, message in tapes.records(tape, say):
                with contextlib.suppress(Unread):
                    found = event(message)
                    self.lose(found.did, found.rev, is_doubtful=True)
            self.keep()

    def keep(self) -> None:
        """Keeps on the disk which accounts are lost."""
        lines = [f"{each.did} {each.rev or ''}".rstrip() for each in self.lost.values()]
        with contextlib.suppress(OSError):  # a disk that fails is the carrier's to speak of
            files.replace(self.path, [f"{line}\n".encode() for line in lines])

    async def find(self) -> None:
        """Brings accounts back, some side by side, without end."""
        trying: "set[asyncio.Task]" = set()
        kept: "list[str]" = []
        while True:
            if time.monotonic() > self.hour_ends:
                self.begin_hour()
            for each in self.due()[:self.words.at_once - len(trying)]:
                each.is_tried = True
                trying.add(asyncio.create_task(self.bring_back(each)))
            if kept != list(self.lost):
                kept = list(self.lost)
                self.keep()
            self.news.clear()
            news = asyncio.create_task(self.news.wait())
            done, _ = await asyncio.wait({*trying, news}, timeout=1.0, return_when=asyncio.FIRST_COMPLETED)
            news.cancel()
            for task in done - {news}:
                trying.discard(task)
                task.result()

    def due(self) -> "list[Lost]":
        """The accounts whose turn it is, those first that wait longest."""
        now = time.monotonic()
        return sorted((each for each in self.lost.values() if not each.is_tried and each.next <= now), key=lambda each: each.next)

    async def sync_now(self, did: str) -> "tuple[int, str]":
        """Has an account's repository taken over at an operator's word."""
        each = self.lost.get(did) or Lost(did, None)
        if each.is_tried:
            return REFUSED, "its repository is being fetched already"
        each.is_wanted = each.is_tried = True
        said = await self.bring_back(each)
        return (REFUSED, each.why) if said is None else (0, said)

    async def bring_back(self, each: Lost) -> Optional[str]:
        """Tries once to bring an account back, and gives the relay's line; where it fails, the next try comes after a longer pause."""
        path = self.fetcher.new_path(each.did)
        try:
            if each.is_doubtful and not each.is_wanted and not await self.is_lost(each.did):
                self.lost.pop(each.did, None)
                return "it isn't lost"
            each.is_doubtful = False
            loop = asyncio.get_running_loop()
            good = await loop.run_in_executor(self.pool, self.fetch, each, path)
            line = await self.take_over(each, path, good)
            self.lost.pop(each.did, None)
            return line
        except Exception as why:  # whatever a host's repository makes fail is that account's affair
            self.put_off(each, printable(str(why)) or type(why).__name__)
            return None
        finally:
            each.is_tried = False
            with contextlib.suppress(OSError):
                path.unlink(missing_ok=True)

    def put_off(self, each: Lost, why: str) -> None:
        self.failed += 1
        each.failures += 1
        each.why = why
        pause = min(self.words.first_pause * 2 ** min(each.failures - 1, 20), self.words.longest_pause)
        each.next = time.monotonic() + pause
        say(f"{each.did} has no repository yet: {why}" + (f"; tried again in {pause:.0f} seconds" if each.did in self.lost else ""))

    def fetch(self, each: Lost, path: pathlib.Path) -> Good:
        """Fetches an account's repository to a file, and vouches for its commit."""
        documents = SharedDocuments(self.shared)
        documents.begin(self.words.patience, REQUESTS)
        documents.renew(each.did, time.time() - SECONDS_YOUNG)
        document = documents.of(each.did)
        if document.home is None:
            raise NotBack(document.why or "its home isn't known")
        self.fetcher.unjudged = 0
        fault = self.fetcher.fetched(each.did, document.home)
        if fault:
            raise NotBack(fault)
        commit = commit_of(path)
        unfit = repositories.unfit(each.did, commit, each.rev)
        if unfit:
            raise NotBack(unfit)
        verdict = vouching.verdict(commit, set(), documents)
        if verdict.word != "good":
            raise NotBack(f"its repository is {verdict.word}: {verdict.why}")
        return Good({each.did: document.home}, [commit])

    async def take_over(self, each: Lost, path: pathlib.Path, good: Good) -> str:
        """Has the relay take a repository over, unless the account is lost no more, or its commits went on past it meanwhile."""
        async with self.runs.turn:
            unfit = repositories.unfit(each.did, good.commits[0], each.rev)
            if unfit:
                raise NotBack(unfit)
            if await self.is_lost_now(each.did) or each.is_wanted:
                return await self.sync(each.did, path, good)
            await self.tail.grow(None)  # by a run that was killed once it had taken the repository over, maybe
            return "it isn't lost any more"

    async def is_lost(self, did: str) -> bool:
        async with self.runs.turn:
            return await self.is_lost_now(did)

    async def is_lost_now(self, did: str) -> bool:
        """Whether the relay has an account as lost. Who calls it holds the turn of the runs."""
        told = await self.runs.run("account", did)
        if told.status != 0:
            raise NotBack(told.sentence())
        return told.out.split()[4:5] == [b"lost"]

    async def sync(self, did: str, path: pathlib.Path, good: Good) -> str:
        self.tables.write(good)
        os.replace(path, repositories.path_of(self.folder, did))
        try:
            done = await self.runs.run("sync", did, repositories.moment())
            if done.status == REFUSED:
                raise NotBack(done.out.decode().strip())
            if done.status != 0:
                raise NotBack(done.sentence())
            self.back += 1
            line = done.out.decode().strip()
            say(f"{did} is back: {line}")
            await self.tail.grow(int(done.out.split()[1]))
            return line
        finally:
            repositories.remove(self.folder, did)

    def stop(self) -> None:
        """Fetches nothing more."""
        self.keep()
        self.fetcher.stop()
        self.pool.shutdown(wait=False, cancel_futures=True)
