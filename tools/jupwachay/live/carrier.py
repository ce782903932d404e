"""Carrying what is ready to `ingest`, and what came of it to consumers: one batch after another."""
import asyncio
import pathlib
import random
import time
from collections import Counter
from typing import Callable, Optional

from jupwachay import frames, repositories, tapes
from jupwachay.endings import DISK, Ended
from jupwachay.live import report, statuses
from jupwachay.live.authorities import Tables
from jupwachay.live.configuration import Batch
from jupwachay.live.hosts import Hosts, Message
from jupwachay.live.runs import Done, Runs
from jupwachay.live.statuses import Action
from jupwachay.live.tail import Tail, Unserved
from jupwachay.live.vouched import Vouching
from jupwachay.speech import say

TAPE = "live.tape"
FIRST_PAUSE = 1.0
STATUS_OF_KILLED = 1
HIDDEN = ("takendown", "deleted")


class Carried:
    """What came of all batches."""

    def __init__(self):
        self.lines: Counter = Counter()
        self.refused: Counter = Counter()
        self.recent_refused: "list[tuple[float, report.Refused, str]]" = []  # when, what, whose
        self.batches = self.messages = 0
        self.seconds = 0.0  # that the last batch took
        self.fault = ""  # why nothing is taken now, if so


class Carrier:
    """The task that takes batches."""

    def __init__(self, folder: pathlib.Path, words: Batch, runs: Runs, hosts: Hosts, vouching: Vouching, tables: Tables, tail: Tail):
        self.folder, self.words, self.runs, self.hosts, self.vouching, self.tail = folder, words, runs, hosts, vouching, tail
        self.tables = tables
        self.carried = Carried()
        self.last: Optional[int] = None  # the last number, by the last report, where that is whole
        self.is_behind = False  # whether there are events that consumers can't be sent yet
        self.make_room: "Callable[[], asyncio.Future]" = no_room
        self.lose: "Callable[[str, Optional[str], bool], None]" = lambda _did, _rev, _is_doubtful: None
        self.keep_lost: "Callable[[], None]" = lambda: None
        self.untold: "dict[tuple[str, int], tuple[str, Optional[str]]]" = {}  # events that were in a run, and in no report: whose, its revision
        self.restart: "Callable[[str], asyncio.Future]" = no_room
        self.observe: "Callable[[float], None]" = lambda _seconds: None

    async def carry(self) -> None:
        """Takes batches without end."""
        while True:
            await self.wait()
            messages = self.hosts.take(self.words.messages, self.words.bytes)
            if messages:
                begun = time.monotonic()
                await self.take(messages)
                self.carried.seconds = time.monotonic() - begun
                self.observe(self.carried.seconds)

    async def wait(self) -> None:
        """Waits until something is ready, and then for more of it, as long as the interval lasts."""
        end = time.monotonic() + self.words.interval
        self.hosts.work.clear()
        while not self.is_enough() and (not self.hosts.ready()[0] or time.monotonic() < end):
            left = end - time.monotonic() if self.hosts.ready()[0] else None
            try:
                await asyncio.wait_for(self.hosts.work.wait(), left)
            except asyncio.TimeoutError:
                return
            self.hosts.work.clear()

    def is_enough(self) -> bool:
        many, size = self.hosts.ready()
        return many >= self.words.messages or size >= self.words.bytes

    async def take(self, messages: "list[Message]") -> None:
        """Has messages taken, by as many runs as it needs."""
        todo, failures = [messages], 0
        while todo:
            done = await self.ingest(todo[0])
            what = statuses.action(done.status)
            if what is Action.GO_ON:
                todo.pop(0)
                await self.catch_up()
                failures, self.carried.fault = 0, ""
                continue
            failures += 1
            self.carried.fault = done.sentence()
            say(done.sentence())
            todo[:1] = await self.go_on(what, todo[0], done, failures)
            await self.pause(failures)

    async def pause(self, failures: int) -> None:
        """Waits after runs in a row that failed."""
        await asyncio.sleep(min(FIRST_PAUSE * 2 ** min(failures - 1, 20), self.words.longest_pause) * random.uniform(0.5, 1.0))

    async def catch_up(self) -> None:
        """Reads for consumers what could not be read when it was taken, again and again while that fails."""
        failures = 0
        while self.is_behind:
            failures += 1
            await self.pause(failures)
            async with self.runs.turn:
                await self.grow()

    async def go_on(self, what: Action, messages: "list[Message]", done: Done, failures: int) -> "list[list[Message]]":
        """Does what follows on a run that failed, and gives what is to be taken now in place of its messages."""
        few_times = what is Action.A_FEW_TIMES or done.status < 0
        if what in (Action.END, Action.REFUSED) or few_times and failures >= statuses.MOST_IN_A_ROW:
            raise Ended(max(done.status, STATUS_OF_KILLED), done.sentence())
        if what is Action.MAKE_ROOM and not await self.make_room():
            raise Ended(done.status, f"{done.sentence()}; no window is set by which old events may go")
        if what is Action.DROP_REPOSITORIES:
            for path in (self.folder / "repos").glob("*.car"):
                path.unlink(missing_ok=True)
        if what is Action.SMALLER:
            if len(messages) > 1:
                half = len(messages) // 2
                return [messages[:half], messages[half:]]
            if done.status > 0:
                raise Ended(done.status, f"{done.sentence()}, with one message of {messages[0].host} alone")
        return [messages]

    async def ingest(self, messages: "list[Message]") -> Done:
        """One run over messages, and what it left. Nothing else works on the folder up to the end of it."""
        tape = self.folder / TAPE
        async with self.runs.turn:
            try:
                self.tables.write(self.vouching.good_of(messages))
                tape.write_bytes(b"".join(tapes.record(message.host, message.content) for message in messages))
            except OSError as why:
                return Done(DISK, b"", f"{why.filename or tape}: {why.strerror}", 0.0)
            done = await self.runs.run("ingest", given=tape)
            found = report.read(done.out)
            self.see_accounts(messages, found)
            self.last = found.last
            if found.last is None or found.last > self.tail.last:
                await self.grow()
        self.see_lost(messages, found)
        if found.is_whole():
            tape.unlink(missing_ok=True)  # not before it is kept which accounts are lost by it
        await self.account_for(messages, found)
        return done

    def see_accounts(self, messages: "list[Message]", found: report.Report) -> None:
        """Has the tail keep which accounts' states came, as far as they were accepted."""
        for message in messages:
            is_state = message.event is not None and message.event.kind == "#account"
            if is_state and (not found.is_whole() or (message.host, message.seq) in found.accepted):
                self.tail.see_account(message.event.did, is_hidden(message.content))

    async def grow(self) -> None:
        """Reads the new events for consumers. Where that fails it is to be done again, unless nothing can come of it."""
        self.is_behind = True
        try:
            await self.tail.grow(self.last)
            self.is_behind = False
        except Unserved as why:
            if statuses.action(why.done.status) is Action.END:
                raise Ended(why.done.status, str(why)) from why
            self.carried.fault = str(why)
            say(str(why))

    def see_lost(self, messages: "list[Message]", found: report.Report) -> None:
        """Keeps which accounts are lost by messages. One that is `old` may have been refused by a run that ended before it said so."""
        doubtful = found.old & self.untold.keys()
        named = doubtful | {(each.host, each.seq) for each in found.refused if each.is_lost}
        events = {(message.host, message.seq): message.event for message in messages if message.event}
        for place, event in events.items():
            if place in named:
                self.lose(event.did, event.rev, place in doubtful)
            if place in found.told:
                self.untold.pop(place, None)
            elif not found.is_whole():
                self.untold[place] = event.did, event.rev
        if named:
            self.keep_lost()

    def lose_untold(self) -> None:
        """Has the accounts looked at whose events were in a run that failed, and are in no other one any more."""
        for did, rev in self.untold.values():
            self.lose(did, rev, True)

    async def account_for(self, messages: "list[Message]", found: report.Report) -> None:
        """Keeps what came of messages: where the journal is with hosts, what was refused, and who has to be asked anew."""
        self.hosts.taken(found.cursors)
        self.carried.lines.update(found.lines)
        self.carried.refused.update(found.names())
        events = {(message.host, message.seq): message.event for message in messages}
        for each in found.refused:
            event = events.get((each.host, each.seq))
            if event is None:
                continue
            self.carried.recent_refused = [*self.carried.recent_refused, (time.time(), each, event.did)][-20:]
        if found.is_whole():
            self.carried.batches += 1
            self.carried.messages += len(messages)
            self.vouching.forget(messages)
            for host, why in found.ended.items():
                say(f"{host}: the relay takes no more after what it sent ({why})")
                await self.restart(host)


def is_hidden(content: bytes) -> bool:
    """Whether a message says that its account was taken down or deleted."""
    fields = frames.header(content)[1].fields(("active", "status"))
    return fields.get("active") is not True and fields.get("status") in HIDDEN


async def no_room(*_) -> bool:
    return False


def remove_leftovers(folder: pathlib.Path) -> None:
    """Takes away what a run that was killed left."""
    (folder / TAPE).unlink(missing_ok=True)
    repositories.remove_begun(folder)
