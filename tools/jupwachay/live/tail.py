"""What consumers are served: the backlog in memory, which each new event joins, and parts of the past from the disk."""
import asyncio
import weakref
from typing import Optional

from jupwachay.live.configuration import ConsumerLimits
from jupwachay.live.events import Event, Stretch, read_event, split
from jupwachay.live.runs import Done, Runs

MOST_PARTS = 4
SECONDS_BETWEEN_LOOKS = 0.2
MOST_RECENT = 20


class Part:
    """A part of the past: the notice that a cursor is given first, and the events after it."""

    def __init__(self, cursor: int, notice: Optional[Event], events: Stretch):
        self.cursor, self.notice, self.events = cursor, notice, events

    def serves(self, cursor: int) -> bool:
        """Whether a consumer at a cursor can go on with it. Its notice is for its own cursor, and for those before its first event."""
        first = self.events.numbers[0] if len(self.events) else self.events.end + 1
        is_inside = self.events.covers(cursor) and cursor < self.events.end
        return cursor == self.cursor or is_inside and (self.notice is None or cursor >= first)


class Unserved(Exception):
    """Why the journal couldn't be read for consumers."""

    def __init__(self, done: Done):
        super().__init__(done.sentence())
        self.done = done


class Tail:
    """The events of the journal, from the oldest to those to come."""

    def __init__(self, runs: Runs, words: ConsumerLimits):
        self.runs, self.words = runs, words
        self.backlog = Stretch(0)
        self.recent: list[Event] = []
        self.parts: list[Part] = []
        self.held: "weakref.WeakSet[Part]" = weakref.WeakSet()  # those that consumers have in hand, too
        self.news = asyncio.Event()
        self.events = self.epoch = 0
        self.is_changed = False
        self.hidden: "set[str]" = set()  # accounts whose hosts took them down or deleted them, since the backlog began

    @property
    def last(self) -> int:
        """The last number that was given, as far as is known."""
        return self.backlog.end

    def begin(self, last: int) -> None:
        """Begins with a journal whose last number this is: what comes next joins the backlog, older events are on the disk."""
        self.backlog = Stretch(last)

    def change(self) -> None:
        """Has the old events read anew with the next ones, since others may be shown now."""
        self.is_changed = True

    def see_account(self, did: str, is_hidden: bool) -> None:
        """Keeps that an account's state came. What is kept in memory stays right, unless the account is hidden now, or was before."""
        self.forget_parts()
        if is_hidden or did in self.hidden:
            self.change()
        if is_hidden:
            self.hidden.add(did)
        else:
            self.hidden.discard(did)

    async def grow(self, last: Optional[int]) -> int:
        """Reads the events that are new, and gives how many they are. Who calls it holds the turn of the runs, so that `last`, where it
        is known, is the last number of the journal that is read."""
        start = self.backlog.start if self.is_changed else self.backlog.end
        done = await self.runs.run("replay", str(start))
        if done.status != 0:
            raise Unserved(done)
        return self.join([read_event(message) for message in split(done.out)], last)

    def join(self, found: "list[Event]", last: Optional[int]) -> int:
        before = self.backlog.end
        if self.is_changed:
            self.backlog = Stretch(self.backlog.start)
            self.backlog.end = before
            self.forget_parts()
            self.is_changed = False
        for event in found:
            if event.seq is not None:
                self.backlog.append(event.seq, event.message)
        new = [event for event in found if event.seq is not None and event.seq > before]
        self.backlog.end = max(self.backlog.end, last or 0)
        self.backlog.drop_front(self.words.backlog_events, self.words.backlog_bytes)
        self.recent = (self.recent + new)[-MOST_RECENT:]
        self.events += len(new)
        news, self.news = self.news, asyncio.Event()
        news.set()
        return len(new)

    def forget_parts(self) -> None:
        """Forgets what was read of the past. Consumers that are in the midst of it have it read anew from where they are."""
        self.parts.clear()
        self.epoch += 1

    def cut(self, seq: int) -> None:
        """Forgets what the journal has no more."""
        self.backlog.drop_up_to(seq)
        self.forget_parts()

    async def part(self, cursor: int) -> Part:
        """A part of the past after a cursor, from memory where another consumer had it read, else from the disk."""
        found = self.kept(cursor)
        if found:
            return found
        await self.wait_for_room()
        async with self.runs.turn:
            found = self.kept(cursor)  # another consumer may have had it read meanwhile
            if found:
                return found
            done = await self.runs.run("replay", str(cursor), most=self.words.part_bytes)
            if done.status != 0:
                raise Unserved(done)
            return self.keep(cursor, done)

    async def wait_for_room(self) -> None:
        """Waits until the parts in memory leave room for another one."""
        while sum(part.events.size() for part in self.held) + self.words.part_bytes > self.words.past_bytes:
            if self.parts:
                self.parts.pop()
            else:
                await asyncio.sleep(SECONDS_BETWEEN_LOOKS)

    def kept(self, cursor: int) -> Optional[Part]:
        return next((part for part in self.parts if part.serves(cursor)), None)

    def keep(self, cursor: int, done: Done) -> Part:
        events, notice = Stretch(cursor), None
        for message in split(done.out):
            event = read_event(message)
            if event.seq is None:
                notice = event
            else:
                events.append(event.seq, event.message)
        part = Part(cursor, notice, events)
        self.held.add(part)
        if notice and notice.is_error:
            return part
        if len(done.out) < self.words.part_bytes:
            events.end = max(events.end, self.last)
        if events.end > cursor:
            self.parts = [part, *self.parts[:MOST_PARTS - 1]]
        return part
