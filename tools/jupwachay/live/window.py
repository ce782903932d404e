"""The window: which events are kept. Older ones are cut away while little is to be done."""
import asyncio
import pathlib
import time
from typing import Callable, Optional

from jupwachay import files
from jupwachay.live.configuration import Window as Words
from jupwachay.live.runs import Done, Runs
from jupwachay.live.tail import Tail
from jupwachay.speech import say

SECONDS_IN_AN_HOUR = 3600.0
SHARE = 10  # it is cut once this part of the window is over it
REFUSED = 15


class Window:
    """What is kept, and the moments at which numbers were reached."""

    def __init__(self, folder: pathlib.Path, words: Words, runs: Runs, tail: Tail, is_idle: Callable[[], bool]):
        self.words, self.runs, self.tail, self.is_idle = words, runs, tail, is_idle
        self.path = folder / "live.moments"
        self.moments: "list[tuple[float, int]]" = []
        self.oldest = 0  # the number up to which events were cut, as far as is known

    def begin(self) -> None:
        """Begins with the moments that an earlier run kept."""
        try:
            words = [line.split() for line in self.path.read_text(encoding="ascii", errors="replace").splitlines()]
        except FileNotFoundError:
            return
        self.moments = [(float(each[0]), int(each[1])) for each in words if len(each) == 2 and all(word.isdigit() for word in each)]

    def is_set(self) -> bool:
        return bool(self.words.keep_hours or self.words.keep_events)

    def mark(self) -> None:
        """Keeps which number is reached now, unless it was reached before."""
        if self.moments and self.moments[-1][1] == self.tail.last:
            return
        self.moments.append((float(int(time.time())), self.tail.last))
        files.replace(self.path, [f"{moment:.0f} {last}\n".encode() for moment, last in self.moments])

    def due(self) -> int:
        """The number up to which events may go, once they are enough; else 0."""
        found = 0
        if self.words.keep_events:
            over = self.tail.last - self.words.keep_events
            found = over if over - self.oldest > self.words.keep_events // SHARE else 0
        if self.words.keep_hours:
            before = time.time() - self.words.keep_hours * SECONDS_IN_AN_HOUR
            passed = [last for moment, last in self.moments if moment <= before]
            found = max([found, *passed])
        return found if found > self.oldest else 0

    async def keep(self) -> None:
        """Looks now and then, and cuts."""
        while True:
            await asyncio.sleep(self.words.every)
            try:
                if self.words.keep_hours:
                    self.mark()
            except OSError as why:
                say(f"{self.path}: {why.strerror}")
            seq = self.due()
            if seq and self.is_idle():
                done = await self.cut(seq)
                say(f"cut: {done.out.decode().strip() or done.sentence()}")

    async def cut(self, seq: int) -> Done:
        """Cuts the events up to a number away."""
        async with self.runs.turn:
            done = await self.runs.run("cut", str(seq))
            if done.status == 0:
                self.tail.cut(seq)
        if done.status in (0, REFUSED):
            self.oldest = max(self.oldest, seq)
            self.moments = [each for each in self.moments if each[1] > seq]
        return done

    async def make_room(self) -> bool:
        """Cuts the older half of the events where the log is full and a window is set."""
        if not self.is_set():
            return False
        first: Optional[int] = self.oldest or None
        if first is None:
            part = await self.tail.part(0)
            first = part.events.numbers[0] if len(part.events) else self.tail.last
        return (await self.cut((first + self.tail.last) // 2)).status == 0
