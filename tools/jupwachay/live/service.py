"""A live relay: its parts, how they begin, and how they end."""
import asyncio
import contextlib
import fcntl
import os
import pathlib
import signal
import time
from typing import Optional

from aiohttp import web

from jupwachay import repositories
from jupwachay.addresses import Reach
from jupwachay.endings import DISK, Ended
from jupwachay.live import commands, operation, statuses
from jupwachay.live.authorities import Tables
from jupwachay.live.carrier import TAPE, Carrier, remove_leftovers
from jupwachay.live.configuration import Configuration
from jupwachay.live.consumers import Consumers
from jupwachay.live.hosts import Hosts
from jupwachay.live.intake import Intake
from jupwachay.live.lost import Finder
from jupwachay.live.metrics import Metrics
from jupwachay.live.operation import Door
from jupwachay.live.queries import Queries
from jupwachay.live.runs import Done, Runs
from jupwachay.live.statuses import Action
from jupwachay.live.tail import Tail
from jupwachay.live.vouched import Shared, Vouching
from jupwachay.live.web import Pages
from jupwachay.live.window import Window
from jupwachay.speech import say

SECONDS_TO_END_A_RUN = 5.0
SECONDS_TO_SEND_AWAY = 3.0
SECONDS_TO_WAIT_FOR_RUNS = 60.0
SECONDS_BETWEEN_TRIES = 0.5


class Live:
    """All parts over a folder."""

    def __init__(self, words: Configuration, program: pathlib.Path, folder: pathlib.Path):
        self.words, self.folder, self.begun, self.version = words, folder, time.time(), ""
        reach = Reach(words.plain or words.private, words.plain)
        self.runs = Runs(program, folder)
        self.tail = Tail(self.runs, words.consumers)
        self.hosts = Hosts(words, folder)
        shared = Shared(folder, words.plc or None, reach, words.documents)
        self.vouching = Vouching(shared, self.hosts)
        self.intake = Intake(self.hosts, self.vouching, reach)
        self.tables = Tables(folder)
        self.finder = Finder(folder, words.repositories, self.runs, self.tables, self.tail, shared)
        self.window = Window(folder, words.window, self.runs, self.tail, self.is_idle)
        self.queries = Queries(self.runs)
        self.consumers = Consumers(self.tail, words.consumers)
        self.carrier = Carrier(folder, words.batch, self.runs, self.hosts, self.vouching, self.tables, self.tail)
        self.metrics = Metrics(self)
        self.carrier.make_room, self.carrier.restart = self.window.make_room, self.restart
        self.carrier.lose, self.carrier.keep_lost = self.finder.lose, self.finder.keep
        self.carrier.observe = self.metrics.batch_seconds.observe
        self.runs.changed = self.queries.change
        self.door = Door(folder, commands.of(self))
        self.stopped = asyncio.Event()

    def is_idle(self) -> bool:
        """Whether little is to be done now."""
        return self.hosts.ready()[0] == 0

    async def restart(self, host: str) -> None:
        await self.intake.restart(self.hosts.all[host])

    def follow_asked(self, name: str) -> None:
        """Follows a host that asked for it, now and after a restart."""
        host = self.hosts.add(name)
        if host is not None:
            self.hosts.keep_asked(name)
            self.intake.start(host)

    async def done(self, *words: str) -> Done:
        """A run at the start, again and again while the disk fails."""
        said, failures = "", 0
        while True:
            async with self.runs.turn:
                done = await self.runs.run(*words)
            what, failures = statuses.action(done.status), failures + 1
            if what is Action.GO_ON:
                if done.said:
                    say(done.said)
                return done
            if what is not Action.AGAIN and failures >= statuses.MOST_IN_A_ROW or what is Action.END:
                raise Ended(max(done.status, 1), done.sentence())
            if done.said != said:
                say(f"{done.sentence()}; it is tried again")
                said = done.said
            await asyncio.sleep(SECONDS_BETWEEN_TRIES)

    async def begin(self) -> None:
        """Reads where the journal is."""
        self.runs.kept_open = (await locked(self.folder),)
        self.finder.begin()
        self.finder.lose_left(self.folder / TAPE)
        remove_leftovers(self.folder)
        self.tables.read()
        self.tail.begin(int((await self.done("ingest")).out.split()[-1]))
        lines = [line.split(" ") for line in (await self.done("hosts")).out.decode().splitlines()]
        self.hosts.begin({host: int(cursor) for host, cursor in lines[:-1]})
        self.window.begin()

    async def open(self) -> web.AppRunner:
        """Lets consumers and commands in, and says where."""
        runner = web.AppRunner(Pages(self).application(), access_log=None)
        await runner.setup()
        host, port = self.words.address()
        try:
            await web.TCPSite(runner, host, port, shutdown_timeout=SECONDS_TO_SEND_AWAY).start()
            await self.door.open()
        except OSError as why:
            raise Ended(DISK, f"{self.words.listen}: {why.strerror}") from why
        host, port = runner.addresses[0][:2]
        print(f"listening on http://{host}:{port} last {self.tail.last} hosts {len(self.hosts.all)}", flush=True)
        return runner

    async def run(self) -> int:
        """Runs until a signal or the command `stop` ends it, or a run of the relay that can't be mended."""
        loop = asyncio.get_running_loop()
        for number in (signal.SIGINT, signal.SIGTERM, signal.SIGHUP):
            loop.add_signal_handler(number, self.stopped.set)
        tasks = [asyncio.create_task(self.begin())]
        runner: Optional[web.AppRunner] = None
        try:
            if not await self.until_stopped(tasks):
                runner = await self.open()
                for host in self.hosts.all.values():
                    self.intake.start(host)
                lasting = (self.carrier.carry(), self.finder.find(), self.window.keep(), self.queries.keep_up())
                tasks = [asyncio.create_task(each) for each in lasting]
                await self.until_stopped([*tasks, self.intake.fault])
            return 0
        finally:
            await self.end(tasks, runner)

    async def until_stopped(self, tasks: "list[asyncio.Future]") -> bool:
        """Waits until it is to stop, or one of the tasks ends; fails of what that failed of, and else says whether it is to stop."""
        stopped = asyncio.create_task(self.stopped.wait())
        done, _ = await asyncio.wait({stopped, *tasks}, return_when=asyncio.FIRST_COMPLETED)
        stopped.cancel()
        for task in done - {stopped}:
            task.result()
        return stopped in done

    async def end(self, tasks: "list[asyncio.Task]", runner: Optional[web.AppRunner]) -> None:
        """Ends all. What came of hosts and wasn't taken they send again, from where the journal is with them."""
        say("stopping")
        await self.intake.stop()
        self.vouching.stop()
        if self.runs.kept_open:  # else another live relay works on the folder
            self.finder.stop()
        await self.runs.stop(SECONDS_TO_END_A_RUN)
        for task in tasks:
            task.cancel()
        await asyncio.gather(*tasks, return_exceptions=True)
        self.door.close()
        with contextlib.suppress(asyncio.TimeoutError):
            await asyncio.wait_for(self.consumers.stop(), SECONDS_TO_SEND_AWAY)
        if runner:
            await runner.cleanup()
        if self.runs.kept_open:
            self.carrier.lose_untold()
            self.finder.keep()
            repositories.remove_begun(self.folder)


async def locked(folder: pathlib.Path) -> int:
    """A file whose lock says that a live relay works on a folder. Runs of the relay have it open, too: those of a live relay that was
    killed end before the next one begins."""
    file = os.open(folder / operation.LOCK, os.O_RDWR | os.O_CREAT, 0o600)
    end = time.monotonic() + SECONDS_TO_WAIT_FOR_RUNS
    while True:
        try:
            fcntl.flock(file, fcntl.LOCK_EX | fcntl.LOCK_NB)
            return file
        except BlockingIOError as why:
            if operation.is_answering(folder) or time.monotonic() > end:
                os.close(file)
                raise Ended(DISK, f"{folder}: another live relay works on this folder") from why
        await asyncio.sleep(SECONDS_BETWEEN_TRIES)
