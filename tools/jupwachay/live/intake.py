"""Following hosts: a task for each takes its stream and puts what comes to what waits."""
import asyncio
import contextlib
import random
import time

import websockets

from jupwachay import frames
from jupwachay.addresses import Reach, host_and_port, opened
from jupwachay.items import Unread
from jupwachay.live.hosts import Host, Hosts, Message
from jupwachay.live.vouched import Vouching
from jupwachay.speech import printable, say

TARGET = "/xrpc/com.atproto.sync.subscribeRepos"
SECONDS_TO_CONNECT = 20.0
PING_SECONDS = 30.0
QUEUE = 4  # messages that the library holds
FIRST_PAUSE = 1.0
TOO_BIG = 1009  # the code of a close (RFC 6455, section 7.4.1)


class Lost(Exception):
    """Why a stream ended."""


def printable_reason(why: Exception) -> str:
    """Why a connection failed, in words."""
    sent = getattr(why, "sent", None)
    if sent is not None and sent.code == TOO_BIG:
        return f"its next message has more than {frames.LONGEST} bytes"
    status = getattr(why, "status_code", None)
    return f"it answers {status}" if status else printable(str(why)) or type(why).__name__


class Connection(websockets.connect):
    """A connection that no answer leads to another place."""

    def handle_redirect(self, uri: str) -> None:
        raise Lost("it answers with a redirection, which isn't followed")

    def process_redirect(self, why: Exception) -> Exception:
        """The same of later versions of the library."""
        return why


class Intake:
    """The tasks that follow hosts."""

    def __init__(self, hosts: Hosts, vouching: Vouching, reach: Reach):
        self.hosts, self.vouching, self.reach = hosts, vouching, reach
        self.fault = asyncio.get_running_loop().create_future()  # what a task failed of, which none should

    def start(self, host: Host) -> None:
        """Begins to follow a host, after a pause where it failed before."""
        host.tasks = [asyncio.create_task(self.follow(host)), asyncio.create_task(self.vouching.keep_up(host))]
        for task in host.tasks:
            task.add_done_callback(self.see_fault)

    def see_fault(self, task: asyncio.Task) -> None:
        """Keeps what a task failed of."""
        if not task.cancelled() and task.exception() and not self.fault.done():
            self.fault.set_exception(task.exception())

    async def restart(self, host: Host) -> None:
        """Follows a host anew from where the journal is with it."""
        await self.leave(host)
        self.vouching.leave(host.name)
        host.reset()
        host.told = "its stream is wanted anew"
        self.start(host)

    @staticmethod
    async def leave(host: Host) -> None:
        """Follows a host no more."""
        for task in host.tasks:
            task.cancel()
        await asyncio.gather(*host.tasks, return_exceptions=True)
        host.is_connected = False

    async def stop(self) -> None:
        """Follows no host any more."""
        await asyncio.gather(*(self.leave(host) for host in self.hosts.all.values()))

    async def follow(self, host: Host) -> None:
        """Takes a host's stream over one connection after another, with pauses that grow while nothing comes of them."""
        while True:
            if host.failures:
                await asyncio.sleep(pause_after(host))
            await host.room.wait()
            before = host.messages
            try:
                await self.listen(host)
            except Exception as why:  # whatever a host makes fail is that host's affair
                host.told = printable_reason(why)
                say(f"{host.name}: {host.told}")
            host.is_connected = False
            host.failures = 1 if host.messages > before else host.failures + 1

    def uri(self, host: Host) -> str:
        """Where its stream is, after the last number that came. A host that is new is asked for all that it has."""
        return f"{'ws' if self.reach.is_plain else 'wss'}://{host.name}{TARGET}?cursor={host.received or 0}"

    async def listen(self, host: Host) -> None:
        """Takes the messages of one connection."""
        name, port = host_and_port(host.name, 80 if self.reach.is_plain else 443)
        sock = await opened(name, port, self.reach, SECONDS_TO_CONNECT)
        options = {} if self.reach.is_plain else {"server_hostname": name}
        options |= {"max_size": frames.LONGEST, "max_queue": QUEUE, "compression": None, "open_timeout": SECONDS_TO_CONNECT,
                    "close_timeout": 2, "ping_interval": PING_SECONDS, "ping_timeout": PING_SECONDS}
        with contextlib.closing(sock):
            async with Connection(self.uri(host), sock=sock, **options) as stream:
                host.is_connected, host.told = True, "connected"
                async for content in stream:
                    self.take(host, content if isinstance(content, bytes) else b"")
                    await asyncio.sleep(host.wait(len(content)))
                    await host.room.wait()
                raise Lost("it ended its stream")

    @staticmethod
    def take(host: Host, content: bytes) -> None:
        """Puts a message to those that wait. An error ends the stream, and isn't given to the relay, which takes nothing after one."""
        try:
            event = frames.event(content)
            host.put(Message(host.name, event.seq, event, content, time.monotonic()))
        except Unread:
            told = frames.told(content)
            if told and told.is_error:
                raise Lost(printable(f"it sends an error: {told.name} {told.message}")) from None
            host.put(Message(host.name, frames.number(content), None, content, time.monotonic()))


def pause_after(host: Host) -> float:
    """The seconds to wait after failures in a row."""
    return min(FIRST_PAUSE * 2 ** min(host.failures - 1, 20), host.limits.longest_pause) * random.uniform(0.5, 1.5)
