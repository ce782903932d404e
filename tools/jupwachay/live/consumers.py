"""Consumers: each is sent the events after its cursor, in order, each once, for as long as it takes them soon enough."""
import asyncio
import contextlib
import time
from typing import Optional

import aiohttp
import cbor2
from aiohttp import web

from jupwachay.live.configuration import ConsumerLimits
from jupwachay.live.tail import Part, Tail, Unserved

LAST_NUMBER = 2**53 - 1
LONGEST_FROM_CONSUMER = 4096
AT_ONCE = 1 << 20  # bytes of messages that are taken out of the backlog at a time
TOO_SLOW = "ConsumerTooSlow"
SECONDS_TO_READ_WHY = 5.0
SECONDS_WITHOUT_NEWS = 0.5
SECONDS_BETWEEN_LOOKS = 1.0
GOING_AWAY, TRY_AGAIN_LATER, POLICY = 1001, 1013, 1008


class TooSlow(Exception):
    """How a consumer is too slow."""


def error_frame(name: str, message: str) -> bytes:
    """An error of the stream (Event Stream specification, "Framing"): a header with op -1, and a payload."""
    return cbor2.dumps({"op": -1}, canonical=True) + cbor2.dumps({"error": name, "message": message}, canonical=True)


def cursor_of(asked: Optional[str]) -> Optional[int]:
    """The cursor that is asked for; none where the request has none."""
    if asked is None:
        return None
    if not asked.isascii() or not asked.isdigit() or len(asked) > 16 or int(asked) > LAST_NUMBER:
        raise web.HTTPBadRequest(text='{"error":"InvalidRequest","message":"the cursor is no number"}', content_type="application/json")
    return int(asked)


class Consumer:
    """A consumer: up to which number it was sent everything."""

    def __init__(self, tail: Tail, limits: ConsumerLimits, socket: web.WebSocketResponse, request: web.Request, cursor: Optional[int]):
        self.tail, self.limits, self.socket, self.request = tail, limits, socket, request
        self.cursor = tail.last if cursor is None else cursor
        self.begun, self.sent, self.bytes = time.time(), 0, 0
        self.waits_since: Optional[float] = None  # since when a message is on its way to it
        self.has_caught_up = cursor is None
        self.part: Optional[Part] = None
        self.part_since = 0.0  # when it was given the part
        self.epoch = tail.epoch

    async def send_all(self) -> None:
        """Sends what there is, and what comes."""
        while not self.socket.closed:
            news = self.tail.news
            if self.tail.backlog.covers(self.cursor):
                self.part = None
                messages, end = self.tail.backlog.after(self.cursor, AT_ONCE)
                await self.send(messages, end)
                if not messages:
                    self.has_caught_up = True
                    await news.wait()
            else:
                self.check()
                await self.send_past()

    async def send_past(self) -> None:
        """Sends of a part of the past."""
        if self.part is None or self.epoch != self.tail.epoch or self.cursor >= self.part.events.end:
            before = self.cursor
            self.part = None  # so that its room is free for the next one
            self.part = await self.tail.part(self.cursor)
            self.part_since = time.monotonic()
            self.epoch = self.tail.epoch
            notice = self.part.notice
            if notice:
                await self.send_one(notice.message)
                if notice.is_error:
                    await self.socket.close()
                    return
            if self.part.events.end <= before:
                await asyncio.sleep(SECONDS_WITHOUT_NEWS)
        await self.send(*self.part.events.after(self.cursor, AT_ONCE))

    async def send(self, messages: "list[bytes]", end: int) -> None:
        """Sends messages, after which all up to a number was sent."""
        for message in messages:
            await self.send_one(message)
        self.cursor = max(self.cursor, end)

    async def send_one(self, message: bytes) -> None:
        self.waits_since = time.monotonic()
        await self.socket.send_bytes(message)
        self.waits_since = None
        self.sent += 1
        self.bytes += len(message)

    def lag(self) -> "tuple[int, int]":
        """How many messages wait for it in the backlog, and their bytes."""
        return self.tail.backlog.left(self.cursor)

    def check(self) -> None:
        """Refuses to go on with a consumer that takes nothing, or that had caught up and for which more waits than may."""
        many, size = self.lag()
        if self.has_caught_up and (size > self.limits.waiting_bytes or many > self.limits.waiting_events
                                   or self.cursor < self.tail.backlog.start):
            raise TooSlow("more messages wait for this consumer than may")
        if self.waits_since is not None and time.monotonic() - self.waits_since > self.limits.seconds:
            raise TooSlow(f"a message wasn't taken within {self.limits.seconds:g} seconds")
        if self.part is not None and time.monotonic() - self.part_since > self.limits.part_seconds:
            raise TooSlow(f"{self.part.events.size()} bytes weren't taken within {self.limits.part_seconds:g} seconds")


class Consumers:
    """All consumers."""

    def __init__(self, tail: Tail, limits: ConsumerLimits):
        self.tail, self.limits = tail, limits
        self.all: "dict[asyncio.Task, Consumer]" = {}
        self.too_slow = self.served = 0

    async def serve(self, request: web.Request) -> web.StreamResponse:
        """Serves one until it goes."""
        cursor = cursor_of(request.query.get("cursor"))
        if len(self.all) >= self.limits.most:
            raise web.HTTPServiceUnavailable(text="there are as many consumers as may be", headers={"Retry-After": "10"})
        socket = web.WebSocketResponse(heartbeat=self.limits.heartbeat, compress=False, max_msg_size=LONGEST_FROM_CONSUMER)
        await socket.prepare(request)
        consumer = Consumer(self.tail, self.limits, socket, request, cursor)
        sending = asyncio.create_task(self.send(consumer))
        self.all[sending] = consumer
        self.served += 1
        try:
            async for message in socket:
                if message.type is aiohttp.WSMsgType.ERROR:
                    break
        finally:
            sending.cancel()
            await asyncio.gather(sending, return_exceptions=True)
            del self.all[sending]
        return socket

    async def send(self, consumer: Consumer) -> None:
        """Sends to a consumer while a watch is kept on what waits for it."""
        sending = asyncio.create_task(consumer.send_all())
        watching = asyncio.create_task(self.watch(consumer))
        try:
            await asyncio.wait((sending, watching), return_when=asyncio.FIRST_COMPLETED)
            for task in (watching, sending):
                if task.done():
                    await task
        except TooSlow as why:
            self.too_slow += 1
            await self.drop(consumer, str(why))
        except Unserved:
            await consumer.socket.close(code=TRY_AGAIN_LATER, message=b"the journal can't be read now")
        except (ConnectionError, RuntimeError):
            await consumer.socket.close()  # it went while it was sent to
        finally:
            for task in (sending, watching):
                task.cancel()
            await asyncio.gather(sending, watching, return_exceptions=True)

    async def watch(self, consumer: Consumer) -> None:
        """Looks at what waits for a consumer, also while a message is on its way to it."""
        while True:
            with contextlib.suppress(asyncio.TimeoutError):
                await asyncio.wait_for(self.tail.news.wait(), SECONDS_BETWEEN_LOOKS)
            consumer.check()

    @staticmethod
    async def drop(consumer: Consumer, why: str) -> None:
        """Sends a consumer that is too slow the reason, as far as it takes it, and closes its connection."""
        with contextlib.suppress(asyncio.TimeoutError, ConnectionError, RuntimeError):
            await asyncio.wait_for(consumer.socket.send_bytes(error_frame(TOO_SLOW, why)), SECONDS_TO_READ_WHY)
        with contextlib.suppress(asyncio.TimeoutError, ConnectionError, RuntimeError):
            await asyncio.wait_for(consumer.socket.close(code=POLICY, message=TOO_SLOW.encode()), SECONDS_TO_READ_WHY)
        if consumer.request.transport is not None:
            consumer.request.transport.abort()

    async def stop(self) -> None:
        """Sends all away."""
        await asyncio.gather(*(consumer.socket.close(code=GOING_AWAY, message=b"the relay stops") for consumer in list(self.all.values())),
                             return_exceptions=True)
