"""Consumers of a live relay, by the library `websockets`: each in a thread of its own, which may break off and come back."""
import asyncio
import http.client
import io
import pathlib
import sys
import threading

import cbor2
import websockets

sys.path.insert(0, str(pathlib.Path(__file__).resolve().parents[1] / "world"))
from consumer import Consumer  # noqa: E402
from live_tool import WAIT  # noqa: E402


def read(message: bytes) -> "tuple[dict, dict]":
    """The header and the payload of a message."""
    decoder = cbor2.CBORDecoder(io.BytesIO(message))
    return decoder.decode(), decoder.decode()


async def take(address: str, most: int) -> "list[bytes]":
    """The messages of a stream: `most` of them, or those that come until the relay ends it, or nothing is waited for any more."""
    found = []
    async with websockets.connect(address, max_size=None, compression=None, open_timeout=WAIT, ping_interval=None) as door:
        try:
            while len(found) < most:
                found.append(await asyncio.wait_for(door.recv(), WAIT))
        except (asyncio.TimeoutError, websockets.ConnectionClosed):
            pass
    return found


def taken(address: str, most: int) -> "list[bytes]":
    return asyncio.run(take(address, most))


class Reader:
    """A consumer that holds the records, and goes on from its cursor whenever it comes back."""

    def __init__(self, homes: "dict[str, str]", cursor: int = 0, gap: "tuple[float, float] | None" = None, draw=None):
        self.consumer = Consumer(homes)
        self.cursor, self.gap, self.draw = cursor, gap, draw
        self.numbers: "list[int]" = []
        self.messages: "dict[int, bytes]" = {}
        self.notices: "list[dict]" = []
        self.connections, self.is_ended = 0, False
        self.address = ""
        self.thread = threading.Thread(target=lambda: asyncio.run(self.read_on()), daemon=True)

    def start(self, address: str) -> "Reader":
        self.address = address
        self.thread.start()
        return self

    async def read_on(self) -> None:
        """Reads over one connection after another, each for as long as was drawn."""
        while not self.is_ended:
            try:
                await self.read_once()
            except (OSError, asyncio.TimeoutError, http.client.HTTPException, websockets.WebSocketException):
                await asyncio.sleep(0.2)

    async def read_once(self) -> None:
        loop = asyncio.get_running_loop()
        end = loop.time() + self.draw.uniform(*self.gap) if self.gap else float("inf")
        address = f"{self.address}?cursor={self.cursor}"
        async with websockets.connect(address, max_size=None, compression=None, open_timeout=WAIT, close_timeout=1) as door:
            self.connections += 1
            while not self.is_ended and loop.time() < end:
                try:
                    self.take(await asyncio.wait_for(door.recv(), 0.3))
                except asyncio.TimeoutError:
                    continue
            if self.draw and self.draw.random() < 0.5:
                door.transport.abort()  # breaks off without a word

    def take(self, message: bytes) -> None:
        """Takes a message, and only then has come to its number: one that fails comes again, and whoever sees the number sees it all."""
        _, payload = read(message)
        if "seq" not in payload:
            self.notices.append(payload)
            return
        self.consumer.take(message)
        self.numbers.append(payload["seq"])
        self.messages[payload["seq"]] = message
        self.cursor = payload["seq"]

    def stop(self) -> None:
        self.is_ended = True
        self.thread.join(WAIT)
