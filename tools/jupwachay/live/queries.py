"""Queries about accounts: the requests that wait are handed on to one run of `query`, and its replies handed back as they are."""
import asyncio
import contextlib
from typing import NamedTuple, Optional

from aiohttp import web

from jupwachay.live.runs import Runs
from jupwachay.speech import say

PATHS = [f"/xrpc/com.atproto.sync.{name}" for name in ("listRepos", "getRepoStatus", "getLatestCommit")]
PORT = 2471  # the program's own
LONGEST_TARGET = 7000
LONGEST_REPLY = 1 << 24
MOST_WAITING, MOST_AT_ONCE = 1000, 64
MOST_KEPT = 10_000
SECONDS_TO_LISTEN, SECONDS_TO_REPLY, SECONDS_BETWEEN_TRIES = 30.0, 30.0, 0.02


class Reply(NamedTuple):
    """A reply of the program."""

    status: int
    content: bytes


class Queries:
    """The requests that wait, and the replies that count until the journal changes."""

    def __init__(self, runs: Runs):
        self.runs = runs
        self.waiting: "dict[str, asyncio.Future[Optional[Reply]]]" = {}
        self.kept: "dict[str, Reply]" = {}
        self.news = asyncio.Event()

    def change(self) -> None:
        """The journal changed."""
        self.kept.clear()

    async def serve(self, request: web.Request) -> web.Response:
        """Answers one request."""
        target = request.raw_path
        if len(target) > LONGEST_TARGET:
            raise web.HTTPRequestURITooLong(text=f"a request has at most {LONGEST_TARGET} bytes")
        reply = self.kept.get(target) or await self.asked(target)
        if reply is None:
            return web.json_response({"error": "Unavailable", "message": "the journal can't be asked now"}, status=503)
        return web.Response(status=reply.status, body=reply.content, content_type="application/json")

    async def asked(self, target: str) -> Optional[Reply]:
        """Has the program asked, together with whoever asks the same."""
        if target not in self.waiting:
            if len(self.waiting) >= MOST_WAITING:
                return None
            self.waiting[target] = asyncio.get_running_loop().create_future()
            self.news.set()
        return await asyncio.shield(self.waiting[target])

    async def keep_up(self) -> None:
        """Answers the requests that wait, without end."""
        while True:
            await self.news.wait()
            self.news.clear()
            while self.waiting:
                targets = list(self.waiting)[:MOST_AT_ONCE]
                replies = await self.answered(targets)
                for target in targets:
                    self.waiting.pop(target).set_result(replies.get(target))

    async def answered(self, targets: "list[str]") -> "dict[str, Reply]":
        """The program's replies; none where its run failed."""
        async with self.runs.turn:
            run = asyncio.create_task(self.runs.run("query", str(len(targets))))
            asking = asyncio.create_task(asked_in_turn(targets, run))
            replies = await asking
            if len(replies) < len(targets):
                await self.runs.stop(0)
            done = await run
            if done.status == 0:
                if len(self.kept) + len(replies) <= MOST_KEPT:
                    self.kept.update(replies)  # no run may change the journal up to here
                return replies
        say(f"queries: {done.sentence()}")
        return {}


async def asked_in_turn(targets: "list[str]", run: asyncio.Task) -> "dict[str, Reply]":
    """Asks one after another, as long as replies come."""
    found = {}
    for target in targets:
        reply = await asked_one(target, run)
        if reply is None:
            break
        found[target] = reply
    return found


async def asked_one(target: str, run: asyncio.Task) -> Optional[Reply]:
    """The reply to one request, over a connection of its own, as the program wants it."""
    end = asyncio.get_running_loop().time() + SECONDS_TO_LISTEN
    while not run.done() and asyncio.get_running_loop().time() < end:
        try:
            reader, writer = await asyncio.open_connection("127.0.0.1", PORT, limit=LONGEST_REPLY)
        except OSError:
            await asyncio.sleep(SECONDS_BETWEEN_TRIES)  # the run is opening its journal still
            continue
        try:
            writer.write(f"GET {target} HTTP/1.1\r\nHost: 127.0.0.1\r\n\r\n".encode("ascii", "replace"))
            return read_reply(await asyncio.wait_for(reader.read(), SECONDS_TO_REPLY))
        except (OSError, asyncio.TimeoutError):
            return None
        finally:
            writer.close()
            with contextlib.suppress(OSError):
                await writer.wait_closed()
    return None


def read_reply(content: bytes) -> Optional[Reply]:
    """The status and the body of a reply that is whole."""
    head, _, body = content.partition(b"\r\n\r\n")
    words = head.split(b" ", 2)
    lengths = [line.split(b":")[1].strip() for line in head.split(b"\r\n") if line.lower().startswith(b"content-length:")]
    if len(words) < 3 or not words[1].isdigit() or lengths != [str(len(body)).encode()]:
        return None
    return Reply(int(words[1]), body)
