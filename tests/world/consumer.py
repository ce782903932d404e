"""A consumer of the relay's stream, which holds every account's records as the stream has them."""
import asyncio
import pathlib
import sys
import urllib.request

import websockets

sys.path.insert(0, str(pathlib.Path(__file__).resolve().parents[1] / "model"))
from items import car, commit_object, item  # noqa: E402
from trees import view  # noqa: E402

STREAM = "ws://127.0.0.1:2470/xrpc/com.atproto.sync.subscribeRepos"
GONE = (b"takendown", b"deleted")
PATIENCE = 300  # seconds for a repository; a busy machine is slow


class Consumer:
    """The records of each account, by path; `homes` says where a whole repository is asked for. What doesn't fit is a fault."""

    def __init__(self, homes: dict):
        self.homes, self.records, self.revs = homes, {}, {}
        self.faults, self.inactive, self.fetched = [], set(), 0

    def take(self, message: bytes) -> None:
        header, at = item(message)
        payload, _ = item(message, at)
        kind = header["t"].decode()
        did = payload["repo" if kind == "#commit" else "did"].decode()
        if kind == "#commit":
            self.commit(did, payload)
        elif kind == "#sync":
            self.fetch(did)
        elif kind == "#account":
            self.account(did, payload)

    def commit(self, did: str, payload: dict) -> None:
        """Applies the operations of a commit; one that is no newer than what was fetched whole is passed over."""
        rev = payload["rev"].decode()
        if did in self.revs and rev <= self.revs[did]:
            return
        if self.revs.get(did) != (payload.get("since") or b"").decode() and did in self.revs:
            self.faults.append(f"{did} {rev} doesn't follow on {self.revs[did]}")
        _, blocks = car(payload["blocks"])
        records = self.records.setdefault(did, {})
        for op in payload["ops"]:
            path, now = op["path"].decode(), op.get("cid")
            if path in records and op.get("prev") != records[path][0]:
                self.faults.append(f"{did} {rev} {path} wasn't what it is said to have been")
            records.pop(path, None)
            if now is not None:
                records[path] = now, blocks.get(now)
        self.revs[did] = rev

    def fetch(self, did: str) -> None:
        """Takes an account's whole repository from its home."""
        address = f"http://{self.homes[did]}/xrpc/com.atproto.sync.getRepo?did={did.replace('%', '%25')}"
        with urllib.request.urlopen(address, timeout=PATIENCE) as answer:
            roots, blocks = car(answer.read())
        head = commit_object(blocks[roots[0]])
        self.records[did] = {key.decode(): (value, blocks[value]) for key, value in view(blocks, head["data"], is_whole=True)}
        self.revs[did] = head["rev"].decode()
        self.fetched += 1

    def account(self, did: str, payload: dict) -> None:
        """Keeps nothing of an account that is gone, and takes one that comes back whole."""
        if not payload["active"]:
            self.inactive.add(did)
            if payload.get("status") in GONE:
                self.records.pop(did, None)
                self.revs.pop(did, None)
        elif did in self.inactive:
            self.fetch(did)
            self.inactive.discard(did)

    def held(self, did: str) -> dict:
        """The blocks of an account's records."""
        return {path.encode(): block for path, (_, block) in self.records.get(did, {}).items()}


async def taken(consumer: Consumer, cursor: int) -> "tuple[int, int]":
    """Has a consumer take all that the relay serves after a cursor; how many messages, and the code of the close."""
    count = 0
    async with websockets.connect(f"{STREAM}?cursor={cursor}", max_size=None) as door:
        async for message in door:
            consumer.take(message)
            count += 1
        return count, door.close_code


def consume(consumer: Consumer, cursor: int, seconds: float) -> "tuple[int, int]":
    return asyncio.run(asyncio.wait_for(taken(consumer, cursor), seconds))
