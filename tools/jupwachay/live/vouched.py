"""Vouching for what hosts send, before it is taken: each host's messages by themselves, so that one whose names answer slowly
delays no other."""
import asyncio
import concurrent.futures
import pathlib
import threading
import time
import urllib.parse
from typing import NamedTuple, Optional

from jupwachay import vouching
from jupwachay.addresses import Reach
from jupwachay.commits import Commit
from jupwachay.identities import MOST_FAILURES, Cache, Document, Documents
from jupwachay.live.configuration import Documents as Limits
from jupwachay.live.hosts import Host, Hosts, Message
from jupwachay.speech import printable, say

MOST_AT_ONCE = 500  # messages that are judged together
SECONDS_AT_ONCE = 15.0
REQUESTS_AT_ONCE = 200
MOST_TRIES = 5  # of messages of accounts for which a directory that answers others has no answer
FIRST_PAUSE, LONGEST_PAUSE = 1.0, 60.0
SECONDS_SPARED = 5.0  # a document isn't asked for again for a bad signature so soon


class Turns:
    """The moments at which requests may be made, which all share."""

    def __init__(self, rate: float):
        self.rate, self.next, self.lock = rate, 0.0, threading.Lock()

    def take(self) -> float:
        """The seconds until the next turn, which is taken."""
        with self.lock:
            moment = max(self.next, time.monotonic())
            self.next = moment + 1 / self.rate
            return moment - time.monotonic()


class SharedDocuments(Documents):
    """The documents that one host's accounts need: known to all, asked for in turns with those of other hosts."""

    def __init__(self, shared: "Shared"):
        limits = shared.limits
        super().__init__(shared.cache, shared.plc, shared.reach, fresh=limits.fresh, rate=limits.rate, patience=limits.patience,
                         spared=SECONDS_SPARED)
        self.known, self.renewed, self.turns = shared.known, shared.renewed, shared.turns

    def take_turn(self) -> float:
        """Waits for the turn that is shared, too."""
        time.sleep(max(0.0, self.turns.take()))
        return super().take_turn()


class Shared:
    """What the documents of all hosts have in common."""

    def __init__(self, folder: pathlib.Path, plc: Optional[str], reach: Reach, limits: Limits):
        self.cache, self.plc, self.reach, self.limits = Cache(folder / "documents"), plc, reach, limits
        (folder / "documents").mkdir(exist_ok=True)
        self.known: "dict[str, Document]" = {}
        self.renewed: "dict[str, float]" = {}
        self.turns = Turns(limits.rate)


class Good(NamedTuple):
    """What is vouched for of some messages: the homes of their accounts, and the commits with good signatures."""

    homes: "dict[str, str]"
    commits: "list[Commit]"


class Vouching:
    """Vouches for the messages of each host, in its order."""

    def __init__(self, shared: Shared, hosts: Hosts):
        self.shared, self.hosts = shared, hosts
        self.pool = concurrent.futures.ThreadPoolExecutor(shared.limits.at_once, "vouching")
        self.documents: "dict[str, SharedDocuments]" = {}
        self.good: "dict[str, list[tuple[int, Commit]]]" = {}
        self.bad = 0

    def documents_of(self, host: str) -> SharedDocuments:
        if host not in self.documents:
            self.documents[host] = SharedDocuments(self.shared)
        return self.documents[host]

    async def keep_up(self, host: Host) -> None:
        """Vouches for what comes of a host, and puts it to what is ready."""
        while True:
            await host.news.wait()
            host.news.clear()
            while len(host.coming):
                together(host)
                try:
                    await self.vouch(host)
                except Exception as why:  # what a host's words make fail here is that host's affair: the relay refuses them
                    say(printable(f"{host.name}: {type(why).__name__}: {why}"))
                while len(host.vouching):
                    host.ready.put(host.vouching.take())
                self.hosts.work.set()

    async def vouch(self, host: Host) -> None:
        """Vouches for some messages. While the directory fails it waits: a message without a known home would be refused for good."""
        tries, pause = 0, FIRST_PAUSE
        documents = self.documents_of(host.name)
        messages = list(host.vouching.messages)
        while True:
            loop = asyncio.get_running_loop()
            try:
                judged, why = await loop.run_in_executor(self.pool, judge, messages, documents)
                is_lasting = is_down(documents)
            except OSError as fault:  # the disk on which documents are kept
                judged, why, is_lasting = None, f"{fault.filename}: {fault.strerror}", True
            if why is None or tries >= MOST_TRIES:
                break
            if why:
                host.told = f"waits for documents: {why}"
                await asyncio.sleep(pause)
                pause = min(2 * pause, LONGEST_PAUSE)
                tries += not is_lasting
        if host.is_connected:
            host.told = "connected"
        self.keep(judged)

    def keep(self, judged: vouching.Judged) -> None:
        for each in judged.verdicts:
            if each.word == "good":
                self.good.setdefault(each.commit.did, []).append((time.monotonic(), each.commit))
            else:
                self.bad += 1

    def good_of(self, messages: "list[Message]") -> Good:
        """What is vouched for of messages that are taken now."""
        dids = {message.event.did for message in messages if message.event}
        wanted = {(message.host, message.seq) for message in messages}
        homes, commits = {}, []
        for did in dids:
            known = self.shared.known.get(did)
            if known is not None and known.home is not None:
                homes[did] = known.home
            commits += [commit for _, commit in self.good.get(did, ()) if (commit.host, commit.seq) in wanted]
        return Good(homes, commits)

    def forget(self, messages: "list[Message]") -> None:
        """Forgets the signatures of messages that were taken."""
        taken = {(message.host, message.seq) for message in messages}
        for did in {message.event.did for message in messages if message.event}:
            left = [(moment, commit) for moment, commit in self.good.pop(did, ()) if (commit.host, commit.seq) not in taken]
            if left:
                self.good[did] = left

    def leave(self, host: str) -> None:
        """Forgets what a host's documents came to: one that is followed anew has others' work no more beside its own."""
        self.documents.pop(host, None)

    def stop(self) -> None:
        self.pool.shutdown(wait=False, cancel_futures=True)


def together(host: Host) -> None:
    """Takes the messages that are judged together: up to a new document of an account that has commits among them, which are by
    the former one."""
    dids = set()
    while len(host.coming) and len(host.vouching) < MOST_AT_ONCE:
        event = host.coming.messages[0].event
        if event is not None:
            if event.kind == "#identity" and event.did in dids:
                return
            dids.add(event.did)
        host.vouching.put(host.coming.take())


def is_down(documents: Documents) -> bool:
    """Whether the directory fails for all that it is asked."""
    return documents.failures.get(urllib.parse.urlsplit(documents.plc or "").netloc, 0) >= MOST_FAILURES


def judge(messages: "list[Message]", documents: Documents) -> "tuple[vouching.Judged, Optional[str]]":
    """Judges messages, and says why it has to be tried again: nothing where a bound of one try was reached, and none where all is known."""
    gathered = vouching.Gathered()
    now = time.time()
    for message in messages:
        gathered.take(message.host, message.content, now)
    documents.begin(SECONDS_AT_ONCE, REQUESTS_AT_ONCE)
    before = documents.asked
    judged = vouching.judge(gathered, documents, lambda _: None)
    failed = [document.why for did, document in documents.failed.items() if did.startswith("did:plc:") and did not in documents.left_out]
    if failed:
        return judged, failed[0]
    is_left_out = any(did.startswith("did:plc:") for did in documents.left_out)
    return judged, "" if is_left_out and documents.asked > before else None
