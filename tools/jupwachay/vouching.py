"""Vouching: messages of hosts in; the homes of their accounts and the commits with good signatures out.

What tapes or a live stream bring is gathered (`Gathered`), then judged by the documents of the accounts (`judge`).
"""
import contextlib
import itertools
from typing import Callable, Iterator, NamedTuple, Optional

from cryptography.exceptions import InvalidSignature
from cryptography.hazmat.primitives import hashes
from cryptography.hazmat.primitives.asymmetric import ec, utils

from jupwachay.commits import Commit, commit_in
from jupwachay.frames import event
from jupwachay.identities import Document, Documents
from jupwachay.items import Unread

Tell = Callable[[str], None]


class Gathered:
    """What messages say: the accounts with the hosts that speak for each, all commits, and who has a new document."""

    def __init__(self) -> None:
        self.hosts: "dict[str, set[str]]" = {}
        self.commits: "list[Commit]" = []
        self.renewed: "dict[str, float]" = {}

    def take(self, host: str, message: bytes, moment: float) -> None:
        """Adds what a message says of an account, at a moment. What can't be read the relay refuses by itself."""
        with contextlib.suppress(Unread):
            found = event(message)
            self.hosts.setdefault(found.did, set()).add(host)
            if found.kind == "#identity":
                self.renewed[found.did] = max(moment, self.renewed.get(found.did, 0.0))
            if found.kind in ("#commit", "#sync") and found.blocks is not None:
                self.commits.append(commit_in(host, found.seq, found.did, found.blocks))

    def account(self, did: str) -> None:
        """Adds an account for which nobody speaks."""
        self.hosts.setdefault(did, set())

    def commit(self, commit: Commit) -> None:
        """Adds the commit of a whole repository."""
        self.account(commit.did)
        self.commits.append(commit)

    def in_turns(self) -> Iterator[str]:
        """The accounts, one of each speaking host after another, so that no host takes the others' requests."""
        queues: "dict[str, list[str]]" = {}
        for did, hosts in self.hosts.items():
            queues.setdefault(min(hosts, default=""), []).append(did)
        for round_of in itertools.zip_longest(*queues.values()):
            yield from (did for did in round_of if did is not None)


class Verdict(NamedTuple):
    """What came of a commit: good, bad or unknown, and why unless it is good."""

    commit: Commit
    word: str
    why: str


class Judged(NamedTuple):
    """What came of all: the verdicts in the order of the commits, the homes that are known, and whose home or key isn't, and why."""

    verdicts: "list[Verdict]"
    homes: "dict[str, str]"
    unknown: "dict[str, str]"

    def good(self) -> "list[Commit]":
        return [each.commit for each in self.verdicts if each.word == "good"]

    def count(self, word: str) -> int:
        return sum(each.word == word for each in self.verdicts)


def fault(commit: Commit, document: Document) -> Optional[str]:
    """Why a signature isn't the account's; none where it is."""
    if document.key is None:
        return document.why
    if len(commit.sig) != 64:
        return f"the signature has {len(commit.sig)} bytes in place of 64"
    r, s = int.from_bytes(commit.sig[:32], "big"), int.from_bytes(commit.sig[32:], "big")
    if not 0 < r < document.order or not 0 < s < document.order:
        return "r or s is out of range"
    if s > document.order // 2:
        return "s is high"
    try:
        algorithm = ec.ECDSA(utils.Prehashed(hashes.SHA256()))
        document.key.verify(utils.encode_dss_signature(r, s), commit.digest, algorithm)
    except InvalidSignature:
        return "the signature isn't of its key and bytes"
    return None


def verdict(commit: Commit, hosts: "set[str]", documents: Documents) -> Verdict:
    """What comes of a commit. A document by which its signature isn't good is asked for again."""
    document = documents.of(commit.did, hosts)
    why = fault(commit, document)
    if why is not None:
        document = documents.anew(commit.did, hosts)
        why = fault(commit, document)
    word = "good" if why is None else "unknown" if document.key is None else "bad"
    return Verdict(commit, word, why or "")


def judge(gathered: Gathered, documents: Documents, tell: Tell) -> Judged:
    """Judges all commits, and finds the homes. One for whom another host speaks than its home may have moved since that was asked."""
    for did, moment in gathered.renewed.items():
        documents.renew(did, moment)
    for i, did in enumerate(gathered.in_turns()):
        tell(f"{i} of {len(gathered.hosts)} accounts, {documents.asked} requests")
        documents.of(did, gathered.hosts[did])
    verdicts = []
    for i, commit in enumerate(gathered.commits):
        tell(f"{i} of {len(gathered.commits)} commits, {documents.asked} requests")
        verdicts.append(verdict(commit, gathered.hosts[commit.did], documents))
    homes, unknown = {}, {}
    for did, hosts in gathered.hosts.items():
        document = documents.of(did, hosts)
        if hosts - {document.home}:
            document = documents.anew(did, hosts)
        if document.home is not None:
            homes[did] = document.home
        if document.home is None or document.key is None:
            unknown[did] = document.why
    return Judged(verdicts, homes, unknown)
