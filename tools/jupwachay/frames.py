"""The frames of a stream (com.atproto.sync.subscribeRepos): a header and a payload, of which only the fields that are wanted
are read. Whether a frame is right is for the relay to judge."""
import contextlib
import hashlib
from typing import NamedTuple, Optional

from jupwachay.items import Items, Link, Unread
from jupwachay.names import is_did, is_revision

LONGEST = 8_388_608
LAST_NUMBER = 2**53 - 1
NODE = b"\x01\x71\x12\x20"  # what is in front of the digest of a link to DAG-CBOR
# The link of the tree without records: of the node {e: [], l: null}.
EMPTY_TREE = Link(NODE + hashlib.sha256(bytes.fromhex("a2616580616cf6")).digest())
KINDS = ("#commit", "#sync", "#identity", "#account")


class Told(NamedTuple):
    """What a host says in a frame that is no event of an account: an error, or a remark."""

    is_error: bool
    name: str
    message: str


class Event(NamedTuple):
    """An event of an account."""

    kind: str
    seq: int
    did: str
    rev: Optional[str]
    blocks: Optional[bytes]
    is_first: bool  # of a commit: it says that it follows on nothing


def header(message: bytes) -> "tuple[dict, Items]":
    """The header's fields, and the items from the payload on."""
    items = Items(message)
    return items.fields(("op", "t")), items


def told(message: bytes) -> Optional[Told]:
    """The error or the remark of a frame, where it is one."""
    with contextlib.suppress(Unread):
        fields, items = header(message)
        is_error = fields.get("op") == -1
        if is_error or fields.get("t") == "#info":
            return Told(is_error, *words(items, "error" if is_error else "name"))
    return None


def words(items: Items, name: str) -> "tuple[str, str]":
    """The name and the message of an error or of a remark, as far as they can be read."""
    try:
        payload = items.fields((name, "message"))
    except Unread:
        payload = {}
    return str(payload.get(name)), str(payload.get("message") or "")


def number(message: bytes) -> Optional[int]:
    """The number of a message in its host's stream, where it has one."""
    with contextlib.suppress(Unread):
        found = header(message)[1].field("seq")
        return found if type(found) is int and 0 <= found <= LAST_NUMBER else None
    return None


def event(message: bytes) -> Event:
    """The event of an account that a message is."""
    fields, items = header(message)
    kind = fields.get("t")
    if fields.get("op") != 1 or kind not in KINDS:
        raise Unread("no event of an account")
    name = "repo" if kind == "#commit" else "did"
    payload = items.fields((name, "seq", "rev", "since", "prevData", "blocks"))
    did, seq, rev, blocks = payload.get(name), payload.get("seq"), payload.get("rev"), payload.get("blocks")
    if not is_did(did) or type(seq) is not int:
        raise Unread("no event of an account")
    is_first = kind == "#commit" and payload.get("since") is None and payload.get("prevData") in (None, EMPTY_TREE)
    return Event(kind, seq, did, rev if is_revision(rev) else None, blocks if isinstance(blocks, bytes) else None, is_first)
