"""Commit objects, under the roots of CARs: whose they are, and what their signatures cover."""
import hashlib
import mmap
import os
import pathlib
from typing import NamedTuple, Optional

from jupwachay.frames import NODE
from jupwachay.items import LINK_BYTES, Items, Link, Unread, map_head
from jupwachay.names import is_did, is_revision

LONGEST_HEADER = 65_536
LONGEST_BLOCK = 1 << 20
MOST_FIELDS = 1024


class Commit(NamedTuple):
    """A commit whose signature is asked about, and where it stands: the host and the number, or the file of a repository."""

    host: str
    seq: object
    did: str
    rev: str
    digest: bytes
    sig: bytes


def varint(data: bytes, at: int) -> "tuple[int, int]":
    """The number at a place, and the place after it."""
    value = 0
    for i in range(9):
        if at + i >= len(data):
            break
        value |= (data[at + i] & 127) << 7 * i
        if data[at + i] < 128:
            return value, at + i + 1
    raise Unread("the blocks are no CAR")


def root_block(car: bytes) -> bytes:
    """The block of the first root of a CAR."""
    size, at = varint(car, 0)
    if size > LONGEST_HEADER:
        raise Unread("the header of the CAR is too long")
    items = Items(car[at:at + size])
    roots = items.fields(("roots",)).get("roots")
    if items.at != size or not isinstance(roots, list) or not roots or not isinstance(roots[0], Link):
        raise Unread("the blocks are no CAR")
    at += size
    while at < len(car):
        size, at = varint(car, at)
        if size < LINK_BYTES:
            raise Unread("the blocks are no CAR")
        if car[at:at + LINK_BYTES] == roots[0]:
            return block_of(roots[0], car[at + LINK_BYTES:at + size])
        at += size
    raise Unread("the block of the commit is missing")


def block_of(link: Link, block: bytes) -> bytes:
    """A block that has to be a link's."""
    if len(block) > LONGEST_BLOCK:
        raise Unread("the block of the commit is too long")
    if link[:len(NODE)] != NODE or hashlib.sha256(block).digest() != link[len(NODE):]:
        raise Unread("the block of the commit isn't its link's")
    return bytes(block)


def unsigned(block: bytes) -> "tuple[dict, bytes]":
    """What a commit object says of itself, and its bytes without `sig`: what the signature covers."""
    items = Items(block)
    major, count = items.head()
    if major != 5 or count > MOST_FIELDS:
        raise Unread("the commit object is no map")
    fields, rest = {}, []
    for _ in range(count):
        begin, key = items.at, items.key()
        if key in fields:
            raise Unread("the commit object has a key twice")
        fields[key] = items.value()
        if key != "sig":
            rest.append(block[begin:items.at])
    if items.at != len(block):
        raise Unread("the commit object isn't one map")
    return fields, map_head(len(rest)) + b"".join(rest)


def commit_in(host: str, seq: object, did: Optional[str], car: bytes) -> Commit:
    """The commit under the root of a CAR; of this account, where one is named."""
    fields, covered = unsigned(root_block(car))
    if not is_did(fields.get("did")) or did is not None and fields["did"] != did:
        raise Unread("the commit object is of another account")
    if not isinstance(fields.get("sig"), bytes) or not is_revision(fields.get("rev")):
        raise Unread("the commit object has no signature or revision")
    return Commit(host, seq, fields["did"], fields["rev"], hashlib.sha256(covered).digest(), fields["sig"])


def commit_of(path: pathlib.Path) -> Commit:
    """The commit of a whole repository in a file."""
    with open(path, "rb") as file:
        if os.fstat(file.fileno()).st_size == 0:
            raise Unread("it is empty")
        with mmap.mmap(file.fileno(), 0, access=mmap.ACCESS_READ) as car:
            return commit_in("", path, None, car)
