"""The bytes of the formats, read as the specification says: DAG-CBOR, the forms of fields, CARs and commit objects.

This is a second reader, written for the tests from docs/SPECIFICATION.md alone; it shares nothing with the crates. What a
fault is called or where it stands matters only where a report says so."""
import pathlib
import re
import sys

sys.path.insert(0, str(pathlib.Path(__file__).resolve().parents[2] / "bench"))
from messages import DIGITS, Link, head, link_of, encode  # noqa: E402, F401

NODE, RAW = b"\x01\x71\x12\x20", b"\x01\x55\x12\x20"
LAST = 2**53 - 1
LONGEST_COMMIT = 8192
DEEPEST = 64

DID = re.compile(r"did:[a-z]+:[A-Za-z0-9._:%-]*[A-Za-z0-9._-]")
PATH = re.compile(r"[A-Za-z0-9.-]{1,317}/(?!\.\.?$)[A-Za-z0-9_~.:-]{1,512}")
TID = re.compile(f"[{DIGITS[:16]}][{DIGITS}]{{12}}")


class Fault(Exception):
    """Bytes that aren't what is read of them."""


class Text(bytes):
    """The bytes of a text; a text is read as this, so that a string of bytes stays another thing."""


def number(data, at):
    """The major type and the argument of the head at a place, and the place behind it; the shortest form alone."""
    if at >= len(data):
        raise Fault
    major, low = data[at] >> 5, data[at] & 31
    at += 1
    if low < 24:
        return major, low, at
    size = {24: 1, 25: 2, 26: 4, 27: 8}.get(low)
    if size is None or at + size > len(data):
        raise Fault
    value = int.from_bytes(data[at:at + size], "big")
    if value < (24 if size == 1 else 1 << 4 * size):
        raise Fault
    return major, value, at + size


def item(data, at=0, depth=0):
    """The value at a place, and the place behind it."""
    if at < len(data) and data[at] >> 5 == 7:
        if data[at] not in (0xF4, 0xF5, 0xF6):
            raise Fault
        return {0xF4: False, 0xF5: True, 0xF6: None}[data[at]], at + 1
    major, count, at = number(data, at)
    if major in (0, 1):
        if count >= 2**63:
            raise Fault
        return (count if major == 0 else -1 - count), at
    if major == 6:
        there = data[at:at + 39]
        if count != 42 or len(there) < 39 or there[:3] != b"\x58\x25\x00" or there[3:7] not in (NODE, RAW):
            raise Fault
        return Link(there[3:]), at + 39
    if major in (2, 3):
        there = data[at:at + count]
        if len(there) < count:
            raise Fault
        return (bytes(there) if major == 2 else text(there)), at + count
    if depth == DEEPEST:
        raise Fault
    return (sequence if major == 4 else mapping)(data, at, depth, count)


def text(there):
    try:
        there.decode()
    except UnicodeDecodeError as wrong:
        raise Fault from wrong
    return Text(there)


def sequence(data, at, depth, count):
    found = []
    for _ in range(count):
        value, at = item(data, at, depth + 1)
        found.append(value)
    return found, at


def mapping(data, at, depth, count):
    found, before = {}, None
    for _ in range(count):
        key, at = item(data, at, depth + 1)
        if type(key) is not Text or before is not None and (len(key), key) <= (len(before), before):
            raise Fault
        found[key.decode()], at = item(data, at, depth + 1)
        before = key
    return found, at


def whole(data):
    """The one item that fills bytes."""
    value, at = item(data)
    if at != len(data):
        raise Fault
    return value


def is_node(value):
    return type(value) is Link and value[:4] == NODE


def is_did(value):
    return type(value) is Text and len(value) <= 2048 and is_matched(DID, value)


def is_path(value):
    return is_matched(PATH, value)


def is_tid(value):
    return type(value) is Text and is_matched(TID, value)


def is_matched(pattern, value):
    try:
        return pattern.fullmatch(value.decode("ascii")) is not None
    except UnicodeDecodeError:
        return False


def tid_value(rev):
    value = 0
    for character in rev.decode():
        value = value * 32 + DIGITS.index(character)
    return value


def varint(data, at):
    """An unsigned LEB128 number in its shortest form, of at most nine bytes, and the place behind it."""
    value = 0
    for i in range(9):
        if at + i >= len(data):
            raise Fault
        byte = data[at + i]
        value |= (byte & 127) << 7 * i
        if byte < 128:
            if byte == 0 and i > 0:
                raise Fault
            return value, at + i + 1
    raise Fault


def car(data):
    """The roots and the blocks of a CAR; else a Fault, whose word is `digest` where a block isn't its link's."""
    size, at = varint(data, 0)
    if size < 1 or at + size > len(data):
        raise Fault
    header = whole(data[at:at + size])
    at += size
    if type(header) is not dict or type(header.get("version")) is not int or header["version"] != 1:
        raise Fault
    roots = header.get("roots")
    if type(roots) is not list or any(type(root) is not Link for root in roots):
        raise Fault
    blocks = {}
    while at < len(data):
        size, at = varint(data, at)
        if size < 36 or at + size > len(data):
            raise Fault
        link, block = Link(data[at:at + 36]), bytes(data[at + 36:at + size])
        if link[:4] not in (NODE, RAW):
            raise Fault
        if link_of(block)[4:] != link[4:]:
            raise Fault("digest")
        blocks.setdefault(link, block)
        at += size
    return roots, blocks


def commit_object(block):
    """The fields of a commit object."""
    if len(block) > LONGEST_COMMIT:
        raise Fault
    found = whole(block)
    if type(found) is not dict or not is_did(found.get("did")) or type(found.get("version")) is not int:
        raise Fault
    if not is_node(found.get("data")) or not is_tid(found.get("rev")) or type(found.get("sig")) is not bytes:
        raise Fault
    prev = found.get("prev")
    if prev is not None and type(prev) is not Link or found["version"] != 3:
        raise Fault
    return found
