"""Reading CBOR: the items that are wanted, and past the others. Others' bytes may be millions of tiny items, so there
is a limit."""
from typing import Container

LINK_TAG, LINK_BYTES = 42, 36
MOST_ITEMS = 65_536  # in a message of 200 operations there are some 2,000
DEEPEST = 64
SIZES = {24: 1, 25: 2, 26: 4, 27: 8}
SIMPLE = {0xF4: False, 0xF5: True, 0xF6: None}


class Unread(Exception):
    """Bytes that aren't what is wanted."""


class Link(bytes):
    """The 36 bytes of a link."""


class Items:
    """The items of some bytes, from a place on."""

    def __init__(self, data: bytes, at: int = 0, most: int = MOST_ITEMS):
        self.data, self.at, self.left = data, at, most

    def head(self) -> "tuple[int, int]":
        """The major type and the argument of the next item."""
        if self.left == 0:
            raise Unread("it has too many items")
        self.left -= 1
        at, data = self.at, self.data
        if at >= len(data):
            raise Unread("the bytes end inside an item")
        major, low = data[at] >> 5, data[at] & 31
        if low < 24:
            self.at = at + 1
            return major, low
        size = SIZES.get(low)
        if size is None or at + 1 + size > len(data):
            raise Unread("no head of an item")
        self.at = at + 1 + size
        return major, int.from_bytes(data[at + 1:self.at], "big")

    def pass_over(self, count: int) -> int:
        """Goes past some bytes, and gives where these begin."""
        begin = self.at
        if begin + count > len(self.data):
            raise Unread("the bytes end inside an item")
        self.at = begin + count
        return begin

    def skip(self) -> None:
        """Goes past the next item, with all that is in it."""
        pending = 1
        while pending:
            pending -= 1
            major, count = self.head()
            if major in (2, 3):
                self.pass_over(count)
            elif major in (4, 5):
                pending += count * (major - 3)
            elif major == 6:
                pending += 1

    def value(self, depth: int = 0) -> object:
        """The next item, as DAG-CBOR has it."""
        first = self.at
        major, count = self.head()
        if major in (0, 1):
            return count if major == 0 else -1 - count
        if major in (2, 3):
            begin = self.pass_over(count)
            return bytes(self.data[begin:self.at]) if major == 2 else text(self.data[begin:self.at])
        if major == 7:
            if self.data[first] not in SIMPLE:
                raise Unread("no value of DAG-CBOR")
            return SIMPLE[self.data[first]]
        if depth == DEEPEST:
            raise Unread("lists and maps lie too deep")
        if major == 6:
            return self.link(count, depth)
        if major == 4:
            return [self.value(depth + 1) for _ in range(count)]
        return {self.key(): self.value(depth + 1) for _ in range(count)}

    def link(self, tag: int, depth: int) -> Link:
        found = self.value(depth + 1)
        if tag != LINK_TAG or not isinstance(found, bytes) or len(found) != LINK_BYTES + 1 or found[0] != 0:
            raise Unread("no link")
        return Link(found[1:])

    def key(self) -> str:
        """The next item, which has to be a text."""
        major, count = self.head()
        if major != 3:
            raise Unread("a key that is no text")
        begin = self.pass_over(count)
        return text(self.data[begin:self.at])

    def field(self, wanted: str) -> object:
        """A field of the next item, a map; what stands after that field isn't read."""
        major, count = self.head()
        if major != 5:
            raise Unread("no map")
        for _ in range(count):
            if self.key() == wanted:
                return self.value()
            self.skip()
        return None

    def fields(self, wanted: Container[str]) -> dict:
        """The fields of the next item, a map, that are wanted; the others are passed over."""
        major, count = self.head()
        if major != 5:
            raise Unread("no map")
        found = {}
        for _ in range(count):
            key = self.key()
            if key in wanted:
                found[key] = self.value()
            else:
                self.skip()
        return found


def text(content: bytes) -> str:
    try:
        return bytes(content).decode()
    except UnicodeDecodeError as why:
        raise Unread("a text that isn't UTF-8") from why


def map_head(count: int) -> bytes:
    """The shortest head of a map with this number of entries."""
    if count < 24:
        return bytes([0xA0 + count])
    return b"\xb8" + bytes([count]) if count < 256 else b"\xb9" + count.to_bytes(2, "big")
