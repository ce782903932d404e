"""The messages that `replay` writes, each after its length, and those of them that are kept in memory."""
import bisect
import io
from typing import Iterator, NamedTuple, Optional

import cbor2

LENGTH = 4  # the bytes of a message's length


class Event(NamedTuple):
    """A message of the relay, as it goes to consumers, with what it says of itself. A notice has no number."""

    seq: Optional[int]
    message: bytes
    kind: str
    did: str
    is_error: bool


def read_event(message: bytes) -> Event:
    """What a message of the relay says of itself."""
    decoder = cbor2.CBORDecoder(io.BytesIO(message))
    header, payload = decoder.decode(), decoder.decode()
    did = payload.get("repo") or payload.get("did") or ""
    return Event(payload.get("seq"), message, str(header.get("t", "")).lstrip("#"), did, header.get("op") == -1)


def split(written: bytes) -> Iterator[bytes]:
    """The whole messages of what a replay wrote; where it was cut off, what stands at its end is left out."""
    at = 0
    while at + LENGTH <= len(written):
        end = at + LENGTH + int.from_bytes(written[at:at + LENGTH], "big")
        if end > len(written):
            return
        yield written[at + LENGTH:end]
        at = end


class Stretch:
    """All events that the journal shows with numbers above `start` and up to `end`, in order.

    It grows at its end and goes away at its front, so its lists keep a front that doesn't count until that is the larger part.
    """

    def __init__(self, start: int):
        self.start = self.end = start
        self.numbers: list[int] = []
        self.messages: list[bytes] = []
        self.ends: list[int] = []  # the bytes of all messages up to each, and of those that are gone
        self.front = 0
        self.gone = 0  # the bytes up to the front

    def __len__(self) -> int:
        return len(self.numbers) - self.front

    def size(self) -> int:
        """The bytes of all messages."""
        return self.ends[-1] - self.gone if len(self) else 0

    def covers(self, cursor: int) -> bool:
        """Whether all that follows on a number, up to the end, is here."""
        return self.start <= cursor <= self.end

    def place(self, cursor: int) -> int:
        return bisect.bisect_right(self.numbers, cursor, self.front)

    def append(self, seq: int, message: bytes) -> None:
        before = self.ends[-1] if self.ends else self.gone
        self.numbers.append(seq)
        self.messages.append(message)
        self.ends.append(before + len(message))
        self.end = max(seq, self.end)

    def after(self, cursor: int, most: int) -> "tuple[list[bytes], int]":
        """The messages after a number, up to `most` bytes and at least one, and the number up to which nothing is left out."""
        at = self.place(cursor)
        if at == len(self.numbers):
            return [], self.end
        begun = self.ends[at] - len(self.messages[at])
        end = max(bisect.bisect_right(self.ends, begun + most, at), at + 1)
        return self.messages[at:end], self.end if end == len(self.numbers) else self.numbers[end - 1]

    def left(self, cursor: int) -> "tuple[int, int]":
        """How many messages there are after a number, and their bytes."""
        at = self.place(cursor)
        if at == len(self.numbers):
            return 0, 0
        return len(self.numbers) - at, self.ends[-1] - self.ends[at] + len(self.messages[at])

    def drop_front(self, most_events: int, most_bytes: int) -> None:
        """Lets the oldest go until no more are left than may be."""
        at = max(self.front, len(self.numbers) - most_events)
        if self.size() > most_bytes:
            at = max(at, bisect.bisect_left(self.ends, self.ends[-1] - most_bytes, self.front) + 1)
        self.drop_to(min(at, len(self.numbers)))

    def drop_up_to(self, seq: int) -> None:
        """Lets all up to a number go."""
        self.drop_to(self.place(seq))
        self.start = max(self.start, seq)
        self.end = max(self.end, seq)

    def drop_to(self, at: int) -> None:
        if at > self.front:
            self.start, self.gone = max(self.start, self.numbers[at - 1]), self.ends[at - 1]
            for i in range(self.front, at):
                self.messages[i] = b""
            self.front = at
        if self.front > 1024 and 2 * self.front > len(self.numbers):
            del self.numbers[:self.front], self.messages[:self.front], self.ends[:self.front]
            self.front = 0
