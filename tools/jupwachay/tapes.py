"""Tapes: records of messages, one after another. A record is a byte with the length of a host's name, the name, four bytes with
the length of a message (the most significant first), and the message."""
import contextlib
import fcntl
import mmap
import os
import pathlib
from typing import Callable, Iterator, Optional

from jupwachay.endings import DISK, NO_TAPE, Ended
from jupwachay.files import sync_folder
from jupwachay.frames import LONGEST, number
from jupwachay.names import HOST

Say = Callable[[str], None]


def record(name: str, message: bytes) -> bytes:
    """The record of a host's message."""
    return bytes([len(name)]) + name.encode() + len(message).to_bytes(4, "big") + message


def is_name(name: bytes) -> bool:
    return HOST.fullmatch(name.decode("latin-1")) is not None


def none_at(path: pathlib.Path, place: int) -> Ended:
    return Ended(NO_TAPE, f"{path}: no record of a tape at place {place}")


def records(path: pathlib.Path, say: Say) -> "Iterator[tuple[str, bytes]]":
    """The records of a tape: host and message. A torn one at the end, which may be in the writing, is passed over with a word."""
    with open(path, "rb") as tape:
        place = 0
        while front := tape.read(1):
            name, size = tape.read(front[0]), tape.read(4)
            count = int.from_bytes(size, "big")
            if len(name) == front[0] and not is_name(name) or len(size) == 4 and count > LONGEST:
                raise none_at(path, place)
            message = tape.read(count) if len(size) == 4 else b""
            if len(size) < 4 or len(message) < count:
                say(f"{path}: the record at place {place} is torn or still being written; it is passed over")
                return
            yield name.decode(), message
            place += 1 + len(name) + 4 + count


def walk(path: pathlib.Path, file: int, name: str, at: int = 0) -> "tuple[int, Optional[int]]":
    """The place after the last whole record of a tape, and the last number of a host's messages there."""
    size, wanted, latest = os.fstat(file).st_size, name.encode(), None
    if at >= size:
        return at, None
    with mmap.mmap(file, size, prot=mmap.PROT_READ) as view:
        while at < size:
            start = at + 1 + view[at]
            if start <= size and not is_name(view[at + 1:start]):
                raise none_at(path, at)
            if start + 4 > size:
                break
            count = int.from_bytes(view[start:start + 4], "big")
            if count > LONGEST:
                raise none_at(path, at)
            if start + 4 + count > size:
                break
            if view[at + 1:start] == wanted:
                latest = start + 4, start + 4 + count
            at = start + 4 + count
        return at, number(view[latest[0]:latest[1]]) if latest else None


def last_number(path: pathlib.Path, name: str) -> Optional[int]:
    """The last number that a tape has of a host."""
    file = os.open(path, os.O_RDONLY)
    try:
        return walk(path, file, name)[1]
    finally:
        os.close(file)


class Tape:
    """A tape that records are appended to, whole ones alone, by several programs at once.

    Before each append its place and length are noted in the file .NAME.last beside the tape NAME, so that a record which a
    killed program left torn is known as its own, and cut off.
    """

    def __init__(self, path: pathlib.Path, name: str, is_repaired: bool, say: Say):
        self.path, self.name, self.say = path, name, say
        self.file = os.open(path, os.O_RDWR | os.O_CREAT | os.O_APPEND, 0o644)
        self.note = os.open(path.with_name(f".{path.name}.last"), os.O_RDWR | os.O_CREAT, 0o644)
        sync_folder(path.parent)
        self.is_synced = True
        with self.locked():
            end, self.last = walk(path, self.file, name)
            if end < self.size():
                self.cut(end, is_repaired)
        self.place = end  # of the next record, as far as this program knows

    @contextlib.contextmanager
    def locked(self) -> Iterator[None]:
        """While no other recording appends."""
        fcntl.flock(self.file, fcntl.LOCK_EX)
        try:
            yield
        finally:
            fcntl.flock(self.file, fcntl.LOCK_UN)

    def size(self) -> int:
        return os.fstat(self.file).st_size

    def noted(self) -> "tuple[int, int]":
        """Where the last append began, and how long it was to be."""
        words = os.pread(self.note, 64, 0).split()
        return (int(words[0]), int(words[1])) if len(words) == 2 and all(map(bytes.isdigit, words)) else (0, 0)

    def cut(self, end: int, is_repaired: bool) -> None:
        """Cuts a torn record off, where a recording that was killed left it or it is to be repaired."""
        begun, count = self.noted()
        many = self.size() - end
        is_own = begun <= end and self.size() < begun + count
        if not is_own and not is_repaired:
            raise Ended(NO_TAPE, f"{self.path}: the record at place {end} is torn, {many} bytes of it are there; --repair cuts them off")
        os.ftruncate(self.file, end)
        os.fsync(self.file)
        self.say(f"cut {many} bytes of a torn record off at place {end}")

    def settle(self) -> int:
        """The place of the next record. What another recording left torn since is cut off."""
        begun, count = self.noted()
        if self.size() != begun + count:
            end, _ = walk(self.path, self.file, self.name, begun if begun <= self.size() < begun + count else 0)
            if end < self.size():
                self.cut(end, False)
        return self.size()

    def append(self, message: bytes) -> int:
        """Appends a message's record, whole or not at all, and gives its length."""
        content = record(self.name, message)
        with self.locked():
            at = self.settle()
            try:
                os.pwrite(self.note, b"%20d %20d\n" % (at, len(content)), 0)
                rest = memoryview(content)
                while rest:
                    rest = rest[os.write(self.file, rest):]
            except OSError as why:
                os.ftruncate(self.file, at)
                raise self.fault(why) from why
            self.is_synced = False
            self.place = at + len(content)
            return len(content)

    def sync(self) -> None:
        """Has what was appended on the disk."""
        if not self.is_synced:
            try:
                os.fsync(self.file)
            except OSError as why:
                raise self.fault(why) from why
            self.is_synced = True

    def fault(self, why: OSError) -> Ended:
        return Ended(DISK, f"{self.path}: {why.strerror}; the tape has whole records")
