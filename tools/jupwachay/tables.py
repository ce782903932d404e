"""The tables of the relay's authorities: their lines, and how a new table takes the place of one.

A table T may have a file T.sum beside it: its length and its digest in one line. A table that isn't the one of its sum was cut,
or is in the writing, or was edited; the relay doesn't use it.
"""
import contextlib
import hashlib
import pathlib
import re
from typing import Iterable, Iterator, Optional

from jupwachay.commits import Commit
from jupwachay.endings import BAD_TABLE, Ended
from jupwachay.files import locked, replace, sync_folder
from jupwachay.names import DID, method

TABLES = {"plc": "plc.1", "web": "web.1"}
ALL_TABLES = ("plc.1", "plc.2", "web.1", "web.2")
LINE = re.compile(rb"(?:home (DIDS) ([a-z0-9.:-]{1,255})|trust (?:DIDS)|good (?:DIDS) [0-9a-f]{64} (?:[0-9a-f]{2})+)"
                  .replace(b"DIDS", DID.pattern.encode()))
# How many fields follow each word of a line.
FIELDS = {b"home": (2, "its two fields"), b"trust": (1, "its field"), b"good": (3, "its three fields")}


def sum_path(path: pathlib.Path) -> pathlib.Path:
    return path.with_name(f"{path.name}.sum")


def sum_of(content: bytes) -> bytes:
    """The line of the sum of a table."""
    return f"{len(content)} {hashlib.sha256(content).hexdigest()}\n".encode()


def read(path: pathlib.Path) -> Optional[bytes]:
    """What a file has; nothing where there is none."""
    try:
        return path.read_bytes()
    except FileNotFoundError:
        return None


def faults(path: pathlib.Path) -> Iterator[str]:
    """What is wrong in a table, if anything: the file, the line's number, and what is the matter."""
    content = read(path)
    if content is None:
        return
    lines = content.split(b"\n")
    for i, line in enumerate(lines[:-1], 1):
        if not LINE.fullmatch(line):
            yield f"{path}: line {i} is none of a table: {why_none(line)}"
    if lines[-1]:
        yield f"{path}: line {len(lines)} has no line feed at its end"
    kept = read(sum_path(path))
    if kept is not None and kept != sum_of(content):
        yield (f"{path}: it isn't the table of {sum_path(path)}: it was cut, or edited. "
               f"Where its lines are as they should be, remove {sum_path(path)}")


def why_none(line: bytes) -> str:
    """What keeps a line from being one of a table."""
    if not line:
        return "it is empty"
    if line.endswith(b"\r"):
        return "it ends in a carriage return"
    if line.startswith(b"\xef\xbb\xbf"):
        return "it begins with a byte order mark"
    word = line.split(b" ")[0]
    if word not in FIELDS:
        return "it begins with another word than home, trust or good"
    fields, wanted = FIELDS[word]
    if line.count(b" ") != fields or line.endswith(b" ") or b"  " in line:
        return f"{word.decode()} wants {wanted}, after one blank each"
    return "a field has another form"


class Table:
    """A table: the lines that stand there, and new ones after them."""

    def __init__(self, path: pathlib.Path, is_forgetful: bool = False):
        self.path, self.homes, self.lines, self.new = path, {}, [], 0
        fault = next(faults(path), None)
        if fault is not None:
            raise Ended(BAD_TABLE, fault)
        content = read(path)
        there = (content or b"").split(b"\n")[:-1]
        for line in there:
            found = LINE.fullmatch(line)
            if found[1]:
                self.homes[found[1]] = found[2]
            if not (is_forgetful and line.startswith(b"good ")):
                self.lines.append(line)
        self.is_changed = content is None or len(self.lines) < len(there) or not sum_path(path).exists()
        self.there = set(self.lines)

    def add(self, line: bytes) -> None:
        self.lines.append(line)
        self.there.add(line)
        self.new += 1
        self.is_changed = True

    def home(self, did: str, host: str) -> None:
        """Names an account's home, where the table has another one or none."""
        if self.homes.get(did.encode()) != host.encode():
            self.homes[did.encode()] = host.encode()
            self.add(f"home {did} {host}".encode())

    def good(self, commit: Commit) -> None:
        """Vouches for a commit's signature."""
        line = f"good {commit.did} {commit.digest.hex()} {commit.sig.hex()}".encode()
        if line not in self.there:
            self.add(line)

    def trust(self, did: str) -> None:
        """Vouches for any signature of an account."""
        if f"trust {did}".encode() not in self.there:
            self.add(f"trust {did}".encode())

    def write(self) -> None:
        """Puts a new file in place of the table, and then its sum. A crash between leaves a whole table without a sum."""
        if not self.is_changed:
            return
        content = b"".join(line + b"\n" for line in self.lines)
        sum_path(self.path).unlink(missing_ok=True)
        sync_folder(self.path.parent)
        replace(self.path, [content])
        replace(sum_path(self.path), [sum_of(content)])


@contextlib.contextmanager
def changed(folder: pathlib.Path, is_forgetful: bool = False) -> "Iterator[dict[str, Table]]":
    """The tables of a folder, of each method of DIDs, which no other run writes meanwhile. They are written in the end."""
    with locked(folder):
        tables = {each: Table(folder / name, is_forgetful) for each, name in TABLES.items()}
        yield tables
        for table in tables.values():
            table.write()


def merge(folder: pathlib.Path, homes: "dict[str, str]", good: Iterable[Commit], is_forgetful: bool = False) -> "list[Table]":
    """Merges homes and good signatures into the tables of a folder."""
    with changed(folder, is_forgetful) as tables:
        for did, host in homes.items():
            tables[method(did)].home(did, host)
        for commit in good:
            tables[method(commit.did)].good(commit)
    return list(tables.values())


def trust(folder: pathlib.Path, dids: Iterable[str]) -> "list[Table]":
    """Has any signature of accounts taken."""
    with changed(folder) as tables:
        for did in dids:
            tables[method(did)].trust(did)
    return list(tables.values())


def homes(folder: pathlib.Path) -> "dict[str, str]":
    """The homes that the tables of a folder name."""
    found = {}
    for name in TABLES.values():
        for line in (read(folder / name) or b"").splitlines():
            if line.startswith(b"home "):
                _, did, host = line.decode().split()
                found[did] = host
    return found
