"""Commands to a live relay that runs: over a socket in its folder, which its owner alone may use.

A connection has one command, a line of words; the answer is a line with a status, and then what there is to say.
"""
import asyncio
import contextlib
import fcntl
import os
import pathlib
import socket
from typing import Awaitable, Callable

from jupwachay.endings import DISK, WRONG_WORDS, Ended

NAME = "live.sock"
LOCK = "live.lock"
LONGEST = 4096
SECONDS_TO_SAY_IT = 10.0
Command = Callable[["list[str]"], Awaitable["tuple[int, str]"]]


@contextlib.contextmanager
def path_of(folder: pathlib.Path):
    """A path to the socket that is short enough for the system, however long the folder's is."""
    place = os.open(folder, os.O_RDONLY | os.O_DIRECTORY)
    try:
        yield f"/proc/self/fd/{place}/{NAME}"
    finally:
        os.close(place)


class Door:
    """Where commands come in."""

    def __init__(self, folder: pathlib.Path, commands: "dict[str, Command]"):
        self.folder, self.commands = folder, commands
        self.server: "asyncio.AbstractServer | None" = None

    async def open(self) -> None:
        (self.folder / NAME).unlink(missing_ok=True)
        before = os.umask(0o177)  # its owner alone may write to it, from its first moment on
        try:
            with path_of(self.folder) as path:
                self.server = await asyncio.start_unix_server(self.answer, path, limit=LONGEST)
        finally:
            os.umask(before)

    async def answer(self, reader: asyncio.StreamReader, writer: asyncio.StreamWriter) -> None:
        with contextlib.suppress(ConnectionError, asyncio.TimeoutError, ValueError):
            line = await asyncio.wait_for(reader.readline(), SECONDS_TO_SAY_IT)
            words = line.decode("utf-8", "replace").split()
            status, said = await self.done(words)
            writer.write(f"{status}\n{said}\n".encode())
            await writer.drain()
        writer.close()

    async def done(self, words: "list[str]") -> "tuple[int, str]":
        command = self.commands.get(words[0]) if words else None
        if command is None:
            return WRONG_WORDS, f"the commands are {', '.join(self.commands)}"
        return await command(words[1:])

    def close(self) -> None:
        if self.server:
            self.server.close()
            (self.folder / NAME).unlink(missing_ok=True)


def is_answering(folder: pathlib.Path) -> bool:
    """Whether a live relay takes commands for a folder."""
    with contextlib.closing(socket.socket(socket.AF_UNIX)) as sock, path_of(folder) as path:
        return sock.connect_ex(path) == 0


def ask(folder: pathlib.Path, words: "list[str]") -> "tuple[int, str]":
    """Gives a command to the live relay that works on a folder, and waits for its answer."""
    with contextlib.closing(socket.socket(socket.AF_UNIX)) as sock, path_of(folder) as path:
        try:
            sock.connect(path)
        except OSError as why:
            raise Ended(DISK, f"{folder}: no live relay works on this folder ({why.strerror})") from why
        sock.sendall(" ".join(words).replace("\n", " ").encode() + b"\n")
        said = b""
        while piece := sock.recv(1 << 16):
            said += piece
    status, _, rest = said.decode("utf-8", "replace").partition("\n")
    if not status.isdigit():
        raise Ended(DISK, "the live relay ended before it answered")
    return int(status), rest.rstrip("\n")


def wait_until_ended(folder: pathlib.Path) -> None:
    """Waits until no live relay works on a folder, nor a run of one."""
    with open(folder / LOCK, "ab") as file:
        fcntl.flock(file, fcntl.LOCK_EX)
