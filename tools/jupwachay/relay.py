"""The relay's program: where it is, and what it prints of a folder."""
import pathlib
import subprocess
from typing import Container, Iterator, NamedTuple, Optional

from jupwachay.endings import NO_RELAY, Ended

PROGRAM = str(pathlib.Path(__file__).resolve().parents[2] / "relay")  # beside the real place of the tools
REFUSED = 15  # the status where a word was refused


class Account(NamedTuple):
    """What the relay knows of an account."""

    did: str
    is_active: bool
    status: str
    is_up: bool
    word: str  # none, good or lost
    rev: Optional[str]


class Relay:
    """The program over a folder."""

    def __init__(self, program: str, folder: pathlib.Path):
        self.program, self.folder = program, folder

    def run(self, *words: str, allowed: Container[int] = (0,)) -> str:
        """What the program prints. The run ends where it ends with another status than these."""
        try:
            done = subprocess.run([self.program, self.folder, *words], stdin=subprocess.DEVNULL, stdout=subprocess.PIPE, check=False)
        except OSError as why:
            raise Ended(NO_RELAY, f"{self.program}: {why.strerror}") from why
        if done.returncode not in allowed:
            raise Ended(NO_RELAY, f"{self.program} {self.folder} {' '.join(words)} ends with {done.returncode}")
        return done.stdout.decode()

    def messages(self, cursor: int) -> Iterator[bytes]:
        """The messages that the relay writes after a number, one after another. Whoever wants no more of them may stop."""
        command = [self.program, self.folder, "replay", str(cursor)]
        with subprocess.Popen(command, stdin=subprocess.DEVNULL, stdout=subprocess.PIPE) as child:
            try:
                while size := child.stdout.read(4):
                    yield child.stdout.read(int.from_bytes(size, "big"))
            except GeneratorExit:
                child.kill()
                raise
        if child.returncode != 0:
            raise Ended(NO_RELAY, f"{self.program} {self.folder} replay {cursor} ends with {child.returncode}")

    def hosts(self) -> "dict[str, int]":
        """The hosts, each with its cursor, in the order in which they were first seen."""
        lines = [line.split(" ") for line in self.run("hosts").splitlines()]
        return {host: int(cursor) for host, cursor in lines[:-1]}

    def account(self, did: str) -> Account:
        name, active, status, up, word, *rest = self.run("account", did).split()
        return Account(name, active == "active", status, up == "up", word, rest[0] if rest else None)

    def sync(self, did: str, moment: str) -> str:
        """The line with which the relay takes an account's repository over, or refuses to."""
        return self.run("sync", did, moment, allowed=(0, REFUSED)).strip()

    def has_journal(self) -> bool:
        """Whether there is a journal to ask."""
        logs = (self.folder / name for name in ("log", "log.2"))
        return any(log.exists() and log.stat().st_size >= 10 for log in logs)
