"""The tables of the relay's folder as a live relay has them: the operator's lines, and what is vouched for of the messages that
are taken now. So they stay short, however many accounts there are."""
import pathlib

from jupwachay import files, tables
from jupwachay.endings import Ended
from jupwachay.live.vouched import Good
from jupwachay.names import method
from jupwachay.speech import say


class Kept:
    """The lines that an operator wrote: `trust`, and the last `home` of each account that is trusted."""

    def __init__(self, lines: "list[bytes]"):
        self.trust = [line for line in lines if line.startswith(b"trust ")]
        trusted = {line.split(b" ")[1] for line in self.trust}
        homes = [line.split(b" ") for line in lines if line.startswith(b"home ")]
        self.homes = {did.decode(): host.decode() for _, did, host in homes if did in trusted}


class Tables:
    """The tables `plc.1` and `web.1`."""

    def __init__(self, folder: pathlib.Path):
        self.folder = folder
        self.paths = {each: folder / name for each, name in tables.TABLES.items()}
        self.kept = {each: Kept([]) for each in self.paths}

    def read(self) -> None:
        """Reads the operator's lines. Of a table that is damaged those count that were read last."""
        for each, path in self.paths.items():
            try:
                self.kept[each] = Kept(tables.Table(path).lines)
            except Ended as why:
                say(f"{why}; the table is written anew, with the operator's lines as they were read last")

    def write(self, good: Good) -> None:
        """Writes the tables for what is taken now. No other tool writes them meanwhile."""
        with files.locked(self.folder):
            self.read()
            self.write_all(good)

    def write_all(self, good: Good) -> None:
        for each, path in self.paths.items():
            kept = self.kept[each]
            homes = {**kept.homes, **{did: home for did, home in good.homes.items() if method(did) == each}}
            lines = [*kept.trust, *(f"home {did} {home}".encode() for did, home in homes.items())]
            lines += [f"good {commit.did} {commit.digest.hex()} {commit.sig.hex()}".encode() for commit in good.commits
                      if method(commit.did) == each]
            put(path, b"".join(line + b"\n" for line in lines))


def put(path: pathlib.Path, content: bytes) -> None:
    """Puts a table in place of the one that is there, unless that is the same."""
    if tables.read(path) != content:
        tables.sum_path(path).unlink(missing_ok=True)
        files.replace(path, [content])
