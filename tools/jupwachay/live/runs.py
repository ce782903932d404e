"""Runs of the relay: one at a time works on the folder, and who wants one waits for its turn."""
import asyncio
import contextlib
import pathlib
import time
from typing import Callable, NamedTuple, Optional

WRITING = ("ingest", "takedown", "restore", "sync", "cut")
LONGEST_SAID = 1 << 16
PIECE = 1 << 18
SECONDS_TO_END = 2.0


class Done(NamedTuple):
    """What a run left."""

    status: int
    out: bytes
    said: str  # its last line on standard error
    seconds: float

    def sentence(self) -> str:
        """What became of the run, for a person."""
        how = f"a signal, number {-self.status}," if self.status < 0 else f"status {self.status}"
        return f"a run of the relay ended with {how}" + (f" ({self.said})" if self.said else "")


class Runs:
    """The runs on a folder. Who starts one holds `turn`, over several runs where nothing may come between them."""

    def __init__(self, program: pathlib.Path, folder: pathlib.Path):
        self.program, self.folder = program, folder
        self.kept_open: "tuple[int, ...]" = ()  # files that a run keeps open, so that their locks last as long as it does
        self.turn = asyncio.Lock()
        self.changed: Callable[[], None] = lambda: None  # called after each run that may have changed the journal
        self.child: Optional[asyncio.subprocess.Process] = None

    async def start(self, *words: str, given: Optional[pathlib.Path] = None) -> asyncio.subprocess.Process:
        """Starts a run, which reads a file or nothing."""
        assert self.turn.locked()
        with contextlib.ExitStack() as files:
            source = files.enter_context(open(given, "rb")) if given else asyncio.subprocess.DEVNULL
            self.child = await asyncio.create_subprocess_exec(
                self.program, self.folder, *words, stdin=source, stdout=asyncio.subprocess.PIPE, stderr=asyncio.subprocess.PIPE,
                limit=PIECE, pass_fds=self.kept_open, start_new_session=True)  # a Ctrl-C at the terminal is for the tool alone
        return self.child

    async def run(self, *words: str, given: Optional[pathlib.Path] = None, most: Optional[int] = None) -> Done:
        """Runs to the end; where a number of bytes is named, until the run has written as many, and the rest is left out."""
        begun = time.monotonic()
        child = await self.start(*words, given=given)
        said = asyncio.create_task(last_line(child.stderr))
        try:
            out, is_cut_off = await read(child, most)
            status = await child.wait()
        except asyncio.CancelledError:
            with contextlib.suppress(ProcessLookupError):
                child.kill()
            raise
        self.child = None
        if words[0] in WRITING:
            self.changed()
        return Done(0 if is_cut_off else status, out, await said, time.monotonic() - begun)

    async def stop(self, seconds: float) -> None:
        """Lets the run that is under way end by itself; once the time is over it is ended between two of its steps, and then at once."""
        child = self.child
        for end, wait in ((None, seconds), ("terminate", SECONDS_TO_END), ("kill", SECONDS_TO_END)):
            if child is None or child.returncode is not None:
                return
            with contextlib.suppress(ProcessLookupError):
                if end:
                    getattr(child, end)()
            with contextlib.suppress(asyncio.TimeoutError):
                await asyncio.wait_for(child.wait(), wait)


async def read(child: asyncio.subprocess.Process, most: Optional[int]) -> "tuple[bytes, bool]":
    """What a run writes, up to a number of bytes, and whether it was ended there."""
    out = bytearray()
    while piece := await child.stdout.read(PIECE):
        out += piece
        if most is not None and len(out) >= most:
            child.kill()
            return bytes(out), True
    return bytes(out), False


async def last_line(stream: asyncio.StreamReader) -> str:
    """The last line that a run wrote to standard error."""
    kept = b""
    while piece := await stream.read(PIECE):
        kept = (kept + piece)[-LONGEST_SAID:]
    lines = [line for line in kept.decode("utf-8", "replace").splitlines() if line.strip()]
    return lines[-1].strip() if lines else ""
