"""The words of `tools/live`, and what each does."""
import argparse
import asyncio
import os
import pathlib
import re
import shutil
import subprocess

from jupwachay.endings import NO_RELAY, WRONG_WORDS, Ended
from jupwachay.live import configuration, operation
from jupwachay.live.configuration import Configuration
from jupwachay.relay import PROGRAM
from jupwachay.speech import say

USUAL_FILE = "live.toml"
NOT_BUILT = 125
VERSION = re.compile(rb"\brelay (\d+\.\d+\.\d+)")


def parser(told: str) -> argparse.ArgumentParser:
    found = argparse.ArgumentParser(prog="live", description=told, formatter_class=argparse.RawDescriptionHelpFormatter)
    found.add_argument("folder", metavar="DIR", type=pathlib.Path, help="the folder of the relay's files")
    found.add_argument("words", metavar="WORDS", nargs="*", help="a command to the live relay that runs on DIR")
    found.add_argument("--config", metavar="FILE", type=pathlib.Path, help="its configuration (DIR/live.toml, where that is there)")
    found.add_argument("--listen", metavar="ADDRESS:PORT", help="where consumers and requests come in (127.0.0.1:2480); port 0 is any that is free")
    found.add_argument("--host", metavar="HOST", action="append", default=[], help="a host to follow, besides those of the configuration")
    found.add_argument("--let-in", metavar="PATTERN", action="append", default=[],
                       help="hosts that are followed once they ask for it (requestCrawl), as pds.example.com or *.example.com")
    found.add_argument("--plc", metavar="URL", help="the PLC directory, as https://plc.directory")
    found.add_argument("--interval", metavar="SECONDS", type=float, help="how long messages may wait to be taken together (1)")
    found.add_argument("--keep-hours", metavar="HOURS", type=float, help="keep events of so long; older ones are cut away (0: all)")
    found.add_argument("--keep-events", metavar="N", type=int, help="keep this number of events (0: all)")
    found.add_argument("--relay", metavar="PROGRAM", help="the relay's program (RELAY_PROGRAM, or ./relay beside the tools)")
    found.add_argument("--private", action="store_true", default=None, help="reach private addresses, too")
    found.add_argument("--plain", action="store_true", default=None, help="allow http://, ws:// and private addresses, for a world on one machine")
    return found


def configured(words: argparse.Namespace) -> Configuration:
    """The configuration of the file, with the words of the command line before it."""
    usual = words.folder / USUAL_FILE
    found = configuration.read(words.config or (usual if usual.exists() else None))
    found.hosts += [host for host in words.host if host not in found.hosts]
    found.let_in += words.let_in
    for name in ("listen", "plc", "private", "plain", "relay"):
        if getattr(words, name) is not None:
            setattr(found, name, getattr(words, name))
    if words.interval is not None:
        found.batch.interval = words.interval
    for name in ("keep_hours", "keep_events"):
        if getattr(words, name) is not None:
            setattr(found.window, name, getattr(words, name))
    configuration.check(found)
    return found


def program_of(found: Configuration) -> "tuple[pathlib.Path, str]":
    """The relay's program, and its version. The script `relay` beside the tools says which program that is, once it has compiled one
    where there is none."""
    named = shutil.which(found.relay or os.environ.get("RELAY_PROGRAM") or PROGRAM)
    if named is None:
        raise Ended(NO_RELAY, f"{found.relay or PROGRAM}: there is no such program")
    status, lines = said_by(named, "--which")
    if status == NOT_BUILT:
        subprocess.run([named, "--version"], stdin=subprocess.DEVNULL, stdout=subprocess.DEVNULL, check=False)
        status, lines = said_by(named, "--which")
    path = lines.get("path", named) if status == 0 else named
    if lines.get("proved") == "no":
        say(f"{path} was compiled without a proof")
    return pathlib.Path(path).resolve(), version_of(path)


def version_of(program: str) -> str:
    """The version that the relay's program says."""
    done = subprocess.run([program, "--version"], stdin=subprocess.DEVNULL, stdout=subprocess.PIPE, check=False)
    found = VERSION.search(done.stdout)
    if done.returncode != 0 or found is None:
        raise Ended(NO_RELAY, f"{program} --version ends with {done.returncode}, and doesn't name the relay")
    return found[1].decode()


def said_by(program: str, word: str) -> "tuple[int, dict[str, str]]":
    """The status of a program's run, and its lines by their first words."""
    done = subprocess.run([program, word], stdin=subprocess.DEVNULL, stdout=subprocess.PIPE, stderr=subprocess.DEVNULL, check=False)
    lines = (line.partition(" ") for line in done.stdout.decode("utf-8", "replace").splitlines())
    return done.returncode, {first: rest for first, _, rest in lines}


async def serve(found: Configuration, folder: pathlib.Path) -> int:
    from jupwachay.live.service import Live  # with its libraries, for which a command need not wait
    program, version = program_of(found)
    live = Live(found, program, folder)
    live.version = version
    return await live.run()


def run(told: str) -> int:
    words = parser(told).parse_intermixed_args()
    if not words.folder.is_dir():
        raise Ended(WRONG_WORDS, f"{words.folder} is no folder")
    folder = words.folder.resolve()
    if words.words:
        status, said = operation.ask(folder, words.words)
        print(said, flush=True)
        if words.words == ["stop"]:
            operation.wait_until_ended(folder)
        return status
    return asyncio.run(serve(configured(words), folder))
