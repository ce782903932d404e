"""The commands and scripts of docs/REAL_HOSTS.md, run in the world with its hosts' names in place of real ones; and whether
docs/TOOLS.md says of the tools what they say of themselves."""
import datetime
import os
import pathlib
import re
import shlex
import shutil
import signal
import subprocess
import sys

sys.path.insert(0, str(pathlib.Path(__file__).resolve().parents[1]))
import program  # noqa: E402
from world import TOOLS, World, tool  # noqa: E402

PAGE = program.TOP / "docs/REAL_HOSTS.md"
WAIT = 600
HOSTS = ("pds.example.com", "pds.example.net")
DIRECTORY = "--plc https://plc.directory"


class Page:
    """The page, and how its commands are to be run in a folder."""

    def __init__(self, world: World, room: pathlib.Path):
        self.world, self.room, self.text = world, room, PAGE.read_text()
        shutil.rmtree(room, ignore_errors=True)
        room.mkdir()

    def commands(self) -> "list[tuple[str, list[str]]]":
        """Each command, with the lines that it is to print."""
        found, is_beside = [], False
        for line in self.text.splitlines():
            if line.startswith("    $ "):
                found.append((line[6:], []))
            elif line.startswith("    ") and is_beside:
                found[-1][1].append(line[4:])
            is_beside = line.startswith("    $ ") or is_beside and line.startswith("    ")
        return found

    def block(self, kind: str) -> str:
        """What a block of this kind on the page has."""
        return re.search(rf"```{kind}\n(.*?)```", self.text, re.DOTALL)[1]

    def here(self, words: str) -> str:
        """Words of the page with this machine's hosts, programs and patience in them."""
        for name, host in zip(HOSTS, self.world.hosts):
            words = words.replace(name, host.name)
        words = words.replace(DIRECTORY, f"--plc {self.world.directory.address}")
        words = re.sub(r"/srv/relay/tools/(each-\w+)", rf"{shlex.quote(str(TOOLS))}/\1", words).replace("/srv/relay", shlex.quote(str(self.room)))
        words = re.sub(r"--seconds \d+", "--seconds 4", words)
        words = re.sub(r"tools/(record|vouch)", rf"{sys.executable} {TOOLS}/\1 --plain", words)
        words = words.replace("tools/repositories", f"{sys.executable} {TOOLS}/repositories --plain --relay {program.PROGRAM}")
        return words.replace("./relay", str(program.PROGRAM))

    def run(self, words: str) -> "tuple[int, str]":
        """The status of a command in the folder, and all that it prints."""
        python = pathlib.Path(sys.executable).parent
        settings = {**os.environ, "RELAY": str(program.PROGRAM), "PATH": f"{python}:{os.environ['PATH']}"}
        done = subprocess.run(["sh", "-c", self.here(words)], cwd=self.room, stdout=subprocess.PIPE, stderr=subprocess.STDOUT,
                              stdin=subprocess.DEVNULL, text=True, check=False, timeout=WAIT, env=settings)
        return done.returncode, done.stdout


def shape(text: str) -> "list[str]":
    """Lines without their numbers and names."""
    words = ((r"localhost:\d+|pds\.example\.(?:com|net)", "HOST"), (r"did:\S+", "DID"), (r"\b3[2-7a-z]{12}\b", "REV"), (r"\b\d+\b", "N"))
    for pattern, word in words:
        text = re.sub(pattern, word, text)
    return text.splitlines()


def rows(world: World):
    """What the page's commands print, and what its scripts do."""
    page = Page(world, world.room / "page")
    commands = page.commands()
    for words, printed in commands:
        if words.startswith("apt-get "):
            continue
        status, out = page.run(words)
        want = [] if words.endswith("wait") else shape("\n".join(printed))
        yield f"in the page: {words}", (status, [] if words.endswith("wait") else shape(out)), (0, want)
    yield "the number of commands, with that for several hosts", len(commands), 11
    names = {line.split(" ")[0] for line in page.run("./relay day hosts")[1].splitlines()}
    yield "the host is known", names, {world.hosts[0].name, "end"}
    yield from scripts(page, world)
    yield from reference()
    yield from opened(page.room)


def scripts(page: Page, world: World):
    """The scripts of tools/, as the page's service and crontab run them, on the folder that its commands left."""
    for path in (page.room / "tapes").iterdir():
        if path.name in ("2", ".2.last"):
            path.unlink()
    hourly, daily = (line.split(" ", 5)[5] for line in page.block("crontab").splitlines())
    hourly += " --plain"
    recording = re.search("^ExecStart=(.*)$", page.block("ini"), re.MULTILINE)[1] + " --plain --seconds 4"
    host = world.hosts[0]
    host.commit(world.ada)
    yield "recording an hour", page.run(recording)[0], 0
    host.commit(world.ada)
    yield "and the next one", page.run(recording)[0], 0
    status, out = page.run(hourly)
    tapes = [name for name in sorted(os.listdir(page.room / "tapes")) if not name.startswith(".")]
    yield "taking an hour", (status, "end 0 fetched 0" in out), (0, True)
    yield "all but the last tape are taken", (len(tapes), sorted(os.listdir(page.room / "reports"))), (3, tapes[:2])
    yield "up to its cursor", page.run("./relay day hosts")[1], f"{host.name} {len(host.events) - 1}\nend 1\n"
    yield "an hour without a tape that is done", page.run(hourly), (0, "")
    lasts = page.room / "lasts"
    lasts.write_text("3\n" + "".join(f"{4 + i}\n" for i in range(6)))
    status, out = page.run(daily)
    last = int(lasts.read_text().split()[-1])
    yield "cutting a day", (status, out), (0, f"cut 3 oldest 4 last {last}\n")
    yield from old_tapes(page, daily, tapes)
    yield from units(page)


def old_tapes(page: Page, daily: str, tapes: "list[str]"):
    """An old tape goes where its report is whole, and stays where it was not taken, or not to the end."""
    for name in tapes:
        os.utime(page.room / "tapes" / name, (0, datetime.datetime(2025, 1, 1).timestamp()))
    report = page.room / "reports" / tapes[1]
    whole = report.read_text()
    report.write_text("".join(whole.splitlines(keepends=True)[:-1]))
    _, out = page.run(daily)
    yield "an old tape is gone", [(page.room / "tapes" / name).exists() for name in tapes], [False, True, True]
    yield "those that were not taken are named", [f"tapes/{name} is older than 7 days" in out for name in tapes], [False, True, True]
    report.write_text(whole)
    page.run(daily)
    yield "and one goes once it was", [(page.room / "tapes" / name).exists() for name in tapes], [False, False, True]


def reference():
    """docs/TOOLS.md has the options and statuses that each tool says of itself."""
    text = (program.TOP / "docs/TOOLS.md").read_text()
    for name in ("record", "vouch", "repositories", "status"):
        part = re.search(rf"^## {name}$(.*?)(?=^## |\Z)", text, re.DOTALL | re.MULTILINE)[1]
        said = tool(name, "--help")[1]
        options = set(re.findall(r"(?<!\S)(--[a-z-]+)", re.search(r"^options:$(.*)", said, re.DOTALL | re.MULTILINE)[1]))
        statuses = set(re.findall(r"^  (\d) ", said, re.MULTILINE))
        told = set(re.findall(r"(?<!\S)`(--[a-z-]+)", "\n".join(re.findall(r"^\| `--.*?\|", part, re.MULTILINE))))
        yield f"the options of {name}", told, options
        yield f"the statuses of {name}", set(re.findall(r"^\| (\d) \|", part, re.MULTILINE)), statuses


def opened(room: pathlib.Path):
    """The world that is opened for trying the tools by hand: it says where it is, goes on, and can be stopped."""
    tape = room / "of-the-open-world"
    with subprocess.Popen([sys.executable, program.TOP / "tests/world/open", "0.1"], stdout=subprocess.PIPE, text=True) as child:
        try:
            lines = [child.stdout.readline() for _ in range(3)]
            got = tool("record", lines[1].split(" ")[1], tape, "--plain", "--messages", 3)
            child.send_signal(signal.SIGINT)
            status = child.wait(WAIT)
        finally:
            child.kill()
    yield "the open world", ([line.split(" ")[0] for line in lines], got[0], status), (["directory", "host", "host"], 0, 0)


def units(page: Page):
    """The service's words are known to systemd, where it is there."""
    if not shutil.which("systemd-analyze"):
        print("world: systemd-analyze isn't here, the unit of docs/REAL_HOSTS.md was not read by it")
        return
    unit = page.room / "recording.service"
    unit.write_text(page.block("ini").replace("/srv/relay/tools", str(TOOLS)).replace("/srv/relay", str(page.room)))
    done = subprocess.run(["systemd-analyze", "verify", unit], stdout=subprocess.PIPE, stderr=subprocess.STDOUT, text=True, check=False, timeout=WAIT)
    said = [line for line in done.stdout.splitlines() if unit.name in line]
    yield "the unit", said, []
