"""Parts of the tool by themselves: stretches of events, reports, statuses, configuration, words."""
import pathlib
import random
import subprocess
import sys
import time
import tomllib

from rows import Rows, expect, same

sys.path.insert(0, str(pathlib.Path(__file__).resolve().parents[2] / "tools"))
import program  # noqa: E402
from jupwachay.endings import Ended  # noqa: E402
from jupwachay.live import configuration, events, hosts, report, statuses  # noqa: E402
from live_tool import TOOL, WAIT  # noqa: E402

ROWS = Rows()


@ROWS.row("a stretch gives what follows on a cursor, once")
def stretches(_folder):
    """A stretch that grows and goes away at its front, beside a plain list."""
    draw = random.Random(5)
    stretch, plain, last = events.Stretch(0), [], 0
    for _ in range(3000):
        last += draw.randrange(1, 4)
        message = bytes(draw.randrange(1, 50))
        stretch.append(last, message)
        plain.append((last, message))
        if draw.random() < 0.1:
            stretch.drop_front(draw.randrange(1, 200), 4000)
        if draw.random() < 0.02:
            stretch.drop_up_to(last - draw.randrange(20))
        plain = [each for each in plain if each[0] > stretch.start]
        same((len(stretch), stretch.size()), (len(plain), sum(len(each) for _, each in plain)), "what is there")
        cursor = draw.randrange(stretch.start, last + 1)
        wanted = [each for each in plain if each[0] > cursor]
        same(stretch.left(cursor), (len(wanted), sum(len(each) for _, each in wanted)), "what is left")
        found, end = stretch.after(cursor, 300)
        same(found, [each for _, each in wanted[:len(found)]], "what follows")
        expect(bool(found) == bool(wanted) and (sum(map(len, found)) <= 300 or len(found) == 1), "too much at once")
        same(end, wanted[len(found) - 1][0] if found else last, "up to where")


@ROWS.row("a report is read as docs/OPERATING.md has its lines")
def reports(_folder):
    lines = ["a.example info", "a.example 1 event 7", "b.example:2583 4 held", "a.example 2 refused 19 Gap absent",
             "a.example 3 refused 19 Gap synced 8 records 2", "a.example 4 refused 22 NotCovered op 0 repository 5",
             "a.example 4 old", "a.example 5 refused 18 BadSignature", "c.example ended frame", "c.example after end",
             "end 10 events 2 refused 4 last 8"]
    found = report.read("".join(f"{line}\n" for line in lines).encode())
    same(found.cursors, {"a.example": 5, "b.example:2583": 4}, "the cursors")
    same([(each.seq, each.code) for each in found.refused if each.is_lost], [(2, 19), (4, 22)], "by which accounts are lost")
    same(dict(found.names()), {"Gap": 2, "NotCovered": 1, "BadSignature": 1}, "the refusals")
    same((found.ended, found.last), ({"c.example": "frame"}, 8), "the end")
    same(found.accepted, {("a.example", 1), ("b.example:2583", 4)}, "what was accepted")
    same((found.old, len(found.told)), ({("a.example", 4)}, 6), "what was old, and what has lines")
    front = report.read("\n".join(lines[:4]).encode())
    same((front.is_whole(), front.cursors), (False, {"a.example": 1, "b.example:2583": 4}), "a front of it")


@ROWS.row("the sample of the repository is read")
def sample(_folder):
    found = report.read((program.SAMPLES / "report").read_bytes())
    same((found.last, len(found.refused), found.lines["event"]), (193, 16, 192), "the report of the sample, with one repository taken over")


@ROWS.row("each status has its line in the table")
def table(_folder):
    """The table in words, and what the code does, name the same statuses."""
    told = {int(word) for line in statuses.__doc__.splitlines() if line.startswith("| ") for word in line.split("|")[1].split(",")
            if word.strip().isdigit()}
    meant = {*statuses.BY_STATUS, 2, 10, 12, 19, 125}
    same(told, meant, "the statuses of the table")
    for status in (2, 10, 12, 125, 77):
        same(statuses.action(status), statuses.Action.END, f"status {status}")
    same(statuses.action(-9), statuses.Action.SMALLER, "a signal")


@ROWS.row("hosts take turns")
def turns(_folder):
    """Of hosts that sent much and hosts that sent little each has its share, and each host's messages stay in their order."""
    words = configuration.Configuration(hosts=["a.example", "b.example", "c.example"])
    found = hosts.Hosts(words, _folder)
    found.begin({"a.example": 5})
    for name, many in (("a.example", 100), ("b.example", 3), ("c.example", 50)):
        for seq in range(many):
            found.all[name].ready.put(hosts.Message(name, seq, None, bytes(10), 0.0))
    first = found.take(12, 10_000)
    same({name: [each.seq for each in first if each.host == name] for name in words.hosts},
         {"a.example": [0, 1, 2, 3, 4][:len([each for each in first if each.host == "a.example"])], "b.example": [0, 1, 2],
          "c.example": [0, 1, 2, 3, 4][:len([each for each in first if each.host == "c.example"])]}, "the first ones")
    same((found.all["a.example"].received, len(found.take(1000, 100))), (5, 10), "a bound of bytes")


@ROWS.row("what a host may send is bounded")
def allowances(_folder):
    begun = time.monotonic()
    allowance = hosts.Allowance(100.0)
    waits = [allowance.take(10) for _ in range(40)]
    passed = time.monotonic() - begun
    same(waits[:10], [0.0] * 10, "at once")
    expect(1.999 - passed < waits[-1] < 2.001, f"after what comes in two seconds it waits: {waits[-1]} after {passed} s")


@ROWS.row("a configuration that can't be meant is refused")
def configurations(folder):
    wrong = {"listen = 5": "listen", 'hosts = ["a b"]': "a b", "[batch]\ninterval = 0": "batch.interval", "[batch]\nmesages = 1": "mesages",
             "[batch]\nmessages = -1": "batch.messages", 'plc = "http://plc.example"': "https", 'listen = "here"': "listen",
             "[consumers]\npart_bytes = 5": "part_bytes", "hosts = [": "Invalid", "[limits.\"a.example\"]\nspeed = 5": "speed"}
    for text, named in wrong.items():
        path = folder / "wrong.toml"
        path.write_text(text)
        try:
            configuration.check(configuration.read(path))
            same("taken", "refused", text)
        except Ended as why:
            expect(why.status == 2 and named in str(why), f"{text!r} is refused so: {why}")


@ROWS.row("the sample of a configuration has each setting")
def sample_configuration(_folder):
    path = program.SAMPLES / "live.toml"
    found = configuration.read(path)
    configuration.check(found)
    text = "\n".join(line.removeprefix("# ") if line.startswith("# ") and " = " in line else line for line in path.read_text().splitlines())
    given = tomllib.loads(text)
    for name, kind in configuration.SECTIONS.items():
        same(set(given.get(name, {})), set(vars(kind())), f"the settings of {name}")
    same(set(given) - set(configuration.SECTIONS), {"listen", "relay", "hosts", "let_in", "plc", "private", "plain", "limits"}, "the settings")


@ROWS.row("words that are none end with 2")
def words(folder):
    for given in (["--no-such"], ["no-such-folder"], [str(folder), "--listen", "nowhere"], [str(folder), "--host", "a b"]):
        done = subprocess.run([sys.executable, TOOL, *(given if given[0].startswith(("/", "no")) else [str(folder), *given])],
                              stdin=subprocess.DEVNULL, capture_output=True, text=True, check=False, timeout=WAIT)
        same(done.returncode, 2, f"the status of {given}: {done.stderr}")
    done = subprocess.run([sys.executable, TOOL, folder, "status"], stdin=subprocess.DEVNULL, capture_output=True, text=True, check=False)
    same((done.returncode, "no live relay works" in done.stderr), (5, True), "a command where none runs")
    done = subprocess.run([sys.executable, TOOL, folder, "--relay", "/bin/true"], stdin=subprocess.DEVNULL, capture_output=True, text=True, check=False)
    same(done.returncode, 7, f"another program: {done.stderr}")
