"""What the tool does at each status of a run of the relay: by a program in its place that ends so when it is told to."""
import contextlib
import json
import pathlib
import shutil
import signal
import subprocess

import program
from rows import LeftOut, Rows, expect, same

from clients import Reader
from live_tool import Relay, wait_for
from scene import P256, Scene

ROWS = Rows()
STAND_IN = """#!/bin/sh
# Runs the relay, unless the next line of the file `next` beside it has this run's word: it ends with that line's status then; with
# `untold` it runs the relay first, of whose report nobody hears. A line with a third word waits until the file `go` is there.
room=$(dirname "$0")
echo "$2 $(stat -L -c %s /proc/self/fd/0 2>/dev/null)" >> "$room/runs"
if [ -s "$room/next" ] && read -r word status held < "$room/next" && [ "$word" = "$2" ]; then
    sed -i 1d "$room/next"
    while [ -n "$held" ] && [ -e "$room/next" ] && ! [ -e "$room/go" ]; do sleep 0.05; done
    [ "$status" = untold ] && REAL "$@" > /dev/null
    [ "$status" = kill ] || [ "$status" = untold ] && kill -9 $$
    echo "relay: made to end so" >&2
    exit "$status"
fi
exec REAL "$@"
"""


class StandIn:
    """A program in the relay's place, and what it was asked."""

    def __init__(self, room: pathlib.Path):
        self.path, self.next, self.runs = room / "stand-in", room / "next", room / "runs"
        self.go = room / "go"
        self.path.write_text(STAND_IN.replace("REAL", str(program.built("relay_cli"))))
        self.path.chmod(0o755)

    def tell(self, *lines: str) -> None:
        new = self.next.with_suffix(".new")
        new.write_text("".join(f"{line}\n" for line in lines))
        new.rename(self.next)

    def is_told(self) -> bool:
        """Whether it has still to end so."""
        return self.next.exists() and self.next.stat().st_size > 0

    def sizes(self) -> "list[int]":
        """The bytes of each tape that it was given."""
        lines = [line.split() for line in self.runs.read_text().splitlines()]
        return [int(line[1]) for line in lines if line[0] == "ingest" and len(line) > 1 and int(line[1]) > 0]


class Tried:
    """A live relay over a stand-in, with a host, an account, and a consumer that has to get everything once."""

    def __init__(self, folder: pathlib.Path, **sections):
        self.stand_in, self.scene = StandIn(folder), Scene(hosts=1, accounts=2)
        self.host, self.account = self.scene.hosts[0], self.scene.accounts()[0]
        self.relay = Relay(folder / "relay", self.scene.directory.address, [self.host.name], relay=self.stand_in.path, **sections)

    def __enter__(self) -> "Tried":
        self.relay.start()
        self.reader = Reader(self.scene.host_names()).start(self.relay.stream())
        self.relay.wait_until_taken(self.scene.sent())
        return self

    def __exit__(self, *words) -> None:
        self.relay.__exit__(*words)
        self.reader.stop()

    def goes_on(self, many: int = 1) -> None:
        """More is sent, all at once, all of it is taken, and the consumer gets it once."""
        with self.host.news:
            for _ in range(many):
                self.host.commit(self.account)
        self.relay.wait_until_taken(self.scene.sent())
        wait_for(lambda: self.reader.cursor == len(self.host.events) or self.relay.child.poll() is not None, "the consumer has all")
        same(self.reader.numbers, list(range(1, len(self.host.events) + 1)), "what the consumer got")
        same(self.stand_in.is_told(), False, "whether it had to end so")

    def ends_with(self, status: int, said: str = "made to end so") -> None:
        self.host.commit(self.account)
        same(self.relay.ended(), status, "the status of the tool")
        expect(said in self.relay.words(), f"its words: {self.relay.words()}")


def failing_a_while(status: int):
    """It says so, goes on trying, and loses nothing."""
    def row(folder):
        with Tried(folder, batch={"longest_pause": 2.0}) as tried:
            tried.stand_in.tell(*[f"ingest {status}"] * 2, f"ingest {status} held")
            tried.host.commit(tried.account)
            wait_for(lambda: tried.relay.get("/xrpc/_health")[0] == 503, "its health is bad")
            said = json.loads(tried.relay.get("/xrpc/_health")[1])
            expect(f"status {status} (relay: made to end so)" in said["message"], f"its health: {said}")
            tried.stand_in.go.touch()
            tried.goes_on(2)
            same(tried.relay.get("/xrpc/_health")[0], 200, "its health at last")
            expect(f"status {status} (relay: made to end so)" in tried.relay.words(), f"its words: {tried.relay.words()}")
    return row


for each in (1, 3, 4, 5, 6, 7, 17):
    ROWS.row(f"status {each} for a while")(failing_a_while(each))


@ROWS.row("replay that fails for a while")
def replay_fails(folder):
    """The events are there, and consumers get them once they can be read."""
    with Tried(folder) as tried:
        tried.stand_in.tell("replay 5", "replay kill", "replay 14")
        tried.goes_on(2)
        tried.goes_on()


def ending(status: int, **sections):
    """It ends with the status and a sentence."""
    def row(folder):
        with Tried(folder, **sections) as tried:
            tried.stand_in.tell(f"ingest {status}")
            tried.ends_with(status)
    return row


for each in (2, 10, 11, 12, 77, 125):
    ROWS.row(f"status {each} ends it")(ending(each))


@ROWS.row("statuses 1 and 13 end it after some runs in a row")
def no_tape(folder):
    with Tried(folder, batch={"longest_pause": 0.01}) as tried:
        tried.stand_in.tell(*["ingest 1"] * 7, "ingest 13")
        tried.ends_with(13)


@ROWS.row("a full log is cut where a window is set")
def full(folder):
    with Tried(folder, window={"keep_events": 1000}) as tried:
        tried.stand_in.tell("ingest 11")
        tried.goes_on()
        tried.relay.stop()
        status, written = tried.relay.run("cut", "1")
        same((status, written), (15, b"refused 35 NothingToCut\n"), "whether events were cut away")


@ROWS.row("without memory it takes fewer messages at once, and ends where one is too much")
def memory(folder):
    with Tried(folder, batch={"interval": 2.0}) as tried:
        tried.stand_in.tell("ingest 14", "ingest kill")
        before = len(tried.stand_in.sizes())
        tried.goes_on(8)
        sizes = tried.stand_in.sizes()[before:]
        expect(max(sizes[1:]) < sizes[0], f"the tapes became no shorter: {sizes}")
        tried.stand_in.tell(*["ingest 14"] * 12)
        tried.ends_with(14, "alone")


@ROWS.row("a run that is killed is run again")
def killed(folder):
    with Tried(folder) as tried:
        tried.stand_in.tell("ingest kill", "ingest kill")
        tried.goes_on()


@ROWS.row("an account that was lost by a run of which nobody heard is brought back")
def lost_untold(folder):
    with Tried(folder) as tried:
        tried.stand_in.tell("ingest untold")
        gap(tried)
        is_back(tried)


@ROWS.row("an account that was lost by a batch that a killed tool left is brought back")
def lost_on_a_tape(folder):
    with Tried(folder) as tried:
        tried.stand_in.tell("ingest untold held")
        gap(tried)
        wait_for(lambda: not tried.stand_in.is_told(), "the run begins")
        tried.relay.child.send_signal(signal.SIGKILL)
        tried.relay.child.wait()
        tried.stand_in.go.touch()
        tried.relay.start()
        is_back(tried)


@ROWS.row("an account that was lost by a run that a signal cut off is brought back")
def lost_at_the_end(folder):
    with Tried(folder) as tried:
        tried.stand_in.tell("ingest untold held")
        gap(tried)
        wait_for(lambda: not tried.stand_in.is_told(), "the run begins")
        tried.relay.child.send_signal(signal.SIGTERM)
        tried.stand_in.go.touch()
        same(tried.relay.ended(), 0, "its end")
        tried.relay.start()
        is_back(tried)


@ROWS.row("a repository that was taken over by a run of which nobody heard reaches consumers")
def taken_over_untold(folder):
    with Tried(folder) as tried:
        tried.stand_in.tell("sync untold")
        gap(tried)
        has_records(tried)
        same(tried.stand_in.is_told(), False, "whether it had to end so")


def gap(tried: Tried) -> None:
    """The host sends a commit that doesn't follow on the former one that it sent."""
    tried.account.commit()
    tried.host.commit(tried.account)


def has_records(tried: Tried) -> None:
    """The consumer has the account's records, though nothing more is sent of it."""
    tried.relay.wait_until_taken(tried.scene.sent())
    wait_for(lambda: tried.reader.consumer.held(tried.account.did) == tried.account.records, "the consumer has the account's records")


def is_back(tried: Tried) -> None:
    """It has, since the relay took over the account's repository."""
    has_records(tried)
    same(tried.relay.metrics()["live_accounts_back_total"], 1, "the accounts that are back")


@ROWS.row("a table that is damaged is written anew with the operator's lines")
def damaged(folder):
    scene = Scene(hosts=1, accounts=2)
    trusted = "did:plc:trusted"
    (folder / "relay").mkdir()
    (folder / "relay/plc.1").write_text(f"trust {trusted}\nhome {trusted} far.example\nhome did:plc:other far.example\n")
    with Relay(folder / "relay", scene.directory.address, [scene.hosts[0].name]) as relay:
        relay.wait_until_taken(scene.sent())
        table = relay.folder / "plc.1"
        table.write_text(table.read_text()[:-5] + "\nnonsense")
        scene.hosts[0].commit(scene.accounts()[0])
        relay.wait_until_taken(scene.sent())
        lines = table.read_text().splitlines()
        same([line for line in lines if trusted in line], [f"trust {trusted}", f"home {trusted} far.example"], "the operator's lines")
        same([line.split()[0] for line in lines if trusted not in line], ["home", "good"], "the other lines")
        expect("is written anew" in relay.words(), f"its words: {relay.words()}")
        same(relay.metrics().get('live_refusals_total{name="BadSignature"}', 0), 0, "what was refused")


@ROWS.row("a full disk is waited for, and nothing is lost")
def full_disk(folder):
    """A disk without room, in memory: hosts wait, consumers and the page are served, and it goes on once there is room."""
    mount = shutil.which("mount")
    place = folder / "small"
    place.mkdir()
    if not mount or subprocess.run([mount, "-t", "tmpfs", "-o", "size=1m", "tmpfs", place], stderr=subprocess.DEVNULL, check=False).returncode:
        raise LeftOut("no small disk can be mounted here")
    try:
        scene = Scene(hosts=1, accounts=1)
        host, account = scene.hosts[0], scene.accounts()[0]
        limits = {"waiting_messages": 8, "longest_pause": 1.0}
        with Relay(place / "relay", scene.directory.address, [host.name], host=limits) as relay:
            reader = Reader(scene.host_names()).start(relay.stream())
            relay.wait_until_taken(scene.sent())
            with open(place / "filler", "wb", buffering=0) as filler, contextlib.suppress(OSError):
                while True:
                    filler.write(bytes(4096))
            for _ in range(30):
                host.commit(account)
            wait_for(lambda: relay.get("/xrpc/_health")[0] == 503, "it says so")
            wait_for(lambda: relay.metrics()[f'live_host_waiting_messages{{host="{host.name}"}}'] == 8, "the host waits")
            expect(reader.cursor < 33, "it took all on a full disk")
            scene.add(host, "new", P256)
            same(relay.get("/")[0], 200, "the page")
            (place / "filler").unlink()
            relay.wait_until_taken(scene.sent())
            wait_for(lambda: reader.cursor == 36, "the consumer has all")
            reader.stop()
            same(reader.numbers, list(range(1, 37)), "what the consumer got")
            same(relay.stop(signal.SIGTERM)[0], 0, "its end")
    finally:
        subprocess.run([shutil.which("umount"), "-l", place], check=False)


@ROWS.row("queries whose run fails are answered so, and the next ones anew")
def queries_fail(folder):
    with Tried(folder) as tried:
        target = f"/xrpc/com.atproto.sync.getRepoStatus?did={tried.account.did}"
        tried.stand_in.tell("query 19")
        same(tried.relay.get(target)[0], 503, "while its port is taken")
        same(tried.relay.get(target)[0], 200, "once it is free")


@ROWS.row("a disk that fails at the start is waited for")
def fails_at_the_start(folder):
    tried = Tried(folder)
    tried.stand_in.tell("ingest 5", "ingest 5", "hosts 5")
    with tried:
        tried.goes_on()
        expect("it is tried again" in tried.relay.words(), f"its words: {tried.relay.words()}")
