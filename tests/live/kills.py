"""Tool and relay are killed at random moments, and nothing is lost, and nothing comes twice."""
import contextlib
import os
import pathlib
import random
import signal
import time

from rows import Rows, Wrong, same

import day
from clients import Reader
from live_tool import SOON, Relay, wait_for
from scene import Scene

ROWS = Rows()
LONG, QUICK = 20, 3
KILLS = LONG
TRIES = 30


def children(number: int) -> "list[int]":
    """The processes that a process started and that are there still."""
    found = []
    for path in pathlib.Path(f"/proc/{number}/task").glob("*/children"):
        with contextlib.suppress(OSError):  # a thread that ended meanwhile
            found += map(int, path.read_text().split())
    return found


@ROWS.row("kills at random moments lose nothing")
def killed(folder):
    scene, draw = Scene(hosts=2, accounts=2, seed=2), random.Random(7)
    relay = Relay(folder / "killed", scene.directory.address, [host.name for host in scene.hosts])
    with relay:
        reader = Reader(scene.host_names(), 0, None, random.Random(3)).start(relay.stream())
        for i in range(KILLS):
            going_on = scene.go_on(6, 0.1)
            time.sleep(draw.uniform(0.0, 1.5))
            if draw.random() < 0.5:
                relay.child.send_signal(signal.SIGKILL)
                relay.child.wait()
                relay.start()
            else:
                for _ in range(TRIES):
                    if kill_a_run(relay):
                        break
                    going_on.join()
                    going_on = scene.go_on(6, 0.1)
                else:
                    raise Wrong(f"no run of the relay was seen while {TRIES} times six messages came")
            going_on.join()
        relay.wait_until_taken(scene.sent())
        last = relay.metrics()["live_last_number"]
        wait_for(lambda: reader.cursor >= last, f"the consumer comes to number {last:.0f}")
        reader.stop()
        day.compare(scene, [reader])
        status, seconds = relay.stop()
        same((status, seconds < SOON), (0, True), f"its end, after {seconds:.1f} seconds")
        day.in_order(relay, [reader])
        same(sorted(path.name for path in relay.folder.glob("live.tape*")), [], "the tapes that are left")


def kill_a_run(relay: Relay) -> bool:
    """Kills a run of the relay, as soon as there is one, which may last milliseconds; whether there was one within two seconds."""
    end = time.monotonic() + 2
    while time.monotonic() < end and relay.child.poll() is None:
        runs = children(relay.child.pid)
        for number in runs:
            with contextlib.suppress(ProcessLookupError):
                os.kill(number, signal.SIGKILL)
        if runs:
            return True
    return False


@ROWS.row("a signal ends it soon, and what wasn't taken comes again")
def ended(folder):
    scene = Scene(hosts=1, seed=3)
    relay = Relay(folder / "ended", scene.directory.address, [host.name for host in scene.hosts], batch={"interval": 3600.0})
    with relay:
        wait_for(lambda: relay.metrics()[f'live_host_waiting_messages{{host="{scene.hosts[0].name}"}}'] > 0, "something waits")
        status, seconds = relay.stop()
        same((status, seconds < SOON), (0, True), f"its end, after {seconds:.1f} seconds")
        relay.start("--interval", "0.2")
        relay.wait_until_taken(scene.sent())
        same(relay.stop(signal.SIGINT)[0], 0, "its end by another signal")
