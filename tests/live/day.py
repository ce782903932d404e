"""A live day: honest and hostile hosts, and three consumers that come, go, break off and come back."""
import random
import threading
import time

from rows import Rows, Wrong, expect, same

from clients import Reader, read, taken
from live_tool import SOON, Relay, wait_for
from scene import P256, Hostile, Scene, Shared

ROWS = Rows()
LONG = {"steps": 240, "pause": 0.4}
QUICK = {"steps": 30, "pause": 0.1}
LENGTH = LONG
DISTURBANCES = 3  # by the hostile host
TRIES = 10


@ROWS.row("three consumers hold every account's records")
def three_consumers(folder):
    """Consumers hold what the hosts hold, though they come and go, hosts break off, and one host is hostile."""
    scene = Scene(hosts=2)
    hostile = Hostile(scene)
    names = [*(host.name for host in scene.hosts), hostile.host.name]
    scene.home[hostile.eve.did] = hostile.host
    with Relay(folder / "day", scene.directory.address, names) as relay:
        gaps = (None, (0.5, 3.0), (2.0, 6.0))
        readers = [Reader(scene.host_names(), 0, gap, random.Random(i)).start(relay.stream()) for i, gap in enumerate(gaps)]
        going_on = scene.go_on(LENGTH["steps"], LENGTH["pause"])
        for i in range(DISTURBANCES):
            scene.hosts[i % 2].breaks.append(5)  # the next stream of this host breaks off after five messages
            hostile.act()
            time.sleep(LENGTH["steps"] * LENGTH["pause"] / DISTURBANCES / 2)
        going_on.join()
        relay.wait_until_taken(scene.sent())
        last = relay.metrics()["live_last_number"]
        for reader in readers:
            wait_for(lambda reader=reader: reader.cursor >= last, f"a consumer comes to number {last:.0f}")
            reader.stop()
        compare(scene, readers)
        same(relay.stop()[0], 0, "the status of the tool")
        in_order(relay, readers)
        expect(readers[1].connections > 1, "the second consumer never came back")


def compare(scene, readers):
    """The records that consumers hold are those of the hosts."""
    for reader in readers:
        same(reader.consumer.faults, [], "what didn't fit")
        for account in scene.accounts():
            same(reader.consumer.held(account.did), account.records, f"the records of {account.name}")


def in_order(relay, readers):
    """Each event came once, in order, with the bytes that the program writes of the whole journal."""
    status, written = relay.run("replay", "0")
    same(status, 0, "the status of the replay")
    messages = {}
    while written:
        size = int.from_bytes(written[:4], "big")
        message, written = written[4:4 + size], written[4 + size:]
        messages[number(message)] = message
    for reader in readers:
        same(reader.numbers, sorted(messages), "the numbers that came")
        same(reader.messages, messages, "the messages that came")
        same(reader.notices, [], "the notices that came")


def passes_by(relay, scene, slow_host, slow):
    """Whether a host's messages are taken while that of a slow one waits."""
    before = len(slow_host.events)
    slow_host.commit(slow)
    wait_for(lambda: relay.metrics()[f'live_host_waiting_messages{{host="{slow_host.name}"}}'] == 1
             or relay.cursors()[slow_host.name] > before, "its message waits")
    for _ in range(5):
        scene.step()
    wait_for(lambda: relay.cursors()[scene.hosts[0].name] == len(scene.hosts[0].events), "the other host's messages are taken")
    if relay.cursors()[slow_host.name] == before:
        return True
    wait_for(lambda: relay.cursors()[slow_host.name] == len(slow_host.events), "the slow host's message is taken at last")
    return False


def number(message):
    return read(message)[1]["seq"]


@ROWS.row("a consumer without a cursor gets what comes from then on")
def from_now_on(folder):
    scene = Scene(hosts=1)
    with Relay(folder / "day", scene.directory.address, [scene.hosts[0].name]) as relay:
        relay.wait_until_taken(scene.sent())
        before = relay.metrics()["live_last_number"]
        found = []
        thread = threading.Thread(target=lambda: found.extend(taken(relay.stream(), 2)))
        thread.start()
        wait_for(lambda: relay.metrics()["live_consumers"] == 1, "the consumer is there")
        scene.hosts[0].commit(scene.accounts()[0])
        scene.hosts[0].commit(scene.accounts()[1])
        thread.join()
        same([number(message) for message in found], [before + 1, before + 2], "the numbers that came")


@ROWS.row("notices are those of replay")
def notices(folder):
    """Cursors that are too new, too old or none: what comes is what the program writes."""
    scene = Scene(hosts=1)
    with Relay(folder / "day", scene.directory.address, [scene.hosts[0].name]) as relay:
        relay.wait_until_taken(scene.sent())
        same(taken(f"{relay.stream()}?cursor=99999", 2), [bytes.fromhex("a1626f7020") + bytes.fromhex("a1656572726f726c467574757265437572736f72")],
             "what comes of a cursor that is too new")
        same(relay.command("cut", "3"), (0, f"cut 3 oldest 4 last {int(relay.metrics()['live_last_number'])}"), "a cut")
        got = taken(f"{relay.stream()}?cursor=1", 3)
        same(got[0], bytes.fromhex("a261746523696e666f626f7001") + bytes.fromhex("a1646e616d656e4f75746461746564437572736f72"), "the notice")
        same([number(message) for message in got[1:]], [4, 5], "the events after it")
        same([number(message) for message in taken(f"{relay.stream()}?cursor=3", 2)], [4, 5], "after a cursor that isn't too old")
        for cursor in ("x", "-1", "", "9007199254740992"):
            same(relay.get(f"/xrpc/com.atproto.sync.subscribeRepos?cursor={cursor}")[0], 400, f"the cursor {cursor!r}")


@ROWS.row("a host whose names answer slowly delays no other")
def slow_names(folder):
    """While the document of an account is on its way for long, other hosts' messages are taken; a signal doesn't wait for it. It is
    waited for for some seconds alone, in which a busy machine may do nothing else: so this is tried more than once."""
    scene = Scene(hosts=1, accounts=2)
    hostile = Hostile(scene)
    port = hostile.host.server.server_port
    slow = Shared("slow", P256, f"did:web:localhost%3A{port}")
    with Relay(folder / "names", scene.directory.address, [scene.hosts[0].name, hostile.host.name], documents={"patience": 600.0}) as relay:
        relay.wait_until_taken({**scene.sent(), hostile.host.name: len(hostile.host.events)})
        hostile.host.web, hostile.host.slowness = slow, 5.0  # the document's bytes take half an hour or more
        for _ in range(TRIES):
            if passes_by(relay, scene, hostile.host, slow):
                break
        else:
            raise Wrong("other messages were never taken while the slow host's one waited")
        status, seconds = relay.stop()
        same((status, seconds < SOON), (0, True), f"its end, after {seconds:.1f} seconds")
