"""An operator's commands to a live relay that runs, its window, hosts that ask to be followed, lost accounts, and TLS."""
import json
import ssl
import subprocess
import sys
import time

from rows import Rows, expect, needs, same

from clients import Reader, read, taken
from live_tool import TOOL, WAIT, Relay, wait_for
from scene import Scene

ROWS = Rows()


def kinds(messages):
    """What messages are: number, kind, account."""
    told = [read(message) for message in messages]
    return [(payload["seq"], header["t"], payload.get("repo") or payload.get("did")) for header, payload in told]


@ROWS.row("takedown and restore reach consumers, and what is shown follows")
def takedown(folder):
    scene = Scene(hosts=1, accounts=2)
    host, (first, second) = scene.hosts[0], scene.accounts()
    with Relay(folder / "down", scene.directory.address, [host.name]) as relay:
        reader = Reader(scene.host_names()).start(relay.stream())
        relay.wait_until_taken(scene.sent())
        wait_for(lambda: reader.cursor == 6, "all events")
        all_kinds = [(1, "#identity", first.did), (2, "#account", first.did), (3, "#commit", first.did),
                     (4, "#identity", second.did), (5, "#account", second.did), (6, "#commit", second.did)]
        same(kinds(taken(f"{relay.stream()}?cursor=0", 6)), all_kinds, "the events")
        same(relay.command("takedown", first.did), (0, "event 7"), "a takedown")
        wait_for(lambda: reader.cursor == 7, "its event")
        hidden = [each for each in all_kinds if each[0] != 3]
        down = [*hidden, (7, "#account", first.did)]
        same(kinds(taken(f"{relay.stream()}?cursor=0", 6)), down, "what is shown then")
        same(relay.command("takedown", first.did), (15, "refused 31 AlreadyDown"), "a second takedown")
        same(relay.command("restore", first.did), (0, "event 8"), "taking it back")
        same(kinds(taken(f"{relay.stream()}?cursor=0", 8)), [*all_kinds, (7, "#account", first.did), (8, "#account", first.did)], "what is shown at last")
        reader.stop()
        same(reader.numbers, list(range(1, 9)), "what the consumer got")


@ROWS.row("an account that its host takes down is hidden in memory, too")
def taken_down_by_its_host(folder):
    scene = Scene(hosts=1, accounts=2)
    host, (first, second) = scene.hosts[0], scene.accounts()
    with Relay(folder / "hidden", scene.directory.address, [host.name]) as relay:
        host.commit(first)
        relay.wait_until_taken(scene.sent())
        host.state(first, False, "takendown")
        host.commit(second)
        relay.wait_until_taken(scene.sent())
        shown = [(1, "#identity"), (2, "#account"), (4, "#identity"), (5, "#account"), (6, "#commit"), (8, "#account"), (9, "#commit")]
        same([each[:2] for each in kinds(taken(f"{relay.stream()}?cursor=0", 7))], shown, "while it is down")
        host.state(first, True)
        relay.wait_until_taken(scene.sent())
        same([each[0] for each in kinds(taken(f"{relay.stream()}?cursor=0", 10))], list(range(1, 11)), "once it is back")


@ROWS.row("commands that are none, and stop")
def commands(folder):
    scene = Scene(hosts=1, accounts=1)
    with Relay(folder / "words", scene.directory.address, [scene.hosts[0].name]) as relay:
        relay.wait_until_taken(scene.sent())
        same((relay.folder / "live.sock").stat().st_mode & 0o777, 0o600, "who may give commands")
        for given in (["frobnicate"], ["takedown"], ["takedown", "nobody"], ["cut"], ["cut", "-1"], ["cut", "many"], ["sync", "x"]):
            same(relay.command(*given)[0], 2, f"the status of {given}")
        same(relay.command("cut", "99"), (15, "refused 36 PastEnd"), "a cut past the end")
        status, said = relay.command("status")
        same((status, said.splitlines()[0]), (0, "last 3"), "its status")
        expect(f"host {scene.hosts[0].name} cursor 3 waiting 0 connected" in said, f"the host in {said!r}")
        done = subprocess.run([sys.executable, TOOL, relay.folder], stdin=subprocess.DEVNULL, capture_output=True, text=True, check=False, timeout=WAIT)
        same((done.returncode, "another live relay works on this folder" in done.stderr), (5, True), "a second one on the folder")
        same(relay.command("stop"), (0, "stopping"), "stop")
        same(relay.ended(), 0, "its status")
        same((relay.folder / "live.sock").exists(), False, "its socket is there")


@ROWS.row("a lost account is fetched and taken over, and its file goes")
def lost(folder):
    scene = Scene(hosts=1, accounts=1)
    host, account = scene.hosts[0], scene.accounts()[0]
    with Relay(folder / "lost", scene.directory.address, [host.name]) as relay:
        relay.wait_until_taken(scene.sent())
        old = account.repository()
        account.commit()
        host.repositories[account.did] = old  # the host gives out an old one
        host.commit(account)
        wait_for(lambda: relay.metrics()["live_failed_fetches_total"] >= 2, "two tries that fail")
        expect("has revision" in relay.command("status")[1], "why it fails isn't said")
        wait_for(lambda: not list((relay.folder / "repos").iterdir()), "between two tries no file is left")
        done = subprocess.run([sys.executable, TOOL, relay.folder], stdin=subprocess.DEVNULL, capture_output=True, check=False, timeout=WAIT)
        same((done.returncode, account.did in (relay.folder / "live.lost").read_text()), (5, True), "what a second one on the folder leaves")
        same(read(taken(f"{relay.stream()}?cursor=0", 3)[-1])[1]["seq"], 3, "the last event")
        host.repositories.clear()
        relay.wait_until_taken(scene.sent())
        same([kind for _, kind, _ in kinds(taken(f"{relay.stream()}?cursor=3", 1))], ["#sync"], "what went out")
        same(list((relay.folder / "repos").iterdir()), [], "the files that are left")
        account.commit()
        host.commit(account)
        relay.wait_until_taken(scene.sent())
        status, said = relay.command("sync", account.did)
        expect(status == 0 and said.startswith("synced "), f"sync at the operator's word: {status} {said}")
        relay.stop()
        line = relay.run("account", account.did)[1].decode().split()
        same(line[4:6], ["good", account.rev], "what the relay knows of it")


@ROWS.row("who is lost is known after a restart")
def lost_still(folder):
    scene = Scene(hosts=1, accounts=1)
    host, account = scene.hosts[0], scene.accounts()[0]
    with Relay(folder / "lost", scene.directory.address, [host.name]) as relay:
        relay.wait_until_taken(scene.sent())
        host.repositories[account.did] = account.repository()
        account.commit()
        host.commit(account)
        wait_for(lambda: relay.metrics()["live_failed_fetches_total"] >= 1, "a try that fails")
        relay.stop()
        host.repositories.clear()
        relay.start()
        wait_for(lambda: relay.metrics()["live_accounts_back_total"] == 1, "it is back")


@ROWS.row("old events are cut away")
def window(folder):
    """All are taken at once, since where there is a look at the window in the midst of them it is cut elsewhere."""
    scene = Scene(hosts=1, accounts=1)
    host, account = scene.hosts[0], scene.accounts()[0]
    for _ in range(20):
        host.commit(account)
    at_once = {"messages": len(host.events), "interval": 5.0}
    with Relay(folder / "window", scene.directory.address, [host.name], window={"keep_events": 10}, batch=at_once) as relay:
        relay.wait_until_taken(scene.sent())
        wait_for(lambda: "cut 13 oldest 14 last 23" in relay.words(), "a cut")
        got = taken(f"{relay.stream()}?cursor=1", 11)
        same(read(got[0])[1], {"name": "OutdatedCursor"}, "the notice")
        same([seq for seq, _, _ in kinds(got[1:])], list(range(14, 24)), "what is left")
        host.commit(account)
        relay.wait_until_taken(scene.sent())
        same(read(taken(f"{relay.stream()}?cursor=23", 1)[0])[1]["seq"], 24, "the next event")


@ROWS.row("events of some hours are kept, after a restart, too")
def hours(folder):
    scene = Scene(hosts=1, accounts=1)
    with Relay(folder / "hours", scene.directory.address, [scene.hosts[0].name], window={"keep_hours": 20.0}) as relay:
        relay.wait_until_taken(scene.sent())
        moments = relay.folder / "live.moments"
        wait_for(lambda: moments.exists() and moments.read_text().endswith(" 3\n"), "the number that was reached is kept")
        relay.stop()
        moments.write_text(f"{time.time() - 21 * 3600:.0f} 2\n{time.time() - 19 * 3600:.0f} 3\n")
        relay.start()
        wait_for(lambda: "cut 2 oldest 3 last 3" in relay.words(), "a cut")


@ROWS.row("hosts that ask to be followed are, where they are let in")
def crawl(folder):
    scene = Scene(hosts=2, accounts=1)
    first, second = scene.hosts
    with Relay(folder / "crawl", scene.directory.address, [], let_in=[first.name]) as relay:
        ask = lambda content, **kind: relay.post("/xrpc/com.atproto.sync.requestCrawl", content, **kind)  # noqa: E731
        status, content = ask(json.dumps({"hostname": second.name}).encode())
        same((status, json.loads(content)["error"]), (400, "HostBanned"), "one that isn't let in")
        for wrong in (b"", b"[]", b"{}", b'{"hostname": 5}', b'{"hostname": "a b"}', b"[" * 3000, b"\xff"):
            status, content = ask(wrong)
            same((status, json.loads(content)["error"]), (400, "InvalidRequest"), f"the request {wrong[:20]!r}")
        same(ask(json.dumps({"hostname": first.name}).encode(), kind="text/plain")[0], 400, "a request of a page of another origin")
        same(relay.get("/xrpc/com.atproto.sync.requestCrawl")[0], 405, "another method")
        same(ask(json.dumps({"hostname": first.name}).encode()), (200, b"{}"), "one that is let in")
        same(ask(json.dumps({"hostname": first.name}).encode()), (200, b"{}"), "the same once more")
        relay.wait_until_taken({first.name: len(first.events)})
        relay.stop()
        first.commit(scene.accounts()[0])
        relay.start()
        relay.wait_until_taken({first.name: len(first.events)})


@ROWS.row("hosts and the directory are reached by TLS that the machine trusts, and at public addresses alone")
def tls(folder):
    key, certificate = folder / "key", folder / "certificate"
    words = [needs("openssl"), "req", "-x509", "-newkey", "ec", "-pkeyopt", "ec_paramgen_curve:prime256v1", "-nodes", "-days", "1",
             "-subj", "/CN=localhost", "-addext", "subjectAltName=DNS:localhost", "-keyout", key, "-out", certificate]
    subprocess.run(words, stdout=subprocess.DEVNULL, stderr=subprocess.DEVNULL, check=True)
    context = ssl.SSLContext(ssl.PROTOCOL_TLS_SERVER)
    context.load_cert_chain(certificate, key)
    scene = Scene(hosts=1, accounts=1, context=context)
    names = [scene.hosts[0].name]
    with Relay(folder / "public", scene.directory.address, names, plain=False) as relay:
        wait_for(lambda: "isn't public" in relay.command("status")[1], "a private address is refused")
    with Relay(folder / "strange", scene.directory.address, names, plain=False, private=True) as relay:
        wait_for(lambda: "certificate" in relay.command("status")[1], "a certificate that nobody trusts is refused")
    relay = Relay(folder / "trusted", scene.directory.address, names, plain=False, private=True)
    relay.environment["SSL_CERT_FILE"] = str(certificate)
    with relay:
        relay.wait_until_taken(scene.sent())
        same(relay.metrics()["live_last_number"], 3, "the events")
