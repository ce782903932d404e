"""Queries, hosts, health, metrics, and the page in a browser."""
import base64
import hashlib
import json
import re
import shutil
import subprocess
import tempfile
import urllib.request

from prometheus_client.parser import text_string_to_metric_families
from rows import LeftOut, Rows, expect, same

from clients import Reader
from live_tool import Relay, wait_for
from scene import Scene

ROWS = Rows()
BROWSERS = ("chromium-headless-shell", "chromium", "chromium-browser", "google-chrome")
SYNC = "/xrpc/com.atproto.sync."


def link_of(block: bytes) -> str:
    """The text of the link of a block."""
    return "b" + base64.b32encode(b"\x01\x71\x12\x20" + hashlib.sha256(block).digest()).decode().lower().rstrip("=")


@ROWS.row("queries are answered with the relay's own replies, and follow the journal")
def queries(folder):
    scene = Scene(hosts=1, accounts=3)
    host, accounts = scene.hosts[0], sorted(scene.accounts(), key=lambda account: account.did)
    with Relay(folder / "queries", scene.directory.address, [host.name]) as relay:
        relay.wait_until_taken(scene.sent())
        for _ in range(2):
            for account in accounts:
                wanted = {"cid": link_of(account.block), "rev": account.rev}
                status, content = relay.get(f"{SYNC}getLatestCommit?did={account.did}")
                same((status, json.loads(content)), (200, wanted), "the latest commit")
            host.commit(accounts[0])
            relay.wait_until_taken(scene.sent())
        status, content = relay.get(f"{SYNC}listRepos?limit=2")
        listed = json.loads(content)
        same([each["did"] for each in listed["repos"]], [account.did for account in accounts[:2]], "the accounts")
        same([each["head"] for each in listed["repos"]], [link_of(account.block) for account in accounts[:2]], "their commits")
        rest = json.loads(relay.get(f"{SYNC}listRepos?limit=2&cursor={listed['cursor']}")[1])
        same([each["did"] for each in rest["repos"]], [accounts[2].did], "the rest of the accounts")
        same(json.loads(relay.get(f"{SYNC}getRepoStatus?did={accounts[1].did}")[1]), {"active": True, "did": accounts[1].did, "rev": accounts[1].rev},
             "the state of an account")
        status, content = relay.get(f"{SYNC}getRepoStatus?did=did:plc:nobody")
        same((status, json.loads(content)["error"]), (404, "RepoNotFound") if status == 404 else (400, "RepoNotFound"), "an account that isn't there")
        same(relay.get(f"{SYNC}getRepoStatus")[0], 400, "without an account")
        same(relay.get(f"{SYNC}getRepoStatus?did={'x' * 7200}")[0] in (400, 414), True, "with a name that is too long")
        same(relay.get("/xrpc/com.atproto.sync.getRepo?did=x")[0], 404, "another method")
        asked = urllib.request.Request(f"{relay.address}{SYNC}listRepos", method="OPTIONS")
        with urllib.request.urlopen(asked, timeout=60) as answer:
            same((answer.status, answer.headers["Access-Control-Allow-Origin"]), (204, "*"), "what a page of another origin asks first")


@ROWS.row("hosts are listed with where the journal is, and health and metrics are there")
def listed(folder):
    scene = Scene(hosts=2, accounts=1)
    names = sorted(host.name for host in scene.hosts)
    with Relay(folder / "hosts", scene.directory.address, names) as relay:
        relay.wait_until_taken(scene.sent())
        wanted = [{"hostname": name, "status": "active", "seq": 3} for name in names]
        same(json.loads(relay.get(f"{SYNC}listHosts")[1]), {"hosts": wanted}, "the hosts")
        same(json.loads(relay.get(f"{SYNC}listHosts?limit=1")[1]), {"hosts": wanted[:1], "cursor": names[0]}, "the first one")
        same(json.loads(relay.get(f"{SYNC}listHosts?limit=1&cursor={names[0]}")[1]), {"hosts": wanted[1:]}, "the rest")
        for limit in ("0", "1001", "x", ""):
            same(relay.get(f"{SYNC}listHosts?limit={limit}")[0], 400, f"the limit {limit!r}")
        same(json.loads(relay.get(f"{SYNC}getHostStatus?hostname={names[1]}")[1]), wanted[1], "a host")
        status, content = relay.get(f"{SYNC}getHostStatus?hostname=nobody.example")
        same((status, json.loads(content)["error"]), (400, "HostNotFound"), "a host that isn't followed")
        same(relay.get(f"{SYNC}getHostStatus")[0], 400, "without a name")
        status, content = relay.get("/xrpc/_health")
        same((status, list(json.loads(content))), (200, ["version"]), "its health")
        families = {family.name: family for family in text_string_to_metric_families(relay.get("/metrics")[1].decode())}
        same({sample.labels["host"]: sample.value for sample in families["live_host_cursor"].samples}, {name: 3.0 for name in names}, "the cursors")
        same([sample.value for sample in families["live_events"].samples], [6.0], "the events")
        expect(all(family.documentation for family in families.values()), "a measure without words")
        same(relay.stop()[0], 0, "its end")


def browser() -> str:
    found = next(filter(None, map(shutil.which, BROWSERS)), None)
    if found is None:
        raise LeftOut("no browser (chromium) is installed")
    return found


def shown_in(program: str, address: str, milliseconds: int) -> str:
    """The page as it stands in a browser after some time, in words."""
    with tempfile.TemporaryDirectory() as room:
        words = [program, "--headless", "--no-sandbox", "--disable-gpu", "--disable-dev-shm-usage", f"--user-data-dir={room}",
                 f"--virtual-time-budget={milliseconds}", "--dump-dom", address]
        done = subprocess.run(words, stdin=subprocess.DEVNULL, stdout=subprocess.PIPE, stderr=subprocess.DEVNULL, check=False, timeout=240)
    return done.stdout.decode("utf-8", "replace")


@ROWS.row("the page shows it at a glance, in a browser")
def page(folder):
    program = browser()
    scene = Scene(hosts=1, accounts=2)
    host, account = scene.hosts[0], scene.accounts()[0]
    with Relay(folder / "page", scene.directory.address, [host.name]) as relay:
        relay.wait_until_taken(scene.sent())
        reader = Reader(scene.host_names()).start(relay.stream())
        account.commit()
        host.commit(account)
        host.emit("#commit", {"repo": account.did, "seq": 0})
        relay.wait_until_taken(scene.sent())
        wait_for(lambda: reader.connections == 1, "a consumer is there")
        text = shown_in(program, relay.address + "/", 200)
        last = int(relay.metrics()["live_last_number"])
        expect(f'<b id="last">{last}</b>' in text, f"the last number {last} isn't shown: {text[-3000:]}")
        for words in (host.name, account.did, "connected", "Gap", "BadEvent", "127.0.0.1", "sync"):
            expect(words in text, f"{words} isn't shown: {text[-3000:]}")
        renewed(program, relay, host, account)
        reader.stop()


def renewed(program: str, relay: Relay, host, account) -> None:
    """The page renews itself: a number that is given while it stands there is shown."""
    before = int(relay.metrics()["live_last_number"])
    page_of = relay.get("/")[1].decode()
    part = relay.get("/?part=main")[1].decode()
    expect(re.sub(r"\d+ s ago|\d+\.\d", "", part) in re.sub(r"\d+ s ago|\d+\.\d", "", page_of), "the part isn't that of the page")
    expect("<script>" in page_of and 'http-equiv="refresh"' in page_of, "nothing renews it")
    host.commit(account)
    relay.wait_until_taken({host.name: len(host.events)})
    text = shown_in(program, relay.address + "/", 10_000)
    expect(f'<b id="last">{before + 1}</b>' in text, f"number {before + 1} isn't shown after some seconds")
    expect("<title>Relay</title>" in text, "the page says that the relay isn't reached")


@ROWS.row("names of others can't add to the page")
def escaped(folder):
    """What hosts send is shown as text."""
    scene = Scene(hosts=1, accounts=1)
    with Relay(folder / "escaped", scene.directory.address, [scene.hosts[0].name]) as relay:
        relay.wait_until_taken(scene.sent())
        scene.hosts[0].breaks.append(0)
        scene.hosts[0].farewell = b"\xa1\x62op\x20\xa1\x65error\x78\x18<script>alert(1)</script"
        with scene.hosts[0].news:
            pass
        scene.hosts[0].server.shutdown()
        status, content = relay.get("/")
        same((status, b"<script>alert" in content), (200, False), "the page")
