"""The tools where something hinders them: connections, disks, directories and hosts that fail, and kills at random moments."""
import contextlib
import os
import pathlib
import random
import re
import resource
import signal
import ssl
import subprocess
import sys
import time

sys.path.insert(0, str(pathlib.Path(__file__).resolve().parents[1]))
import program  # noqa: E402
from accounts import SECP256K1, Account, Key  # noqa: E402
from hosts import FUTURE, TOO_SLOW, Directory, Host  # noqa: E402
from world import TOOLS, WAIT, World, tool  # noqa: E402

LONGEST = 8_388_608
NO_TAPE, FAILED, DISK, BAD_TABLE, TOO_LONG, NO_RELAY = 3, 4, 5, 6, 6, 7
TABLES = ("plc.1", "web.1")


class Torn(Exception):
    """A tape that has a record which isn't whole."""


def whole(path: pathlib.Path) -> "list[tuple[str, bytes]]":
    """The records of a tape, all of them whole; there may be none yet."""
    content = path.read_bytes() if path.exists() else b""
    found = list(program.records(content))
    if b"".join(program.record(host, message) for host, message in found) != content:
        raise Torn(path)
    return found


def tape_of(host: Host, first: int = 0, last: "int | None" = None) -> bytes:
    """The records of a host's events."""
    return b"".join(program.record(host.name, message) for message, _ in host.events[first:last])


def small_files(size: int) -> dict:
    """The option under which a run can write no file longer than this, as where a disk is full."""
    return {"preexec_fn": lambda: resource.setrlimit(resource.RLIMIT_FSIZE, (size, size))}


def contents(folder: pathlib.Path) -> dict:
    return {path.name: path.read_bytes() for path in sorted(folder.iterdir()) if path.is_file()}


# Recording.


def recording(world: World):
    """Recordings that are broken off, refused, stopped, or beside one another."""
    host = world.hosts[1]
    tape, sent = world.room / "hindered", tape_of(world.hosts[1])
    host.breaks = [5, 7, 0, 3]
    got = tool("record", host.name, tape, "--plain", "--cursor", 0, "--messages", len(host.events))
    yield "connections that break off", (got[0], tape.read_bytes() == sent, host.breaks), (0, True, [])
    yield "each is reported", got[2].count("; again in "), 4
    tape.unlink()
    host.breaks, host.farewell = [4], TOO_SLOW
    got = tool("record", host.name, tape, "--plain", "--cursor", 0, "--messages", len(host.events))
    host.farewell = b""
    yield "a host to which it is too slow", (got[0], "ConsumerTooSlow" in got[2], tape.read_bytes() == sent), (0, True, True)
    tape.write_bytes(sent[:-10])
    tape.with_name(f".{tape.name}.last").unlink()
    got = tool("record", host.name, tape, "--plain", "--messages", 1)
    yield "a torn record of another program", (got[0], "is torn" in got[2], tape.read_bytes() == sent[:-10]), (NO_TAPE, True, True)
    got = tool("record", host.name, tape, "--plain", "--messages", 1, "--repair")
    yield "repaired", (got[0], tape.read_bytes() == sent), (0, True)
    last = len(tape_of(host, len(host.events) - 1))
    tape.write_bytes(sent[:-10])
    tape.with_name(f".{tape.name}.last").write_text(f"{len(sent) - last} {last}\n")
    got = tool("record", host.name, tape, "--plain", "--messages", 1)
    yield "a torn record of a recording that was killed", (got[0], "cut" in got[2], tape.read_bytes() == sent), (0, True, True)
    tape.write_bytes(sent[:-last])
    other = world.room / "after"
    got = tool("record", host.name, other, "--plain", "--after", tape, "--messages", 1)
    yield "going on after another tape", (got[0], tape.read_bytes() + other.read_bytes() == sent), (0, True)
    tape.write_bytes(sent + b"\0\0\0\0")
    got = tool("record", host.name, tape, "--plain", "--messages", 1, "--repair")
    yield "what is no tape", (got[0], tape.read_bytes() == sent + b"\0\0\0\0"), (NO_TAPE, True)
    tape.write_bytes(sent)
    got = tool("record", host.name, tape, "--plain", "--name", "other.example", "--cursor", len(host.events) + 5, "--seconds", 20)
    yield "a cursor that is ahead", (got[0], "FutureCursor" in got[2], tape.read_bytes() == sent), (FAILED, True, True)
    got = tool("record", world.directory.server.name(), tape, "--plain")
    yield "a host that has no stream", (got[0], "404" in got[2]), (FAILED, True)
    got = tool("record", host.name, tape, "--plain", "--from", world.folder, "--relay", world.room / "nobody")
    yield "a relay that isn't there", got[0], NO_RELAY
    yield "words that are none", [tool("record", *words)[0] for words in ((), ("A B", tape), ("a..b", tape), (host.name, tape, "--messages", 0))], [2, 2, 2, 2]
    yield from limits(world, host, tape)
    yield from long_messages(world)


def on_a_terminal(name: str, *words) -> "tuple[int, str]":
    """The status of a tool's run whose standard error is a terminal, and what it says there."""
    ours, theirs = os.openpty()
    with subprocess.Popen([sys.executable, TOOLS / name, *map(str, words)], stdout=subprocess.DEVNULL, stderr=theirs) as child:
        os.close(theirs)
        said = b""
        with contextlib.suppress(OSError):  # the end of a terminal whose other side is closed
            while piece := os.read(ours, 4096):
                said += piece
    os.close(ours)
    return child.returncode, said.decode()


def progress(world: World):
    """Each tool says on a terminal how far it is."""
    host, folder, tape = world.hosts[0], world.copy("terminal"), world.room / "terminal-tape"
    words = ("--plain", "--plc", world.directory.address)
    status, said = on_a_terminal("record", host.name, tape, "--plain", "--cursor", host.first, "--seconds", 8)
    yield "record on a terminal", (status, f"record: {len(host.events) - host.first} messages, " in said), (0, True)
    status, said = on_a_terminal("vouch", folder, tape, *words)
    yield "vouch on a terminal", (status, " accounts, " in said, "\r" in said), (0, True, True)
    status, said = on_a_terminal("repositories", folder, "--did", world.ada.did, "--no-sync", *words)
    shown = re.search(rf"{world.ada.did} [1-9]\d* bytes|[01] of 1 (accounts|commits), ", said) is not None
    yield "repositories on a terminal", (status, shown), (0, True)


def limits(world: World, host: Host, tape: pathlib.Path):
    """What ends a recording: bytes, seconds, signals, and a disk that is full."""
    sent = tape_of(host)
    tape.unlink()
    got = tool("record", host.name, tape, "--plain", "--cursor", 0, "--bytes", len(sent) // 2)
    count = len(whole(tape))
    size = len(tape_of(host, 0, count))
    yield "a limit of bytes", (got[:2], size - len(sent) // 2 < 10_000), ((0, f"end {count} bytes {size} cursor {count} place {size}\n"), True)
    begun = time.monotonic()
    got = tool("record", host.name, tape, "--plain", "--seconds", 6)
    yield "a limit of seconds", (got[0], tape.read_bytes() == sent, 5.5 < time.monotonic() - begun < 60), (0, True, True)
    for name in (signal.SIGTERM, signal.SIGINT, signal.SIGHUP):
        tape.unlink()
        with started("record", host.name, tape, "--plain", "--cursor", "0") as child:
            end = time.monotonic() + WAIT
            while (not tape.exists() or tape.stat().st_size < len(sent)) and time.monotonic() < end:
                time.sleep(0.02)
            child.send_signal(name)
            out, _ = child.communicate(timeout=WAIT)
        line = f"end {len(host.events)} bytes {len(sent)} cursor {len(host.events)} place {len(sent)}\n"
        yield f"stopped by {name.name}", (child.returncode, out.decode()), (0, line)
    tape.unlink()
    got = tool("record", host.name, tape, "--plain", "--cursor", 0, "--seconds", 20, **small_files(len(sent) // 2))
    yield "a full disk", (got[0], sent.startswith(tape.read_bytes()), len(whole(tape)) > 3), (DISK, True, True)
    got = tool("record", host.name, tape, "--plain", "--messages", len(host.events) - len(whole(tape)))
    yield "and room again", (got[0], tape.read_bytes() == sent), (0, True)
    tape.unlink()
    children = [subprocess.Popen([sys.executable, TOOLS / "record", each.name, tape, "--plain", "--cursor", str(each.first - 1), "--messages",
                                  str(len(each.events) - each.first + 1)], stdout=subprocess.DEVNULL) for each in world.hosts]
    statuses = [child.wait(WAIT) for child in children]
    found = whole(tape)
    parts = [[message for name, message in found if name == each.name] for each in world.hosts]
    yield "two hosts on one tape", (statuses, parts), ([0, 0], [[message for message, _ in each.events[each.first - 1:]] for each in world.hosts])


def long_messages(world: World):
    """A message at the limit is recorded, and the relay ends its host there; one above it ends the recording with its place."""
    host, tape = Host(), world.room / "long"
    account = Account("zoe", SECP256K1)
    host.add(account)
    host.identity(account)
    size = len(tape_of(host))
    host.longest = LONGEST
    got = tool("record", host.name, tape, "--plain", "--cursor", 0, "--messages", 2)
    yield "the longest message", (got[0], tape.read_bytes() == tape_of(host) + program.record(host.name, bytes(LONGEST))), (0, True)
    report = program.run(world.copy("long-relay"), "ingest", given=tape.read_bytes())[1].decode().splitlines()
    yield "which is no frame", report[1], f"{host.name} ended frame"
    tape.unlink()
    host.longest = LONGEST + 1
    got = tool("record", host.name, tape, "--plain", "--cursor", 0)
    told = f"{host.name}: the message after number 1 has more than {LONGEST} bytes; its record would stand at place {size}"
    yield "a longer one", (got[0], told in got[2], tape.read_bytes() == tape_of(host)), (TOO_LONG, True, True)


@contextlib.contextmanager
def started(name: str, *words):
    """While a tool runs, which is killed in the end."""
    with subprocess.Popen([sys.executable, TOOLS / name, *map(str, words)], stdout=subprocess.PIPE, stderr=subprocess.DEVNULL) as child:
        try:
            yield child
        finally:
            child.kill()


# Vouching.


def vouching(world: World):
    """Directories that fail, tables and disks that hinder."""
    first = world.room / "vouching"
    first.mkdir()
    want = tables(world, first, "--plc", world.directory.address)
    yield "some lines", len(want["plc.1"].splitlines()) > 40, True
    export = world.room / "export"
    export.write_bytes(world.directory.export())
    again = world.room / "exported"
    again.mkdir()
    yield "a directory's export", tables(world, again, "--export", export), want
    yield from mutated(world, want)
    world.directory.failing = 2
    yield "a directory that fails twice", tables(world, world.copy("failing"), "--plc", world.directory.address)["web.1"], want["web.1"]
    dead = Directory()
    dead.server.shutdown()
    dead.server.server_close()
    fresh = world.room / "unasked"
    fresh.mkdir()
    got = tool("vouch", fresh, "--did", world.ada.did, "--did", world.web.did, "--plain", "--plc", dead.address)
    told = f"home {world.web.did} {world.hosts[0].name}\n"
    yield "a directory that isn't there", (got[0], (fresh / "plc.1").read_bytes(), (fresh / "web.1").read_text()), (FAILED, b"", told)
    got = tool("vouch", fresh, "--did", "did:plc:aaaaaaaaaaaaaaaaaaaaaaaa", "--plain", "--plc", world.directory.address)
    yield "an account that isn't there", (got[0], "isn't there (404)" in got[1]), (0, True)
    nobody = ("did:web:127.0.0.1", "did:key:zabc", "did:web:a.example:user", "did:web:a..b", "did:web:" + 64 * "a")
    got = tool("vouch", fresh, *[word for did in nobody for word in ("--did", did)])
    yield "accounts that nobody is asked for", [line.split(" ", 2)[2] for line in got[1].splitlines() if line.startswith("unknown ")], [
        "127.0.0.1 isn't public: its address is 127.0.0.1", "its DID is of another method", *3 * ["its DID names no host alone"]]
    world.directory.slowness = 0.1
    got = tool("vouch", fresh, "--did", world.bob.did, "--plain", "--plc", world.directory.address, "--patience", 0.5)
    world.directory.slowness = 0.0
    yield "a directory that is slow", (got[0], "took more than 0.5 seconds" in got[1]), (FAILED, True)
    dids = [word for account in world.by_directory()[2:7] for word in ("--did", account.did)]
    before, world.directory.failing = sum(world.directory.asked.values()), 1000
    got = tool("vouch", fresh, *dids, "--plain", "--plc", world.directory.address, "--rate", 1000)
    world.directory.failing = 0
    asked = sum(world.directory.asked.values()) - before
    yield "a directory that fails for three accounts", (got[0], asked, got[1].count(" failed before")), (FAILED, 9, 2)
    yield from renewals(world)
    yield from hindering_tables(world)


def mutated(world: World, want: dict):
    """Of messages with other bits and bytes no signature is vouched for that isn't one of the accounts' own. No message is of
    a did:web, whose changed host would be asked for."""
    draw, folder, tape = random.Random(1), world.room / "mutated", world.room / "mutated-tape"
    folder.mkdir()
    messages = [message for host in world.hosts for message, _ in host.events[host.first - 1:world.since[host.name]] if b"did:web" not in message]
    with open(tape, "wb") as records:
        for _ in range(2000):
            message = bytearray(draw.choice(messages))
            for _ in range(draw.choice((1, 1, 2))):
                at = draw.randrange(len(message))
                if draw.randrange(3):
                    message[at] ^= 1 << draw.randrange(8)
                else:
                    message[at:at + draw.randrange(3)] = draw.randbytes(draw.randrange(4))
            records.write(program.record(world.hosts[0].name, bytes(message)))
    got = tool("vouch", folder, tape, "--plain", "--rate", 1000, "--plc", world.directory.address)
    good = {line for name in TABLES for line in (folder / name).read_bytes().splitlines() if line.startswith(b"good ")}
    own = {line for content in want.values() for line in content.splitlines()}
    yield "mutated messages", (got[0], got[1].count("bad ") > 10, len(good) > 10, good - own), (0, True, True, set())


def renewals(world: World):
    """A key that was rotated counts no more once the account's `#identity` is on a tape, though its document is kept."""
    folder, host, account = world.room / "renewals", world.hosts[0], Account("zed", SECP256K1)
    folder.mkdir()
    host.add(account)
    world.directory.publish(account, host.name)
    words = ("--plain", "--plc", world.directory.address)
    tool("vouch", folder, "--did", account.did, *words)
    begun = len(host.events)
    host.commit(account)
    host.commit(account, is_kept=False)
    account.key = Key("zed's second", SECP256K1)
    world.directory.publish(account, host.name)
    first, second = world.room / "kept", world.room / "renewed"
    first.write_bytes(tape_of(host, begun))
    host.identity(account)
    second.write_bytes(tape_of(host, begun + 1))
    found = [tool("vouch", folder, tape, *words)[1].splitlines() for tape in (first, second)]
    yield "by a document that is kept", found[0][0], "commits 2 good 2 bad 0 unknown 0"
    yield "by one that an #identity event renews", found[1][1], "commits 1 good 0 bad 1 unknown 0"
    other = world.room / "by-another-host"
    other.write_bytes(program.record("other.example", host.events[begun][0]))
    dead = Directory()
    dead.server.shutdown()
    dead.server.server_close()
    empty(folder / "plc.1")
    got = tool("vouch", folder, other, "--plain", "--plc", dead.address)
    yield "by a kept one, where nobody answers", (got[0], (folder / "plc.1").read_text()), (FAILED, f"home {account.did} {host.name}\n")
    del host.accounts[account.did]


def empty(table: pathlib.Path, content: bytes = b""):
    """Makes a table anew, with other lines or none."""
    table.with_name(f"{table.name}.sum").unlink(missing_ok=True)
    table.write_bytes(content)


def tables(world: World, folder: pathlib.Path, *words) -> dict:
    """The tables that `vouch` writes of the first two tapes."""
    status, _, said = tool("vouch", folder, world.tape, world.room / "second", "--plain", "--rate", 1000, *words)
    assert status == 0, said
    return {name: (folder / name).read_bytes() for name in TABLES}


def hindering_tables(world: World):
    """Tables, disks and tapes that aren't as they should be, and a limit on requests."""
    words = ("--plain", "--plc", world.directory.address)
    folder = world.copy("hindered-tables")
    before = contents(folder)
    (folder / "plc.1").write_bytes(before["plc.1"] + b"good morning\n")
    spoiled = contents(folder)
    got = tool("vouch", folder, world.tape, *words)
    number = before["plc.1"].count(b"\n") + 1
    yield "a table with another line", (got[0], f"line {number} is none" in got[2], contents(folder)), (BAD_TABLE, True, spoiled)
    folder = world.copy("full")
    for name in TABLES:
        (folder / name).write_bytes(b"")
    tool("vouch", folder, "--did", world.ada.did, *words)
    before = contents(folder)
    got = tool("vouch", folder, world.tape, *words, **small_files(4096))
    yield "a full disk under a table", (got[0], {name: contents(folder)[name] for name in TABLES}), (DISK, {name: before[name] for name in TABLES})
    folder = world.copy("forgetful")
    got = tool("vouch", folder, "--did", world.ada.did, "--forget", *words)
    lines = (folder / "plc.1").read_text().splitlines()
    kept = [line for line in (world.folder / "plc.1").read_text().splitlines() if not line.startswith("good ")]
    yield "former signatures are forgotten", (got[0], lines), (0, kept)
    tape = world.room / "torn"
    tape.write_bytes(world.tape.read_bytes()[:-10])
    got = tool("vouch", world.copy("torn-tape"), tape, *words)
    yield "a tape that is being written", (got[0], "is torn or still being written" in got[2]), (0, True)
    tape.write_bytes(world.tape.read_bytes() + b"\0")
    yield "what is no tape", tool("vouch", world.copy("no-tape"), tape, *words)[0], NO_TAPE
    begun = time.monotonic()
    dids = [word for account in world.by_directory()[:5] for word in ("--did", account.did)]
    got = tool("vouch", folder, *dids, *words, "--cache", world.room / "other-cache", "--rate", 4)
    yield "requests a second", (got[0], time.monotonic() - begun >= 1), (0, True)


# Repositories.


def fetching(world: World):
    """Hosts that give other repositories than they are asked for, or none."""
    words = ("--plain", "--plc", world.directory.address, "--relay", program.PROGRAM, "--no-sync", "--did", world.jon.did)
    host, jon = world.hosts[1], world.jon
    spoiled = bytearray(jon.repository())
    spoiled[60] ^= 1
    answers = {
        "another account's repository": (world.carol.repository(), f"its repository is of {world.carol.did}"),
        "no repository": (b"\x00", "its repository isn't read"),
        "a repository with another byte": (bytes(spoiled), "its repository isn't read"),
        "a repository that is signed by another": (forged(jon), "its repository is bad: the signature isn't of its key and bytes"),
    }
    folder = world.copy("fetching")
    for name, (content, told) in answers.items():
        host.repositories[jon.did] = content
        got = tool("repositories", folder, *words)
        yield name, (got[0], f"{jon.did} failed {told}" in got[1], list((folder / "repos").glob("*.new"))), (FAILED, True, [])
    host.repositories.clear()
    host.more = 1
    got = tool("repositories", folder, *words)
    host.more = 0
    yield "a repository that breaks off", (got[0], f"{host.name} broke off" in got[1]), (FAILED, True)
    host.slowness = 0.1
    got = tool("repositories", folder, *words, "--patience", 0.5)
    host.slowness = 0.0
    yield "a repository that takes too long", (got[0], "took more than 0.5 seconds" in got[1]), (FAILED, True)
    before = contents(folder / "repos")
    got = tool("repositories", folder, *words, **small_files(16))
    yield "a full disk under a repository", (got[0] in (DISK, NO_RELAY), contents_of_cars(folder)), (True, before)
    got = tool("repositories", folder, *words)
    yield "a good one", got[:2], (0, f"{jon.did} fetched {jon.rev}\nend 1 fetched 1 synced 0 failed 0\n")
    yield "which is the host's", (folder / "repos" / car_name(jon)).read_bytes() == jon.repository(), True
    del host.accounts[jon.did]
    got = tool("repositories", folder, *words)
    yield "an account that its host doesn't have", (got[0], f"{host.name} answers 400" in got[1]), (FAILED, True)
    host.add(jon)
    host.delay, dids = 1.0, [word for did in list(host.accounts)[:4] for word in ("--did", did)]
    for jobs in (1, 4):
        host.busiest = 0
        got = tool("repositories", folder, *words[:5], *dids, "--no-sync", "--jobs", jobs)
        yield f"side by side, {jobs}", (got[0], host.busiest), (0, jobs)
    host.delay = 0.0
    got = tool("repositories", folder, given=f"{host.name} 1 refused 19 Gap absent\n")
    yield "a report without its tape", got[0], 2


def forged(account: Account) -> bytes:
    """An account's repository under a commit that another key signed."""
    kept, mallory = account.block, Account("mallory", account.kind, account.did)
    account.block = account.commit_object(account.rev, account.tree.root, mallory.key)
    try:
        return account.repository()
    finally:
        account.block = kept


def car_name(account: Account) -> str:
    from world import link_of, link_text
    return f"{link_text(link_of(account.did.encode()))}.car"


def contents_of_cars(folder: pathlib.Path) -> dict:
    return {name: content for name, content in contents(folder / "repos").items() if name.endswith(".car")}


# TLS.


def encrypted(world: World):
    """With TLS, whose certificates have to be ones that the machine trusts; and no host on a private address without --plain."""
    room = world.room / "encrypted"
    room.mkdir()
    words = ["openssl", "req", "-x509", "-newkey", "ec", "-pkeyopt", "ec_paramgen_curve:prime256v1", "-nodes", "-days", "2",
             "-subj", "/CN=localhost", "-addext", "subjectAltName=DNS:localhost", "-keyout", room / "key", "-out", room / "certificate"]
    subprocess.run(words, check=True, stderr=subprocess.DEVNULL)
    context = ssl.SSLContext(ssl.PROTOCOL_TLS_SERVER)
    context.load_cert_chain(room / "certificate", room / "key")
    trusted = {"env": {**os.environ, "SSL_CERT_FILE": str(room / "certificate")}}
    host, directory, account, tape = Host(context), Directory(context), Account("zoe", SECP256K1), room / "tape"
    host.add(account)
    directory.publish(account, host.name)
    host.commit(account)
    got = tool("record", host.name, tape, "--cursor", 0, **trusted)
    yield "a host that isn't public", (got[0], f"localhost isn't public: its address is " in got[2], tape.read_bytes()), (FAILED, True, b"")
    got = tool("record", host.name, tape, "--private", "--cursor", 0, "--seconds", 4)
    yield "a certificate that nobody trusts", (got[0], "certificate" in got[2], tape.read_bytes()), (0, True, b"")
    got = tool("record", host.name, tape, "--private", "--cursor", 0, "--messages", 1, **trusted)
    yield "one that the machine trusts", (got[0], tape.read_bytes() == tape_of(host)), (0, True)
    got = tool("vouch", room, tape, "--private", "--plc", directory.address)
    yield "a directory that nobody trusts", (got[0], "certificate" in got[1], (room / "plc.1").read_bytes()), (FAILED, True, b"")
    got = tool("vouch", room, tape, "--private", "--plc", directory.address, **trusted)
    yield "one that is trusted", (got[0], got[1].splitlines()[0]), (0, "commits 1 good 1 bad 0 unknown 0")
    words = ("repositories", room, "--did", account.did, "--plc", directory.address, "--no-sync")
    status, out, _ = tool(*words, **trusted)
    yield "a home that isn't public", (status, f"{account.did} failed localhost isn't public: its address is " in out), (FAILED, True)
    got = tool(*words, "--private", **trusted)
    yield "which is allowed", got[:2], (0, f"{account.did} fetched {account.rev}\nend 1 fetched 1 synced 0 failed 0\n")


def rows(world: World):
    yield "the words of an error", b"FutureCursor" in FUTURE, True
    yield from encrypted(world)
    yield from recording(world)
    yield from vouching(world)
    yield from fetching(world)
    yield from progress(world)


# Kills.


def killed(seconds: float, name: str, *words, **options) -> bool:
    """Whether a tool's run was killed after these seconds, before its end."""
    command = [sys.executable, TOOLS / name, *map(str, words)]
    with subprocess.Popen(command, stdout=subprocess.DEVNULL, stderr=subprocess.DEVNULL, start_new_session=True, **options) as child:
        time.sleep(seconds)
        os.killpg(child.pid, signal.SIGKILL)
    return child.returncode == -signal.SIGKILL


def taking(name: str, *words) -> float:
    """How many seconds a run takes that nobody stops."""
    begun = time.monotonic()
    tool(name, *words)
    return time.monotonic() - begun


def kills(world: World, count: int, draw: random.Random):
    """Each tool is killed COUNT times, and run again."""
    yield from kills_of_record(world, count, draw)
    yield from kills_of_vouch(world, count, draw)
    yield from kills_of_repositories(world, count, draw)


def kills_of_record(world: World, count: int, draw: random.Random):
    """A tape is a front of the whole one after each kill, and the whole one in the end."""
    host, tape = world.hosts[1], world.room / "killed"
    words = (host.name, tape, "--plain", "--cursor", 0, "--messages", len(host.events))
    host.pause, sent, done = 0.03, tape_of(host), 0
    seconds = taking("record", *words)
    while done < count:
        if killed(draw.uniform(0, seconds), "record", *words):
            done += 1
        there = len(whole(tape))
        yield f"a recording killed, {done}", sent.startswith(tape.read_bytes() if tape.exists() else b""), True
        if there == len(host.events):
            tape.unlink()
    there = len(whole(tape))
    tool("record", host.name, tape, "--plain", "--cursor", 0, "--messages", len(host.events) - there)
    host.pause = 0.0
    yield "the recording in the end", tape.read_bytes() == sent, True


def kills_of_vouch(world: World, count: int, draw: random.Random):
    """A table is the former or the new one after each kill, and the new one in the end."""
    folder = world.room / "killed-vouching"
    words = (folder, world.tape, "--plain", "--plc", world.directory.address, "--rate", 200)

    def clear():
        folder.mkdir(exist_ok=True)
        for name in TABLES:
            empty(folder / name, former)

    former = f"trust {world.ada.did}\n".encode()
    clear()
    seconds = taking("vouch", *words)
    new = {name: (folder / name).read_bytes() for name in TABLES}
    done = 0
    while done < count:
        clear()
        done += killed(draw.uniform(0, seconds), "vouch", *words)
        there = [(folder / name).read_bytes() in (former, new[name]) for name in TABLES]
        yield f"vouching killed, {done}", there, [True, True]
    tool("vouch", *words)
    yield "the tables in the end", {name: (folder / name).read_bytes() for name in TABLES}, new


def kills_of_repositories(world: World, count: int, draw: random.Random):
    """Under a repository's name stands a whole one after each kill, and none in the end, where the relay took all over; the journal
    is read, and the accounts are good in the end."""
    accounts = [world.ada, world.bob, world.carol, world.jon]
    dids = [word for account in accounts for word in ("--did", account.did)]
    folder = world.copy("killed-fetching")
    words = (folder, *dids, "--plain", "--plc", world.directory.address, "--relay", program.PROGRAM)
    seconds = taking("repositories", *words)
    right = {car_name(account): account.repository() for account in world.all}
    done = 0
    while done < count:
        if not done % 5:
            folder = world.copy("killed-fetching")
            for path in (folder / "repos").iterdir():
                path.unlink()
        done += killed(draw.uniform(0, seconds), "repositories", *words)
        there = contents_of_cars(folder)
        status, told = program.run(folder, "account", world.ada.did)
        is_known = told.decode().split(" ")[4].strip() in ("none", "good")
        tables_are_whole = all((folder / name).read_bytes().endswith(b"\n") for name in TABLES)
        yield f"fetching killed, {done}", (there.items() <= right.items(), status, is_known, tables_are_whole), (True, 0, True, True)
    got = tool("repositories", *words)
    yield "fetching in the end", (got[0], got[1].splitlines()[-1], contents(folder / "repos")), (
        0, f"end {len(accounts)} fetched {len(accounts)} synced {len(accounts)} failed 0", {})
