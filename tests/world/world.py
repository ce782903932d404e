"""The world of a day: a directory, two hosts and their accounts, what each sends, and what the relay is to say of it."""
import base64
import pathlib
import shutil
import subprocess
import sys

from cryptography.hazmat.primitives.asymmetric import utils

sys.path[:0] = [str(pathlib.Path(__file__).resolve().parents[1]), str(pathlib.Path(__file__).resolve().parents[1] / "model")]
import program  # noqa: E402
from accounts import P256, SECP256K1, Account, Key, encode, link_of  # noqa: E402
from events import Event, frame  # noqa: E402
from hosts import OUTDATED, Directory, Host  # noqa: E402
from items import car, commit_object  # noqa: E402

TOOLS = program.TOP / "tools"
WAIT = 600
BAD, GAP, STALE, NOT_HOME = "refused 18 BadSignature", "refused 19 Gap absent", "refused 11 Stale", "refused 2 NotHome"
WHY = {"fay": "s is high"}
OTHER_KEY = "the signature isn't of its key and bytes"


def tool(name: str, *words, given: str = "", **options) -> "tuple[int, str, str]":
    """The status, the output and the words on standard error of a tool's run."""
    command = [sys.executable, TOOLS / name, *map(str, words)]
    done = subprocess.run(command, input=given, text=True, capture_output=True, timeout=WAIT, check=False, **options)
    return done.returncode, done.stdout, done.stderr


def link_text(link: bytes) -> str:
    return "b" + base64.b32encode(link).decode().lower().rstrip("=")


class World:
    """Everything of the day, in a folder: the relay's own is `folder`, the first tape is `tape`."""

    def __init__(self, room: pathlib.Path):
        self.room, self.folder, self.tape = room, room / "relay", room / "first"
        self.folder.mkdir(parents=True)
        self.directory, self.hosts = Directory(), [Host(), Host()]
        self.last, self.report, self.since, self.heads = 0, "", {}, {}
        first, second = self.hosts
        kinds = {"ada": SECP256K1, "bob": P256, "gus": SECP256K1, "hal": P256, "kim": SECP256K1, "dan": SECP256K1,
                 "carol": SECP256K1, "eve": P256, "fay": P256, "ivy": P256, "jon": SECP256K1}
        self.all = [Account(name, kind) for name, kind in kinds.items()]
        self.web = Account("web", P256, f"did:web:localhost%3A{first.server.server_port}")
        first.web = self.web
        self.all.append(self.web)
        for account in self.all:
            setattr(self, account.name, account)
        for account in self.all:
            host = second if account.name in ("carol", "eve", "fay", "ivy", "jon") else first
            host.add(account)
            if account is not self.web:
                self.directory.publish(account, host.name)
        self.jons_host = second
        self.directory.publish(Account("ada", P256), "nowhere.example", is_nullified=True)
        self.first_events()

    def by_directory(self) -> list:
        return [account for account in self.all if account is not self.web]

    def home(self, account: Account) -> Host:
        return next(host for host in self.hosts if account.did in host.accounts)

    def first_events(self):
        """What the hosts send until the first tape is made; the earliest events are out of the first host's window by then."""
        first, second = self.hosts
        for _ in range(3):
            first.commit(self.kim, creates=2)
        first.first = len(first.events) + 1
        for account in self.all:
            host = self.home(account)
            host.identity(account)
            host.state(account, True)
            if account is not self.kim:
                host.commit(account, creates=3)
        self.jons_old, self.jons_rev = self.jon.repository(), self.jon.rev
        for account in (self.ada, self.bob, self.web, self.dan, self.carol, self.jon, self.hal, self.ivy):
            self.home(account).commit(account, creates=2, updates=1)
            self.home(account).commit(account, creates=1, deletes=1)
        first.emit("#sync", self.bob.sync(), STALE)
        self.misfortunes(first, second)
        at = len(first.events)
        first.commit(self.kim)
        first.commit(self.kim, STALE, updates=2)
        message, _ = first.events[at]
        first.events[at] = message, f"refused 19 Gap synced N records {len(self.kim.records)}"
        first.state(self.hal, False, "takendown")
        self.since = {host.name: len(host.events) for host in self.hosts}

    def misfortunes(self, first: Host, second: Host):
        """Signatures that are none, other hosts' words, commits that are left out."""
        fields = self.ada.commit(creates=1)
        first.emit("#commit", fields)
        second.emit("#commit", fields, NOT_HOME)
        second.commit(self.eve, BAD, key=Key("mallory", P256))
        self.eves_bad = self.eve.block
        second.commit(self.eve, GAP)
        second.commit(self.eve, GAP, updates=1)
        second.commit(self.fay, BAD, is_kept=False, is_high=True)
        second.commit(self.fay)
        self.gus.commit()
        first.commit(self.gus, GAP)
        self.jon.commit(updates=1)
        second.commit(self.jon, GAP)

    def second_events(self):
        """What the hosts send until the second tape is made."""
        first, second = self.hosts
        old = self.carol.key
        self.carol.key = Key("carol's second", P256)
        self.directory.publish(self.carol, second.name)
        second.identity(self.carol)
        second.commit(self.carol, updates=1)
        second.commit(self.carol, BAD, is_kept=False, key=old)
        second.commit(self.carol, deletes=1)
        self.directory.publish(self.dan, second.name)
        second.add(first.accounts.pop(self.dan.did))
        first.state(self.dan, False, "deactivated", NOT_HOME)
        second.identity(self.dan)
        second.state(self.dan, True)
        second.commit(self.dan, creates=2)
        second.emit("#sync", self.dan.sync(), STALE)
        first.state(self.hal, True)
        first.commit(self.hal, creates=2)
        first.commit(self.kim, deletes=2)
        first.commit(self.gus)
        second.commit(self.eve, creates=2)
        second.commit(self.jon)
        second.state(self.ivy, False, "deleted")
        first.commit(self.web, updates=2)

    def foretold(self, name: str, message: bytes) -> "tuple[int, str]":
        """The number of a message of a host, and what the relay is to say of it; what becomes of its account is kept."""
        if message == OUTDATED:
            return 0, "info"
        host = next(host for host in self.hosts if host.name == name)
        event = frame(message)
        assert isinstance(event, Event) and host.events[event.seq - 1][0] == message
        words = host.events[event.seq - 1][1]
        self.keep(event, words)
        return event.seq, words

    def is_event(self, message: bytes) -> bool:
        return message != OUTDATED

    def keep(self, event: Event, words: str):
        """Keeps what an event makes of its account: whether it is active, its status, and what is known of its repository."""
        head = self.heads.setdefault(event.did, ["active", "-", "none"])
        if words == "event" and event.kind == "#account":
            head[:2] = ["active" if event.payload["active"] else "inactive", (event.payload.get("status") or b"-").decode()]
        elif words == "event" and event.kind in ("#commit", "#sync"):
            roots, blocks = car(event.payload["blocks"])
            commit = commit_object(blocks[roots[0]])
            head[2] = f"good {commit['rev'].decode()} {link_text(commit['data'])} {link_text(roots[0])}"
        elif words == GAP:
            head[2] = f"lost {head[2].split(' ')[1]}"
        elif " synced " in words:
            self.found(next(account for account in self.all if account.did == event.did))

    def found(self, account: Account):
        """Keeps that an account's repository was taken over as its host has it."""
        head = f"good {account.rev} {link_text(account.tree.root)} {link_text(link_of(account.block))}"
        self.heads[account.did][2] = head

    def state(self, account: Account) -> str:
        """The line of the relay about an account."""
        active, status, head = self.heads[account.did]
        return f"{account.did} {active} {status} up {head}"

    def events(self, part: int) -> "list[tuple[Host, int, Event, str]]":
        """The events of the first or of the second tape."""
        found = []
        for host in self.hosts:
            start, end = (host.first - 1, self.since[host.name]) if part == 0 else (self.since[host.name], len(host.events))
            found += [(host, i + 1, frame(host.events[i][0]), host.events[i][1]) for i in range(start, end)]
        return found

    def length(self, host: Host) -> int:
        """How many bytes a tape has of what a host sent since the first one."""
        return sum(len(program.record(host.name, message)) for message, _ in host.events[self.since[host.name]:])

    def vouched(self, part: int = 0) -> str:
        """What `vouch` has to print of a tape."""
        names = {account.did: account.name for account in self.all}
        found = self.events(part)
        commits = [each for each in found if each[2].kind in ("#commit", "#sync")]
        bad = [each for each in commits if each[3] == BAD]
        lines = [f"bad {host.name} {seq} {event.did} {WHY.get(names[event.did], OTHER_KEY)}" for host, seq, event, _ in bad]
        lines.append(f"commits {len(commits)} good {len(commits) - len(bad)} bad {len(bad)} unknown 0")
        dids = {event.did for _, _, event, _ in found}
        lines.append(f"accounts {len(dids)} homes {len(dids)} unknown 0")
        good = {(event.did, bytes(car(event.payload["blocks"])[0][0])) for _, _, event, words in commits if words != BAD}
        homes = dids if part == 0 else {self.dan.did}
        for name, is_web in (("plc.1", False), ("web.1", True)):
            new = sum((did == self.web.did) == is_web for did in [*homes, *(did for did, _ in good - self.vouched_for(part))])
            before = self.lines_of(name) if part else 0
            lines.append(f"{name} lines {before + new} new {new}")
        return "".join(f"{line}\n" for line in lines)

    def vouched_for(self, part: int) -> set:
        """The commits that were vouched for before a tape: those of the first one, and those of repositories."""
        if part == 0:
            return set()
        first = {(event.did, bytes(car(event.payload["blocks"])[0][0])) for _, _, event, words in self.events(0)
                 if event.kind in ("#commit", "#sync") and words != BAD}
        return first

    def lines_of(self, name: str) -> int:
        return self.table_before[name]

    def keep_tables(self):
        """Keeps how long the tables are now."""
        self.table_before = {name: (self.folder / name).read_bytes().count(b"\n") for name in ("plc.1", "web.1")}

    def copy(self, name: str) -> pathlib.Path:
        """A fresh folder with the tables and the repositories that the relay has now."""
        there = self.room / name
        shutil.rmtree(there, ignore_errors=True)
        there.mkdir()
        for each in ("plc.1", "web.1"):
            shutil.copy(self.folder / each, there)
        if (self.folder / "repos").is_dir():
            shutil.copytree(self.folder / "repos", there / "repos")
        return there

    def lost(self) -> "list[Account]":
        """The accounts that the first report says are lost, in the order of the tape."""
        dids = [event.did for _, _, event, words in self.events(0) if words == GAP]
        return [next(account for account in self.all if account.did == did) for did in dict.fromkeys(dids)]

    def signatures(self):
        """Signatures for openssl: a name, whose, of which block, and whether it is right."""
        for account in self.all:
            yield f"the last commit of {account.name}", account, account.block, True
        yield "the bad commit of eve", self.eve, self.eves_bad, False
        changed = bytearray(self.ada.block)
        changed[self.ada.block.index(b"of ada")] ^= 1
        yield "a changed commit of ada", self.ada, bytes(changed), False

    @staticmethod
    def for_openssl(account: Account, block: bytes) -> "tuple[bytes, bytes, bytes]":
        """The key, the bytes that are signed, and the signature, as openssl's command line reads them."""
        fields = commit_object(block)
        signature = fields.pop("sig")
        content = encode({key: value.decode() if key in ("did", "rev", "note") else value for key, value in fields.items()})
        r, s = int.from_bytes(signature[:32], "big"), int.from_bytes(signature[32:], "big")
        return account.key.pem(), content, utils.encode_dss_signature(r, s)
