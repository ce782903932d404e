#!/usr/bin/env python3
"""Makes the sample beside this script: a tape of three hosts' messages, honest and hostile ones, the tables of the
authorities who tell the accounts' homes, a repository to fetch, and the report that the relay has to print.

Every message is made with the answer that it has to get, so the report stands before the relay runs: what it says of each
message follows from how that was made. The files are always the same.
"""
import base64
import pathlib
import random
import sys

HERE = pathlib.Path(__file__).resolve().parent
sys.path.insert(0, str(HERE.parent / "bench"))
from messages import TIME, Tree, car, commit_block, link_of, message, spell, tid, value  # noqa: E402

ANN, BEN, WEB = "a.example", "b.example", "c.example:2583"
REV = 1 << 20


def payload_frame(kind, payload):
    return spell({"t": kind, "op": 1}) + spell(payload)


def identity(did, seq):
    return payload_frame("#identity", {"did": did, "seq": seq, "time": TIME})


def account(did, seq, active, status=None):
    payload = {"did": did, "seq": seq, "time": TIME, "active": active}
    return payload_frame("#account", payload if status is None else {**payload, "status": status})


class Account:
    """An account with its records, and the last commit that was made of it."""

    def __init__(self, did, host):
        self.did, self.host = did, host
        self.pairs, self.heights, self.rev = {}, {}, REV
        self.tree = None

    def commit(self, seq, changes, bare=False, prev_data=None, spoil=False):
        """The next commit of the account: without a node of its tree, from another root, or spoilt in a block."""
        since, before = (tid(self.rev), self.tree.root) if self.tree else (None, None)
        for key, (_, now) in changes.items():
            self.pairs.pop(key, None)
            if now is not None:
                self.pairs[key] = now
        self.pairs = dict(self.pairs)
        self.tree = Tree(dict(self.pairs), self.heights)
        self.rev += 1 + len(changes)
        blocks = [] if bare else list(self.tree.cover(changes).items())
        if spoil:
            link, block = blocks[-1]
            blocks[-1] = link, block[:-1] + bytes([block[-1] ^ 1])
        return message(seq, tid(self.rev), since, self.tree.root, prev_data or before, changes, blocks, self.did)

    def repository(self):
        """The whole repository as a CAR."""
        block = commit_block(tid(self.rev), self.tree.root, self.did)
        root, nodes = link_of(block), []
        for link, node in sorted(self.tree.nodes.values()):
            nodes.append((link, node))
        return car(root, [(root, block), *nodes])


class Day:
    """A tape and its report, message by message."""

    def __init__(self):
        self.tape, self.report = [], []
        self.seqs, self.ended = {}, set()
        self.messages = self.events = self.refused = 0

    def next(self, host):
        self.seqs[host] = self.seqs.get(host, 0) + 1
        return self.seqs[host]

    def add(self, host, content, answer):
        """A message and what is said of it: `event` for one that goes out, else the words behind the host's name."""
        name = host.encode()
        self.tape.append(bytes([len(name)]) + name + len(content).to_bytes(4, "big") + content)
        self.messages += 1
        if answer.endswith(" event"):
            self.events += 1
            answer += f" {self.events}"
        if " refused " in answer:
            self.refused += 1
        self.report.append(f"{host} {answer}")

    def lines(self):
        end = f"end {self.messages} events {self.events} refused {self.refused} last {self.events}"
        return "".join(line + "\n" for line in [*self.report, end])


def changes_of(someone, random_source, count):
    """Some records created, some updated, some deleted."""
    changes = {}
    for _ in range(count):
        key = f"app.bsky.feed.post/{random_source.getrandbits(48):012x}".encode()
        changes[key] = None, value(random_source.getrandbits(30))
    known = sorted(key for key in someone.pairs if key not in changes)
    if len(known) > 4 and random_source.random() < 0.6:
        key = random_source.choice(known)
        now = value(random_source.getrandbits(30)) if random_source.random() < 0.5 else None
        changes[key] = someone.pairs[key], now
    return dict(sorted(changes.items()))


def link_text(link):
    return "b" + base64.b32encode(link).decode().lower().rstrip("=")


def make():
    source, day = random.Random(7), Day()
    people = [Account(f"did:plc:{name}", host) for name, host in (
        ("ada", ANN), ("bob", ANN), ("cyd", ANN), ("dan", BEN), ("eve", BEN), ("fay", BEN))] + [Account("did:web:c.example", WEB)]
    day.add(ANN, payload_frame("#info", {"name": "OutdatedCursor"}), "info")
    for someone in people:
        seq = day.next(someone.host)
        day.add(someone.host, identity(someone.did, seq), f"{seq} event")
        seq = day.next(someone.host)
        day.add(someone.host, account(someone.did, seq, True), f"{seq} event")
    for someone in people:
        seq = day.next(someone.host)
        vouched = "event" if someone.did != "did:plc:eve" else "refused 18 BadSignature"
        day.add(someone.host, someone.commit(seq, changes_of(someone, source, 12)), f"{seq} {vouched}")
    honest = people[:1] + people[3:4] + people[6:]
    for turn in range(90):
        someone = honest[turn % len(honest)]
        seq = day.next(someone.host)
        day.add(someone.host, someone.commit(seq, changes_of(someone, source, source.randrange(1, 4))), f"{seq} event")
        if turn % 10 == 4:
            victim = people[source.randrange(3)]
            seq = day.next(BEN)
            day.add(BEN, identity(victim.did, seq), f"{seq} refused 2 NotHome")
        if turn % 15 == 7:
            day.add(ANN, identity(people[0].did, 1), "1 old")
    return source, day, people


def hostile(source, day, people):
    """What hosts may do wrong, and what the relay says of it. `fay` is lost and has a repository, `bob` has none."""
    ada, bob, cyd, dan, eve, fay, web = people
    seq = day.next(ANN)
    day.add(ANN, cyd.commit(seq, changes_of(cyd, source, 3), spoil=True), f"{seq} refused 14 WrongDigest")
    seq = day.next(ANN)
    day.add(ANN, bob.commit(seq, changes_of(bob, source, 2), prev_data=ada.tree.root), f"{seq} refused 19 Gap absent")
    seq = day.next(ANN)
    day.add(ANN, bob.commit(seq, changes_of(bob, source, 1)), f"{seq} refused 19 Gap absent")
    seq = day.next(BEN)
    day.add(BEN, payload_frame("#labels", {"seq": seq, "labels": []}), "unknown")
    repeated = eve.commit(seq, {key: (None, value(5)) for key in (b"app.bsky.feed.post/one", b"app.bsky.feed.post/two")})
    day.add(BEN, repeated, f"{seq} refused 18 BadSignature")
    seq = day.next(BEN)
    told = fay.commit(seq, changes_of(fay, source, 2), bare=True)
    fetched = fay.repository()
    day.events += 1
    day.add(BEN, told, f"{seq} refused 20 BadNode at {link_text(fay.tree.root)} synced {day.events} records {len(fay.pairs)}")
    seq = day.next(BEN)
    day.add(BEN, fay.commit(seq, changes_of(fay, source, 2)), f"{seq} event")
    seq = day.next(BEN)
    day.add(BEN, account(dan.did, seq, False, "deactivated"), f"{seq} event")
    seq = day.next(BEN)
    day.add(BEN, dan.commit(seq, changes_of(dan, source, 1)), f"{seq} refused 3 Inactive")
    day.add(WEB, b"\xff", "ended frame")
    day.add(WEB, identity(web.did, day.next(WEB)), "after end")
    for _ in range(80):
        seq = day.next(ANN)
        day.add(ANN, ada.commit(seq, changes_of(ada, source, source.randrange(1, 4))), f"{seq} event")
    return fetched, fay.did


def write(name, content):
    path = HERE / name
    path.parent.mkdir(parents=True, exist_ok=True)
    path.write_bytes(content)


def main():
    source, day, people = make()
    fetched, did = hostile(source, day, people)
    write("tape", b"".join(day.tape))
    write("report", day.lines().encode())
    # nobody vouches for the signatures of `eve`
    for method in ("plc", "web"):
        lines = [line for someone in people if someone.did.split(":")[1] == method for line in (
            f"home {someone.did} {someone.host}\n", "" if "eve" in someone.did else f"trust {someone.did}\n")]
        write(f"relay/{method}.1", "".join(lines).encode())
    write(f"relay/repos/{link_text(link_of_raw(did))}.car", fetched)


def link_of_raw(did):
    """The link of kind Node over the bytes of a DID."""
    return link_of(did.encode())


if __name__ == "__main__":
    main()
