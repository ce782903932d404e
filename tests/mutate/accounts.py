"""Accounts of hosts, and the messages that an honest host would send of them next, in parts that can be changed."""
import pathlib
import sys

sys.path.insert(0, str(pathlib.Path(__file__).resolve().parents[2] / "bench"))
import messages as m  # noqa: E402
from items import tid_value  # noqa: E402

FIRST_REV = 1 << 20
REV_STEP = 1 << 10


class Parts:
    """A message before it is encoded: header, payload, and the CAR of its blocks, where it has some: header and sections."""

    def __init__(self, kind, payload, root=None, blocks=None):
        self.header, self.payload = {"t": kind, "op": 1}, payload
        self.front = {"version": 1, "roots": [root]}
        self.blocks = blocks

    def car(self):
        front = m.encode(self.front)
        sections = [m.varint(36 + len(block)) + link + block for link, block in self.blocks]
        return m.varint(len(front)) + front + b"".join(sections)

    def message(self):
        payload = self.payload if self.blocks is None else {**self.payload, "blocks": self.car()}
        return m.encode(self.header) + m.encode(payload)


class Account:
    """An account as its host has it; `offered` is the commit that was sent last, and `stored` that of its repository."""

    def __init__(self, i):
        self.did = f"did:plc:m{i:04}" if i % 10 else f"did:web:m{i:04}.example"
        self.host = f"h{i:04}.example"
        self.is_trusted = i % 20 != 7
        self.seq, self.rev, self.pairs, self.heights = 0, FIRST_REV + i, {}, {}
        self.head, self.offered, self.stored = None, None, None
        self.is_lost, self.is_active = False, True

    def fields(self):
        self.seq += 1
        return {"did": self.did, "seq": self.seq, "time": m.TIME}

    def identity(self):
        return Parts("#identity", self.fields())

    def account(self, active=True):
        return Parts("#account", {**self.fields(), "active": active})

    def next_rev(self):
        self.rev += REV_STEP
        return m.tid(self.rev)

    def sync(self):
        """States anew the records that it has."""
        rev, tree = self.next_rev(), m.Tree(dict(self.pairs), self.heights)
        block = m.commit_block(rev, tree.root, self.did)
        root = m.link_of(block)
        self.offered = (rev.encode(), tree.root), dict(self.pairs)
        return Parts("#sync", {**self.fields(), "rev": rev, "blocks": b""}, root, [(root, block)])

    def changes(self, draw):
        """Some records created, updated and deleted."""
        found = {}
        for _ in range(draw.randrange(1, 4)):
            key = b"app.bsky.feed.post/%04x" % draw.randrange(65536)
            if self.pairs and draw.random() < 0.4:
                key = draw.choice(sorted(self.pairs))
            now = None if key in self.pairs and draw.random() < 0.5 else m.value(draw.getrandbits(30))
            found[key] = self.pairs.get(key), now
        return dict(sorted(found.items()))

    def commit(self, draw):
        changes = self.changes(draw)
        later = {key: now for key, now in {**self.pairs, **{key: now for key, (_, now) in changes.items()}}.items() if now}
        rev, tree = self.next_rev(), m.Tree(later, self.heights)
        block = m.commit_block(rev, tree.root, self.did)
        root = m.link_of(block)
        self.offered = (rev.encode(), tree.root), later
        fields = self.fields()
        payload = {
            "seq": fields["seq"], "repo": self.did, "rev": rev, "since": self.head[0].decode() if self.head else None, "commit": root,
            "time": m.TIME, "rebase": False, "tooBig": False, "blobs": [], "blocks": b"",
            "ops": [m.operation(key, was, now) for key, (was, now) in changes.items()]}
        if self.head:
            payload["prevData"] = self.head[1]
        return Parts("#commit", payload, root, [(root, block), *tree.cover(changes).items()])

    def repository(self, draw):
        """The whole repository, with some more records, mostly of a revision above those of the tape."""
        rev = m.tid(self.rev + draw.choice((-1, 0, 8, 8, 8, 8)) * REV_STEP)
        more = {b"app.bsky.feed.post/%04x" % draw.randrange(65536): m.value(draw.getrandbits(30)) for _ in range(draw.randrange(12))}
        pairs = {**self.pairs, **more}
        tree = m.Tree(pairs, self.heights)
        block = m.commit_block(rev, tree.root, self.did)
        root = m.link_of(block)
        self.stored = (rev.encode(), tree.root), pairs
        return Parts("#sync", {"did": self.did, "rev": rev}, root, [(root, block), *dict(tree.nodes.values()).items()])

    def ready(self):
        """The messages by which an account that is lost, empty or inactive can be followed again."""
        if not self.is_active:
            yield self.account()
        if self.is_lost or self.head is None:
            yield self.sync()

    def settle(self, known, cursor):
        """Goes by what the relay has of it (an account of the model, or None) and of its host."""
        self.seq = max(self.seq, cursor)
        if known is None:
            return
        self.is_active, self.is_lost = known.is_active, known.is_lost
        taken = [offer for offer in (self.offered, self.stored) if offer and offer[0] == known.head]
        if taken:
            self.head, self.pairs = taken[0]
        elif known.head != self.head:
            self.head, self.is_lost = None, True
        if known.last is not None:
            self.rev = max(self.rev, tid_value(known.last))
