"""Tapes of honest hosts, made by the plain model of messages.py: for each, what the authorities' table has to say, and what
any relay has to hash of it. The program that takes them, and what its runs cost, are those of tests/program.py."""
import itertools
import pathlib
import random
import sys

import messages as m

sys.path.insert(0, str(pathlib.Path(__file__).resolve().parent.parent / "tests"))
import program  # noqa: E402, F401

HOST = "a.example"
LINK = 41  # bytes of an encoded link
ACCOUNT = 208  # bytes that an account takes in memory (bench/accounts)


def record(message):
    """A record of a tape of the one host."""
    return program.record(HOST, message)


def did_of(i):
    return f"did:plc:{i:024x}"


def table(dids, host=HOST):
    """The table of an authority that knows these accounts, and trusts their signatures."""
    return "".join(f"home {did} {host}\ntrust {did}\n" for did in dids)


def sync(seq, rev, tree, did):
    """A `#sync` that says where an account's repository stands."""
    block = m.commit_block(m.tid(rev), tree.root, did)
    root = m.link_of(block)
    payload = {"did": did, "rev": m.tid(rev), "seq": seq, "time": m.TIME, "blocks": m.car(root, [(root, block)])}
    return m.encode({"t": "#sync", "op": 1}) + m.encode(payload)


def keys_in(block):
    """The keys of a node's block, put together."""
    keys, before, at = [], b"", 3
    count, at = length_at(block, at)
    for _ in range(count):
        size, at = length_at(block, at + 3)
        own, at = block[at:at + size], at + size + 2
        shared, at = length_at(block, at)
        before = before[:shared] + own
        keys.append(before)
        at += 2
        at += 1 if block[at] == 0xf6 else LINK
        at += 2 + LINK
    return keys


def length_at(block, at):
    """The length in a head, and where the head ends."""
    info = block[at] & 31
    size = {24: 1, 25: 2, 26: 4}.get(info, 0)
    return (int.from_bytes(block[at + 1:at + 1 + size], "big") if size else info), at + 1 + size


class Repository:
    """An account's records, of 300 bytes each, and its last commit."""

    def __init__(self, did, keys, heights, draw):
        self.did, self.heights, self.draw, self.rev = did, heights, draw, 1
        self.pairs = {key: m.link_of(body(i)) for i, key in enumerate(keys)}
        self.tree = m.Tree(dict(self.pairs), heights)

    def commit(self, seq, operations):
        """The next commit, and what has to be hashed of it: the blocks that it carries, each once, the nodes of the tree
        before it that aren't there any more, and the keys of its operations and of all nodes that it carries."""
        changes, records, before = {}, [], self.tree
        for _ in range(operations):
            known = self.draw.random() < 0.4
            key = self.draw.choice(before.keys) if known else post(self.draw)
            now = None
            if not (known and self.draw.random() < 0.5):
                block = body(self.draw.getrandbits(60))
                now = m.link_of(block)
                records.append((now, block))
            changes[key] = self.pairs.get(key), now
        for key, (_, now) in changes.items():
            self.pairs.pop(key, None)
            if now is not None:
                self.pairs[key] = now
        self.tree = m.Tree(dict(self.pairs), self.heights, before, changes)
        nodes = list(self.tree.cover(changes).items())
        self.rev += 1
        made = m.message(seq, m.tid(self.rev), m.tid(self.rev - 1), self.tree.root, before.root, dict(sorted(changes.items())),
                         nodes + records, self.did)
        commit = m.commit_block(m.tid(self.rev), self.tree.root, self.did)
        return made, hashed(before, changes, [commit, *(block for _, block in nodes + records)], nodes)


def hashed(before, changes, carried, nodes):
    there, undone = {link for link, _ in nodes}, {}
    for key in changes:
        before.way(key, undone)
    gone = [block for link, block in undone.items() if link not in there]
    keys = {*changes, *(key for _, block in nodes for key in keys_in(block))}
    return [*carried, *gone, *keys]


def body(n):
    """A record of 300 bytes."""
    return m.encode({"n": n, "text": "x" * (300 - len(m.encode({"n": n, "text": ""})) - 1)})


def post(draw):
    return b"app.bsky.feed.post/" + m.tid(draw.getrandbits(62)).encode()


def accounts(events, count, more):
    """`#account` messages of so many accounts in turn, small ones, or each with a field of so many bytes, which is handed on."""
    field = {"more": bytes(more)} if more else {}
    for i in range(events):
        payload = {"did": did_of(i % count), "seq": i + 1, "time": m.TIME, "active": True, **field}
        yield m.encode({"t": "#account", "op": 1}) + m.encode(payload)


def firehose(accounts, keys, commits):
    """The `#sync` of each account, with so many records; then commits of 1 to 4 operations of one account and another; and
    what has to be hashed of these."""
    begin, following = commits_of(accounts, keys)
    made = [next(following) for _ in range(commits)]
    return begin, [message for message, _ in made], [it for _, blocks in made for it in blocks]


def commits_of(accounts, keys):
    """The `#sync` of each account, with so many records; and commits of 1 to 4 operations of one account and another without
    end, each with what has to be hashed of it."""
    draw, heights = random.Random(11), {}
    held = sorted({post(draw) for _ in range(keys)})
    repositories = [Repository(did_of(i), held, heights, draw) for i in range(accounts)]
    begin = [sync(i + 1, 1, it.tree, it.did) for i, it in enumerate(repositories)]
    following = (draw.choice(repositories).commit(accounts + i + 1, 1 + i % 4) for i in itertools.count())
    return begin, following


def first_commits(start, end):
    """The first commit, of one record, of each account from the start to the end."""
    key, block = b"app.bsky.feed.post/one", body(1)
    now = m.link_of(block)
    changes = {key: (None, now)}
    tree = m.Tree({key: now})
    nodes = [it for it in tree.nodes.values()]
    # One message is encoded, and the others differ in the account, the commit that names it, and the number.
    base = 1 << 16
    did = did_of(0)
    model = m.message(base, m.tid(1), None, tree.root, None, changes, nodes + [(now, block)], did)
    commit = m.commit_block(m.tid(1), tree.root, did)
    root, number = m.link_of(commit), m.encode("seq") + m.encode(base)
    for i in range(start, end):
        own = commit.replace(did.encode(), did_of(i).encode())
        yield (model.replace(commit, own).replace(root, m.link_of(own)).replace(did.encode(), did_of(i).encode())
               .replace(number, m.encode("seq") + m.encode(base + i)))
