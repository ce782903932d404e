"""Made histories: the messages that are drawn from a number, and what a trial of them comes to."""
import base64
import pathlib
import sys

sys.path.insert(0, str(pathlib.Path(__file__).resolve().parent.parent.parent / "bench"))
import messages as m  # noqa: E402

EMPTY = bytes.fromhex("a2616580616cf6")


class Account:
    """An account of a history: its records, and the rev and the tree of its last commit."""

    def __init__(self, number):
        self.did = "did:plc:gen" + "abcdefghijklmnop"[number]
        self.pairs, self.heights, self.rev, self.tree = {}, {}, None, None

    def changes(self, i, draw):
        """What the next commit changes: each key with its link before and behind it."""
        found, keys = {}, sorted(self.pairs)
        for j in range(1 + draw(4)):
            kind, new = draw(8), m.value(i * 8 + j)
            if kind < 5 or not keys:
                found[b"app.gen.item/%08d" % (i * 4 + j)] = None, new
                continue
            key = keys[draw(len(keys))]
            if key not in found:
                found[key] = self.pairs[key], new if kind < 7 else None
        return found

    def blocks(self, changes):
        """The nodes on the ways to what was changed, and to what stands beside a new key."""
        found = {}
        for key, (was, now) in changes.items():
            self.tree.way(key, found)
            if was is None:
                at = self.tree.keys.index(key)
                for beside in self.tree.keys[max(at - 1, 0):at] + self.tree.keys[at + 1:at + 2]:
                    self.tree.way(beside, found)
        return sorted(found.items())

    def commit(self, i, seq, draw):
        """The message of the next commit, the i-th of the history."""
        rev, since, before = m.tid(i * 1024), self.rev, self.tree
        changes = self.changes(i, draw) if before else {}
        for key, (_, now) in changes.items():
            self.pairs.pop(key, None)
            if now is not None:
                self.pairs[key] = now
        self.rev, self.tree = rev, m.Tree(dict(self.pairs), self.heights)
        blocks = self.blocks(changes) if before else [(m.link_of(EMPTY), EMPTY)]
        return m.message(seq, rev, since, self.tree.root, before and before.root, changes, blocks, self.did)


class History:
    """So many messages that are drawn from a number: each with its host, and the accounts behind them."""

    def __init__(self, start, count):
        self.start, self.count, self.state = start, count, start
        self.accounts = [Account(number) for number in range(16)]
        self.seqs = [0] * 4
        self.messages = [self.message(i) for i in range(1, count + 1)]

    def draw(self, below):
        self.state = (self.state * 6364136223846793005 + 1442695040888963407) % 2**64
        return self.state // 2**33 % below

    def message(self, i):
        number = self.draw(16)
        host = number % 4
        self.seqs[host] += 1
        return f"h{host}.gen", self.accounts[number].commit(i, self.seqs[host], self.draw)

    def keys(self):
        return sum(len(account.pairs) for account in self.accounts)

    def summary(self):
        """The text of a trial: every message is an event, and both orders come to the same."""
        known = [account for account in self.accounts if account.tree]
        heads = m.link_of(b"".join(account.tree.root for account in known))
        first = f"trial {self.start} {self.count} accounts {len(known)} events {self.count} keys {self.keys()}"
        return f"{first}\nmerge same\nheads {text(heads)}\n"


def text(link):
    """A link as text."""
    return "b" + base64.b32encode(link).decode().lower().rstrip("=")
