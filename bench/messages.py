"""Honest messages of the firehose, made by a plain model of the Repository specification (version 3): DAG-CBOR, links,
CARs, trees, and `#commit` frames whose blocks are those that an inductive check needs."""
import bisect
import hashlib

DID = "did:plc:bench"
TIME = "2025-01-01T00:00:00Z"
DIGITS = "234567abcdefghijklmnopqrstuvwxyz"


def head(major, n):
    if n < 24:
        return bytes([32 * major + n])
    for info, size in ((24, 1), (25, 2), (26, 4), (27, 8)):
        if n < 1 << 8 * size:
            return bytes([32 * major + info]) + n.to_bytes(size, "big")
    raise ValueError(n)


class Link(bytes):
    """The 36 bytes of a link."""


def encode(value):
    if value is None:
        return b"\xf6"
    if isinstance(value, bool):
        return b"\xf5" if value else b"\xf4"
    if isinstance(value, int):
        return head(0, value) if value >= 0 else head(1, -1 - value)
    if isinstance(value, Link):
        return b"\xd8\x2a\x58\x25\x00" + value
    if isinstance(value, (bytes, bytearray)):
        return head(2, len(value)) + value
    if isinstance(value, str):
        text = value.encode()
        return head(3, len(text)) + text
    if isinstance(value, list):
        return head(4, len(value)) + b"".join(map(encode, value))
    keys = sorted(value, key=lambda key: (len(key.encode()), key.encode()))
    return head(5, len(keys)) + b"".join(encode(key) + encode(value[key]) for key in keys)


def link_of(block):
    return Link(b"\x01\x71\x12\x20" + hashlib.sha256(block).digest())


def height(key):
    digest = hashlib.sha256(key).digest()
    bits = int.from_bytes(digest, "big")
    return (256 - bits.bit_length()) // 2


def shared(left, right):
    """How many bytes two keys have in common at their front."""
    count = min(len(left), len(right))
    differing = int.from_bytes(left[:count], "big") ^ int.from_bytes(right[:count], "big")
    return count - (differing.bit_length() + 7) // 8


def tid(value):
    return "".join(DIGITS[value >> shift & 31] for shift in range(60, -1, -5))


def varint(n):
    out = bytearray()
    while n >= 128:
        out.append(n & 127 | 128)
        n >>= 7
    return bytes(out) + bytes([n])


def car(root, blocks):
    front = encode({"version": 1, "roots": [root]})
    sections = [varint(36 + len(block)) + link + block for link, block in blocks]
    return varint(len(front)) + front + b"".join(sections)


class Tree:
    """The tree of a map from keys to links. It is made of nothing, or of the tree before some keys changed, whose nodes away
    from these keys it keeps. Nodes stand under their layer and their first key."""

    def __init__(self, pairs, known=None, before=None, changed=()):
        self.keys = sorted(pairs)
        self.pairs = pairs
        self.heights = known if known is not None else {}
        self.changed = None if before is None else sorted(changed)
        for key in self.keys if before is None else self.changed:
            if key not in self.heights:
                self.heights[key] = height(key)
        self.nodes = {} if before is None else dict(before.nodes)
        self.top = max((self.heights[key] for key in self.keys), default=0)
        self.root = self.node(self.top, 0, len(self.keys))

    def place(self, layer, start, end):
        return layer, self.keys[start] if start < end else None

    def is_kept(self, start, end):
        """Whether no key from the one in front of a node to the one behind it changed."""
        if self.changed is None:
            return False
        at = bisect.bisect_left(self.changed, self.keys[start - 1]) if start > 0 else 0
        return at == len(self.changed) or (end < len(self.keys) and self.changed[at] > self.keys[end])

    def node(self, layer, start, end):
        """The link of the node at a layer over the keys from start to end."""
        if self.is_kept(start, end):
            return self.nodes[self.place(layer, start, end)][0]
        own = [i for i in range(start, end) if self.heights[self.keys[i]] == layer] if layer else list(range(start, end))
        cuts = [start - 1] + own + [end]
        parts = []
        for left, right in zip(cuts, cuts[1:]):
            parts.append(self.node(layer - 1, left + 1, right) if right - left > 1 else None)
        entries, before = [], b""
        for i, right in zip(own, parts[1:]):
            key = self.keys[i]
            count = shared(before, key)
            entries.append(b"\xa4\x61k" + encode(key[count:]) + b"\x61p" + head(0, count) + b"\x61t" + encode(right)
                           + b"\x61v" + encode(self.pairs[key]))
            before = key
        block = b"\xa2\x61e" + head(4, len(entries)) + b"".join(entries) + b"\x61l" + encode(parts[0])
        link = link_of(block)
        self.nodes[self.place(layer, start, end)] = link, block
        return link

    def way(self, key, found):
        """Adds the nodes on the way to a key."""
        layer, start, end = self.top, 0, len(self.keys)
        at = bisect.bisect_left(self.keys, key)
        while True:
            link, block = self.nodes[self.place(layer, start, end)]
            found[link] = block
            left = at - 1
            while left >= start and self.heights[self.keys[left]] < layer:
                left -= 1
            here = at < end and self.keys[at] == key
            if here and self.heights[key] == layer:
                return
            right = at
            while right < end and self.heights[self.keys[right]] < layer:
                right += 1
            start, end = max(start, left + 1), right
            if layer == 0 or start >= end:
                return
            layer -= 1

    def cover(self, changes):
        found = {}
        for key, (_, now) in changes.items():
            self.way(key, found)
            at = bisect.bisect_left(self.keys, key)
            if now is not None:
                if at > 0:
                    self.way(self.keys[at - 1], found)
                if at + 1 < len(self.keys):
                    self.way(self.keys[at + 1], found)
        return found


def commit_block(rev, data, did=DID):
    return encode({"did": did, "rev": rev, "sig": bytes(64), "data": data, "prev": None, "version": 3})


def operation(key, was, now):
    action = "create" if was is None else "delete" if now is None else "update"
    op = {"action": action, "path": key.decode(), "cid": now}
    if was is not None:
        op["prev"] = was
    return op


def message(seq, rev, since, data, prev_data, changes, blocks, did=DID):
    """A `#commit`: changes is a map from keys to (former link, new link), blocks a list of (link, block)."""
    block = commit_block(rev, data, did)
    root = link_of(block)
    payload = {
        "seq": seq, "repo": did, "rev": rev, "since": since, "commit": root, "time": TIME, "rebase": False,
        "tooBig": False, "blobs": [], "blocks": car(root, [(root, block), *blocks]),
        "ops": [operation(key, was, now) for key, (was, now) in changes.items()],
    }
    if prev_data is not None:
        payload["prevData"] = prev_data
    return encode({"t": "#commit", "op": 1}) + encode(payload)


def value(n):
    return link_of(encode({"n": n}))


def step(pairs, changes, seq=2, rev=2, more=(), heights=None):
    """The message of a commit that makes these changes to the map."""
    heights = {} if heights is None else heights
    later = dict(pairs)
    for key, (_, now) in changes.items():
        later.pop(key, None)
        if now is not None:
            later[key] = now
    before, after = Tree(pairs, heights), Tree(later, heights)
    blocks = list(after.cover(changes).items()) + list(more)
    return message(seq, tid(rev), tid(rev - 1), after.root, before.root, changes, blocks)
