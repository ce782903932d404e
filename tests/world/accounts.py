"""Accounts with real keys: their records, and the commits and repositories that their hosts hand out."""
import base64
import hashlib
import pathlib
import sys

from cryptography.hazmat.primitives import hashes, serialization
from cryptography.hazmat.primitives.asymmetric import ec, utils

sys.path.insert(0, str(pathlib.Path(__file__).resolve().parents[2] / "bench"))
import messages as m  # noqa: E402
from messages import Link, encode, link_of  # noqa: E402

BASE58 = "123456789ABCDEFGHJKLMNPQRSTUVWXYZabcdefghijkmnopqrstuvwxyz"
# Each curve with the code of its keys (Multicodec) and the order of its group.
SECP256K1 = ec.SECP256K1(), b"\xe7\x01", 0xFFFFFFFFFFFFFFFFFFFFFFFFFFFFFFFEBAAEDCE6AF48A03BBFD25E8CD0364141
P256 = ec.SECP256R1(), b"\x80\x24", 0xFFFFFFFF00000000FFFFFFFFFFFFFFFFBCE6FAADA7179E84F3B9CAC2FC632551
FIRST_MOMENT = 1_735_689_600_000_000  # 2025-01-01, in microseconds
TIME = "2025-01-01T00:00:00Z"


def base58(content: bytes) -> str:
    value, out = int.from_bytes(content, "big"), ""
    while value:
        value, digit = divmod(value, 58)
        out = BASE58[digit] + out
    return "1" * (len(content) - len(content.lstrip(b"\0"))) + out


class Key:
    """A signing key of one of the two kinds."""

    def __init__(self, seed: str, kind: tuple):
        curve, self.code, self.order = kind
        number = int.from_bytes(hashlib.sha256(seed.encode()).digest(), "big") % (self.order - 1) + 1
        self.private = ec.derive_private_key(number, curve)

    def multikey(self) -> str:
        point = self.private.public_key().public_bytes(serialization.Encoding.X962, serialization.PublicFormat.CompressedPoint)
        return "z" + base58(self.code + point)

    def pem(self) -> bytes:
        return self.private.public_key().public_bytes(serialization.Encoding.PEM, serialization.PublicFormat.SubjectPublicKeyInfo)

    def sign(self, content: bytes, is_high: bool = False) -> bytes:
        """r and s, with s in the lower half, or in the upper one."""
        r, s = utils.decode_dss_signature(self.private.sign(content, ec.ECDSA(hashes.SHA256())))
        if (s > self.order // 2) != is_high:
            s = self.order - s
        return r.to_bytes(32, "big") + s.to_bytes(32, "big")


def plc_did(name: str) -> str:
    return "did:plc:" + base64.b32encode(hashlib.sha256(name.encode()).digest()).decode().lower()[:24]


class Account:
    """An account as its host has it: `records` are the blocks of its records, under their paths."""

    moment = FIRST_MOMENT

    def __init__(self, name: str, kind: tuple, did: str = ""):
        self.name, self.did, self.kind = name, did or plc_did(name), kind
        self.key = Key(name, kind)
        self.records, self.heights = {}, {}
        self.rev, self.tree, self.block, self.count = None, None, None, 0
        self.is_active = True

    def next_rev(self) -> str:
        Account.moment += 1_000_000
        return m.tid(Account.moment * 1024)

    def pairs(self) -> dict:
        return {path: link_of(block) for path, block in self.records.items()}

    def commit_object(self, rev: str, data: Link, key: Key, is_high: bool = False) -> bytes:
        fields = {"did": self.did, "rev": rev, "data": data, "prev": None, "version": 3, "note": f"of {self.name}"}
        return encode({**fields, "sig": key.sign(encode(fields), is_high)})

    def commit(self, creates: int = 1, updates: int = 0, deletes: int = 0, is_kept: bool = True, key: "Key | None" = None,
               is_high: bool = False) -> dict:
        """The fields of the `#commit` that makes these numbers of changes. One that isn't kept is no part of the account."""
        before, later = self.pairs(), dict(self.records)
        paths = sorted(self.records)
        for i in range(creates):
            self.count += 1
            path = b"app.bsky.feed.post/%s" % m.tid((FIRST_MOMENT + self.count) * 1024).encode()
            later[path] = encode({"$type": "app.bsky.feed.post", "text": f"{self.name} {self.count}", "createdAt": TIME})
        for path in paths[:updates]:
            later[path] = encode({"$type": "app.bsky.feed.post", "text": f"{self.name} again {self.next_rev()}", "createdAt": TIME})
        for path in paths[len(paths) - deletes:]:
            del later[path]
        after = {path: link_of(block) for path, block in later.items()}
        changes = {path: (before.get(path), after.get(path)) for path in sorted(before.keys() | after.keys()) if before.get(path) != after.get(path)}
        rev, tree = self.next_rev(), m.Tree(after, self.heights)
        block = self.commit_object(rev, tree.root, key or self.key, is_high)
        fields = self.fields(rev, tree, block, changes, later)
        if is_kept:
            self.records, self.rev, self.tree, self.block = later, rev, tree, block
        return fields

    def fields(self, rev: str, tree: m.Tree, block: bytes, changes: dict, later: dict) -> dict:
        """The fields of a `#commit`, with the blocks of the tree that show its changes, and the new records."""
        root = link_of(block)
        nodes = list(tree.cover(changes).items()) if changes else []
        new = [(now, later[path]) for path, (_, now) in changes.items() if now is not None]
        fields = {
            "repo": self.did, "rev": rev, "since": self.rev, "commit": root, "time": TIME, "rebase": False, "tooBig": False,
            "blobs": [], "blocks": m.car(root, [(root, block), *nodes, *new]),
            "ops": [m.operation(path, was, now) for path, (was, now) in changes.items()],
        }
        if self.tree is not None:
            fields["prevData"] = self.tree.root
        return fields

    def sync(self) -> dict:
        """The fields of a `#sync` of the last commit."""
        root = link_of(self.block)
        return {"did": self.did, "rev": self.rev, "time": TIME, "blocks": m.car(root, [(root, self.block)])}

    def repository(self) -> bytes:
        """The whole repository as a CAR."""
        nodes = list(dict(self.tree.nodes.values()).items())
        return m.car(link_of(self.block), [(link_of(self.block), self.block), *nodes, *((link_of(each), each) for each in self.records.values())])
