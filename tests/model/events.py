"""Frames and events of a host's stream."""
from items import LAST, Fault, Link, Text, is_did, is_node, is_tid, item, encode

KINDS = ("#commit", "#sync", "#identity", "#account")


class Event:
    """An event with its number; `kind` is None where one of its fields has another form than it should."""

    def __init__(self, kind, payload, size):
        self.name, self.payload, self.size, self.seq = kind, payload, size, payload["seq"]
        self.kind = kind if FORMS[kind](payload) else None
        self.did = payload["repo" if kind == "#commit" else "did"].decode() if self.kind else None

    def out_len(self):
        """The length of the message that goes out, with a number of nine bytes; the payload's has one encoding."""
        return len(encode({"t": self.name, "op": 1})) + self.size - len(encode(self.seq)) + 9


def is_short(value):
    return type(value) is Text and len(value) <= 64


def is_link_or_none(value):
    return value is None or type(value) is Link


def is_op(op):
    return (type(op) is dict and type(op.get("action")) is Text and type(op.get("path")) is Text
            and is_link_or_none(op.get("cid")) and is_link_or_none(op.get("prev")))


def is_commit(payload):
    since, prev = payload.get("since"), payload.get("prevData")
    return (is_did(payload.get("repo")) and is_node(payload.get("commit")) and is_tid(payload.get("rev"))
            and type(payload.get("blocks")) is bytes and type(payload.get("ops")) is list and all(map(is_op, payload["ops"]))
            and is_short(payload.get("time")) and (since is None or is_tid(since)) and (prev is None or is_node(prev))
            and type(payload.get("tooBig", False)) is bool)


def is_sync(payload):
    return is_identity(payload) and is_tid(payload.get("rev")) and type(payload.get("blocks")) is bytes


def is_identity(payload):
    return is_did(payload.get("did")) and is_short(payload.get("time"))


def is_account(payload):
    status = payload.get("status")
    return is_identity(payload) and type(payload.get("active")) is bool and (status is None or is_short(status))


FORMS = dict(zip(KINDS, (is_commit, is_sync, is_identity, is_account)))


def frame(message):
    """An event, or the word that a report has for another message."""
    try:
        header, at = item(message)
        payload, end = item(message, at)
    except Fault:
        return "ended frame"
    if end != len(message) or type(header) is not dict or type(payload) is not dict or type(header.get("op")) is not int:
        return "ended frame"
    if header["op"] != 1:
        return "ended error" if header["op"] == -1 else "unknown"
    kind = header.get("t")
    if type(kind) is not Text:
        return "ended frame"
    kind = kind.decode()
    if kind not in KINDS:
        return "info" if kind == "#info" else "unknown"
    seq = payload.get("seq")
    if type(seq) is not int or not 0 <= seq <= LAST:
        return "ended seq"
    return Event(kind, payload, end - at)
