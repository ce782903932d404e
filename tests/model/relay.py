"""The relay: what it decides of messages, what becomes of accounts and hosts, and the report that it has to print."""
import base64

from events import Event, frame
from items import Fault, Text, car, commit_object, is_node, is_path, tid_value
from trees import EMPTY, AtFault, root, stop, undone, view

NAMES = {
    1: "BadEvent", 2: "NotHome", 3: "Inactive", 4: "TakenDown", 5: "TooBig", 6: "BlocksTooLong", 7: "TooManyOps", 8: "BadPath",
    9: "RepeatedPath", 10: "BadOp", 11: "Stale", 12: "BadCar", 13: "WrongRoot", 14: "WrongDigest", 15: "NoCommit", 16: "BadCommit",
    17: "OtherCommit", 18: "BadSignature", 19: "Gap", 20: "BadNode", 21: "OtherOp", 22: "NotCovered", 23: "OtherData", 24: "TooLong",
    25: "FutureRev", 30: "NotCommit"}
LOSES = {5, 19, 20, 21, 22, 23}
LONGEST_OUT = 4_194_304
LONGEST_BLOCKS = {"#commit": 2_000_000, "#sync": 10_000}
MOST_OPS = 200
AHEAD = 300_000_000  # microseconds


def link_text(link):
    return "b" + base64.b32encode(link).decode().lower().rstrip("=")


class Refused(Exception):
    """A refusal with its code and its detail, as a report prints it."""

    def __init__(self, code, detail=""):
        super().__init__(code)
        self.code, self.detail = code, detail


class Account:
    """What a journal comes to of an account: `head` is (rev, data) where it is good, and `last` its last revision."""

    def __init__(self):
        self.is_active, self.head, self.last, self.is_lost = True, None, None, False

    def good(self, rev, data):
        self.head, self.last, self.is_lost = (rev, data), rev, False

    def lose(self):
        self.head, self.is_lost = None, True


class Relay:
    """A journal's state. Homes are the hosts of DIDs, trusted the DIDs whose signatures are good; of `repositories` DID: bytes."""

    def __init__(self, homes, trusted, repositories, moment):
        self.homes, self.trusted, self.repositories, self.moment = homes, trusted, repositories, moment
        self.accounts, self.cursors, self.last = {}, {}, 0
        self.ended = set()

    def report(self, messages):
        """The lines of a run over messages (host, bytes)."""
        self.ended, first, refused, lines = set(), self.last, 0, []
        for host, message in messages:
            words = self.take(host, message)
            refused += " refused " in f" {words}"
            lines.append(f"{host} {words}\n")
        lines.append(f"end {len(lines)} events {self.last - first} refused {refused} last {self.last}\n")
        return lines

    def take(self, host, message):
        if host in self.ended:
            return "after end"
        event = frame(message)
        if not isinstance(event, Event):
            if event.startswith("ended"):
                self.ended.add(host)
            return event
        if event.seq <= self.cursors.get(host, 0):
            return f"{event.seq} old"
        self.cursors[host] = event.seq
        try:
            self.decide(host, event)
        except Refused as why:
            return f"{event.seq} refused {why.code} {NAMES[why.code]}{why.detail}{self.fetched(event, why.code)}"
        self.last += 1
        return f"{event.seq} event {self.last}"

    def decide(self, host, event):
        """Accepts an event, or says why it is refused."""
        if event.kind is None:
            raise Refused(1)
        account = self.accounts.setdefault(event.did, Account())
        if event.out_len() > LONGEST_OUT:
            raise Refused(24)
        if self.homes.get(event.did) != host:
            raise Refused(2)
        if event.kind == "#identity":
            return
        if event.kind == "#account":
            account.is_active = event.payload["active"]
            return
        if not account.is_active:
            raise Refused(3)
        rev, data, blocks = opened(event, account.last)
        if self.is_ahead(rev):
            raise Refused(25)
        if event.did not in self.trusted:
            raise Refused(18)
        if event.kind == "#commit":
            linked(event, account, data, blocks)
        account.good(rev, data)

    def is_ahead(self, rev):
        return tid_value(rev) // 1024 > self.moment + AHEAD

    def fetched(self, event, code):
        """What becomes of an account that is lost, and of the fetch that follows."""
        if code not in LOSES:
            return ""
        account = self.accounts[event.did]
        account.lose()
        if event.did not in self.repositories:
            return " absent"
        try:
            rev, data, records = self.checked(event.did, account.last)
        except Refused as why:
            return f" repository {why.code}"
        account.good(rev, data)
        self.last += 1
        return f" synced {self.last} records {records}"

    def sync(self, did):
        """The status and the line of an operator's word that an account's whole repository be taken over."""
        account = self.accounts.setdefault(did, Account())
        if not account.is_active:
            return 15, "refused 3 Inactive\n"
        if did not in self.repositories:
            return 15, "refused 33 NoRepository\n"
        try:
            rev, data, records = self.checked(did, account.last)
        except Refused as why:
            return 15, f"refused 34 RepositoryRefused {why.code}\n"
        account.good(rev, data)
        self.last += 1
        return 0, f"synced {self.last} records {records}\n"

    def checked(self, did, least):
        """The revision, the data and the number of records of an account's whole repository."""
        try:
            roots, blocks = car(self.repositories[did])
        except Fault as wrong:
            raise Refused(1) from wrong
        if not roots or roots[0] not in blocks:
            raise Refused(2)
        try:
            commit = commit_object(blocks[roots[0]])
        except Fault as wrong:
            raise Refused(3) from wrong
        if commit["did"].decode() != did:
            raise Refused(4)
        if least is not None and commit["rev"] < least:
            raise Refused(5)
        try:
            records = len(view(blocks, commit["data"], is_whole=True))
        except AtFault as fault:
            raise Refused(7 if fault.is_there else 6) from fault
        if self.is_ahead(commit["rev"]):
            raise Refused(12)
        if did not in self.trusted:
            raise Refused(10)
        return commit["rev"], commit["data"], records


def opened(event, last):
    """The revision and the data of an event's commit object, and the blocks."""
    payload = event.payload
    is_commit = event.kind == "#commit"
    if is_commit and payload.get("tooBig", False):
        raise Refused(5)
    if len(payload["blocks"]) > LONGEST_BLOCKS[event.kind]:
        raise Refused(6)
    if is_commit:
        check_ops(payload["ops"])
    if last is not None and payload["rev"] <= last:
        raise Refused(11)
    try:
        roots, blocks = car(payload["blocks"])
    except Fault as wrong:
        raise Refused(14 if wrong.args else 12) from wrong
    if not roots or is_commit and roots[0] != payload["commit"]:
        raise Refused(13)
    if roots[0] not in blocks:
        raise Refused(15)
    try:
        commit = commit_object(blocks[roots[0]])
    except Fault as wrong:
        raise Refused(16) from wrong
    if commit["did"].decode() != event.did or commit["rev"] != payload["rev"]:
        raise Refused(17)
    return commit["rev"], commit["data"], blocks


def check_ops(ops):
    """Refusals 7 to 10."""
    if len(ops) > MOST_OPS:
        raise Refused(7)
    paths = [bytes(op["path"]) for op in ops]
    if not all(map(is_path, paths)):
        raise Refused(8)
    if len(set(paths)) < len(paths):
        raise Refused(9)
    for op in ops:
        action, cid, prev = bytes(op["action"]), op.get("cid"), op.get("prev")
        if action not in (b"create", b"update", b"delete") or (cid is None) != (action == b"delete"):
            raise Refused(10)
        if action == b"create" and prev is not None:
            raise Refused(10)


def linked(event, account, data, blocks):
    """Refusals 19 to 23 of a commit for its account."""
    payload = event.payload
    since, prev, expected = payload.get("since"), payload.get("prevData"), EMPTY
    if account.is_lost:
        raise Refused(19)
    if account.head is not None:
        expected = account.head[1]
        if since != account.head[0] or prev != expected:
            raise Refused(19)
    elif since is not None or prev not in (None, EMPTY):
        raise Refused(19)
    led(payload, expected, data, blocks)


def led(payload, expected, data, blocks):
    """The refusals of operations that don't lead from the expected root to the commit's data."""
    if any(bytes(op["action"]) != b"create" and op.get("prev") is None for op in payload["ops"]):
        raise Refused(19)
    changes = [(bytes(op["path"]), op.get("prev"), op.get("cid")) for op in payload["ops"]]
    got = data
    if changes:
        try:
            shown = view(blocks, data)
        except AtFault as fault:
            raise Refused(20, f" at {link_text(fault.link)}") from fault
        stopped = stop(shown, changes)
        if stopped:
            raise Refused(stopped[0], f" op {stopped[1]}")
        got = root(undone(shown, changes))
    if got != expected:
        raise Refused(23, f" want {link_text(expected)} got {link_text(got)}")


def checked_alone(message):
    """The status and the line of a message that is checked by itself."""
    try:
        return 0, alone(frame(message))
    except Refused as why:
        return 15, f"refused {why.code} {NAMES[why.code]}{why.detail}\n"


def alone(event):
    if not isinstance(event, Event):
        raise Refused(30)
    if event.kind is None:
        raise Refused(1)
    if event.kind != "#commit":
        raise Refused(30)
    if event.out_len() > LONGEST_OUT:
        raise Refused(24)
    _, data, blocks = opened(event, None)
    payload = event.payload
    prev = payload.get("prevData")
    if prev is None and payload.get("since") is not None:
        raise Refused(19)
    expected = EMPTY if prev is None else prev
    led(payload, expected, data, blocks)
    return f"from {link_text(expected)} to {link_text(data)} ops {len(payload['ops'])}\n"
