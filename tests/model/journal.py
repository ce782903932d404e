"""The journal as it stands in a log, or in one of a pair: its rows, and what they come to."""
from items import Fault, whole

FRONT = b"\x01atrelay"
GENERATION = 8  # bytes behind the front of a log that a cut made
TAKEN, SYNCED, OPERATED, CARRIED = 1, 2, 3, 4
ACCOUNT = 2  # of carried rows
SEQ, MESSAGE, FETCHED = 7, 8, 10
ITEMS = {TAKEN: 11, SYNCED: 3, OPERATED: 5}  # of rows, before their moment


def is_unmade(log):
    return len(log) < 10 or len(log) == 10 and log[:1] != b"\x01"


def front(log):
    """The length of a log's front, and its generation: 0 in the first format."""
    if log[:8] != FRONT or log[8:9] not in (b"\x01", b"\x02"):
        raise Fault
    end = 9 if log[8] == 1 else 9 + GENERATION
    return end, int.from_bytes(log[9:end], "big")


def bodies(log):
    """The bodies of a log, up to the first closed gate; an unmade one has none."""
    if is_unmade(log):
        return []
    found, (at, _) = [], front(log)
    while log[at:at + 1] == b"\x01":
        size = int.from_bytes(log[at + 1:at + 5], "big")
        found.append(log[at + 5:at + 5 + size])
        at += 5 + size
    if at >= len(log):
        raise Fault
    return found


def picked(log, other):
    """The log of a pair that counts: of two that stand the one of the greater generation."""
    standing = [each for each in (log, other) if len(each) >= 10 and each[:1] == b"\x01"]
    return max(standing, key=lambda each: front(each)[1], default=b"")


def rows(log):
    """The rows, each without its moment."""
    return [row[:ITEMS.get(row[0])] for body in bodies(log) for row in whole(body)]


def did_of(row):
    """The account that a row names, or None."""
    if row[0] == CARRIED:
        return row[2].decode() if row[1] == ACCOUNT else None
    return (row[3] if row[0] == TAKEN else row[1]).decode() or None


def event_of(row):
    """The number and the message of the event that a row sends out, or None."""
    if row[0] == TAKEN:
        if row[SEQ] > 0:
            return row[SEQ], row[MESSAGE]
        return (row[FETCHED][0], row[FETCHED][5]) if type(row[FETCHED]) is list else None
    if row[0] == SYNCED:
        return row[2][0], row[2][5]
    return (row[3], row[4]) if row[0] == OPERATED else None


def events(found):
    """The events of rows, in order: number and message."""
    return filter(None, map(event_of, found))


def cursors(found):
    """The number of each host's last row, in the order of their first rows."""
    last = {}
    for row in found:
        if row[0] == TAKEN:
            last[row[1].decode()] = row[2]
    return last
