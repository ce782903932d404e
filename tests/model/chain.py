"""A relay behind a relay: what the first one serves of its journal, what the second one makes of it, and what of an account has
to stand in both.

Rows are those of `journal.py`. The second relay trusts: every host is a home, and every signature is good.
"""
import re
from collections import namedtuple

from events import Event, frame
from items import Text, encode
from journal import CARRIED, FETCHED, MESSAGE, OPERATED, SEQ, SYNCED, TAKEN, did_of, event_of
from relay import LOSES, Relay

HOST, HOST_SEQ, KIND, CODE, EFFECT = 1, 2, 4, 5, 9
COMMIT, SYNC, ACCOUNT = 1, 2, 4
FUTURE_REV = 25
GONE = b"takendown", b"deleted"
FUTURE_CURSOR = encode({"op": -1}) + encode({"error": "FutureCursor"})
OUTDATED_CURSOR = encode({"t": "#info", "op": 1}) + encode({"name": "OutdatedCursor"})

# What a run of the second relay has to write, and the rows that it has to add.
Chained = namedtuple("Chained", "lines rows")
# A row of the second journal: the number of the first, the account, the refusal's code or 0, and the event that it sends on, or None.
Row = namedtuple("Row", "host_seq did code event")


class State:
    """What rows come to of an account. `head` is (rev, data, commit), where the repository is known."""

    def __init__(self):
        self.is_active, self.status, self.is_down, self.head, self.last, self.is_lost = True, None, False, None, None, False

    def good(self, head):
        self.head, self.last, self.is_lost = tuple(head), head[0], False

    def is_hidden(self):
        return self.is_down or not self.is_active and self.status in GONE

    def repository(self):
        return self.head or ("lost" if self.is_lost else "missing")

    def follow(self, row):
        """Has the account follow a row that names it."""
        if row[0] == CARRIED:
            self.is_active, self.status, self.is_down, repo = row[3:]
            if repo and len(repo) == 3:
                self.good(repo)
            elif repo:
                self.last, self.is_lost = repo[0], True
        elif row[0] == OPERATED:
            self.is_down = row[2]
        elif row[0] == SYNCED:
            self.good(row[2][1:4])
        elif row[CODE] in LOSES:
            self.head, self.is_lost = None, True
            if type(row[FETCHED]) is list:
                self.good(row[FETCHED][1:4])
        elif row[CODE] == 0 and row[KIND] in (COMMIT, SYNC):
            self.good(row[EFFECT])
        elif row[CODE] == 0 and row[KIND] == ACCOUNT:
            self.is_active, self.status = row[EFFECT]


def states(rows):
    """What rows come to of each account that they name."""
    found = {}
    for row in rows:
        if did_of(row):
            found.setdefault(did_of(row), State()).follow(row)
    return found


def is_of_repository(row):
    """Whether the event of a row is a `#commit` or a `#sync`."""
    return row[0] == SYNCED or row[0] == TAKEN and (row[KIND] in (COMMIT, SYNC) or type(row[FETCHED]) is list)


def is_withheld(row, accounts):
    """Whether the event of a row isn't shown, as the accounts stand."""
    return event_of(row) is not None and is_of_repository(row) and accounts[did_of(row)].is_hidden()


def last_of(rows):
    """The last number that rows give or carry, or 0."""
    return max([event[0] for event in map(event_of, rows) if event] + [row[2] for row in rows if row[:2] == [CARRIED, 0]], default=0)


def served(rows, cursor):
    """The messages that a relay with these rows serves behind a cursor."""
    accounts, last = states(rows), last_of(rows)
    if cursor > last:
        return [FUTURE_CURSOR]
    found = [(row, event_of(row)) for row in rows if event_of(row)]
    oldest = found[0][1][0] if found else last + 1
    notice = [OUTDATED_CURSOR] if cursor > 0 and cursor + 1 < oldest else []
    return notice + [message for row, (number, message) in found if number > cursor and not is_withheld(row, accounts)]


class Everyone:
    """A table in which every account has this home, and is trusted."""

    def __init__(self, host):
        self.host = host

    def get(self, did):
        return self.host

    def __contains__(self, did):
        return True


class Second:
    """A relay that takes what another serves as messages of a host. Its own rows are those of that host alone."""

    def __init__(self, host, repositories, moment):
        self.host = host
        self.relay = Relay(Everyone(host), Everyone(host), repositories, moment)

    def chain(self, rows):
        """A run over what a relay with these rows serves behind the second one's cursor, up to a message that ends the host."""
        messages = []
        for message in served(rows, self.relay.cursors.get(self.host, 0)):
            messages.append((self.host, message))
            if type(frame(message)) is str and frame(message).startswith("ended"):
                break
        lines = self.relay.report(messages)
        made = (row_of(message, line) for (_, message), line in zip(messages, lines))
        return Chained("".join(lines), [row for row in made if row])


def row_of(message, line):
    """The row that a message has to make, by its line, where it makes one."""
    event = frame(message)
    found = re.fullmatch(r"\S+ (\d+) (event|refused) (\d+).*\n", line)
    if not found:
        return None
    host_seq, number = int(found[1]), int(found[3])
    sent_on = (number, renumbered(message, number)) if found[2] == "event" else None
    return Row(host_seq, event.did, 0 if sent_on else number, sent_on)


def renumbered(message, number):
    """The message of an event under another number."""
    event = frame(message)
    return encode({"t": event.name, "op": 1}) + encode(as_written({**event.payload, "seq": number}))


def as_written(value):
    """A value as `encode` takes it."""
    if type(value) is Text:
        return value.decode()
    if type(value) is list:
        return [as_written(one) for one in value]
    return {key: as_written(one) for key, one in value.items()} if type(value) is dict else value


def rows_of_host(rows, host):
    """What rows of a host are, as the second relay has to make them: an accepted event's, or a refusal's."""
    for row in rows:
        if row[0] == TAKEN and row[HOST].decode() == host:
            is_sent = row[CODE] == 0 and row[SEQ] > 0
            yield Row(row[HOST_SEQ], did_of(row), row[CODE], (row[SEQ], row[MESSAGE]) if is_sent else None)


def raises(rows, did):
    """Whether each repository of the account that rows take over has a later revision than was known."""
    state = State()
    for row in rows:
        if did_of(row) != did:
            continue
        whole = row[2] if row[0] == SYNCED else row[FETCHED] if row[0] == TAKEN else None
        if type(whole) is list and state.last is not None and whole[1] <= state.last:
            return False
        state.follow(row)
    return True


def can_follow(did, one, two, new):
    """Whether the second relay has to accept all that the first one has of an account, which `two` may not name before the rows
    `new`."""
    mine, theirs = ([row for row in rows if did_of(row) == did] for rows in (one, new))
    accounts = states(one)
    return (all(row[0] != CARRIED and not is_withheld(row, accounts) for row in mine) and raises(one, did)
            and not any(did_of(row) == did for row in two) and all(row[0] != TAKEN or row[CODE] != FUTURE_REV for row in theirs))


def differences(one, two, new, host):
    """What is wrong with the rows `new` that the journal `two` got of what the journal `one` serves, of the accounts that have to
    be followed; and how many these are."""
    wrong, count = [], 0
    behind = states(two + new)
    for did, state in states(one).items():
        if not can_follow(did, one, two, new):
            continue
        count += 1
        sent = [event_of(row) for row in one if did_of(row) == did and event_of(row)]
        got = [row for row in rows_of_host(new, host) if row.did == did]
        accepted = [(row.host_seq, row.event and row.event[1]) for row in got if row.code == 0]
        wanted = [(number, renumbered(message, row.event[0]) if row.event else None) for (number, message), row in zip(sent, got)]
        if len(got) != len(sent) or accepted != wanted:
            wrong.append(f"{did}: not all events are accepted in order")
        if not state.is_lost and state.repository() != behind.get(did, State()).repository():
            wrong.append(f"{did}: another repository")
    return wrong, count
