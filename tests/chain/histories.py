"""Drawn histories of two relays, one behind the other: what the first one takes in rounds, and what the second one makes of it.

The accounts, their messages and their repositories are those of `tests/mutate`; few of the messages are mutated. The first
relay is the program `relay`; what the second one has to write and to keep is said by `tests/model/chain.py`, from the rows of
the first one's journal.
"""
import pathlib
import random
import sys
import time

TESTS = pathlib.Path(__file__).resolve().parent.parent
sys.path[:0] = [str(TESTS), str(TESTS / "model"), str(TESTS / "mutate")]
import chain  # noqa: E402
import journal  # noqa: E402
import program  # noqa: E402
from accounts import Account  # noqa: E402
from items import link_of  # noqa: E402
from mutations import mutated  # noqa: E402
from relay import Relay, link_text  # noqa: E402

HOST = "first.relay"
TIME = "2025-01-01T00:00:00Z"
ACCOUNTS, ROUNDS, MESSAGES = 6, 3, 12
ENDS = {0, 15}  # of an operator's command: done, or refused


def rows_of(folder):
    """The rows of the journal in a folder."""
    logs = (folder / name for name in ("log", "log.2"))
    return journal.rows(journal.picked(*(log.read_bytes() if log.exists() else b"" for log in logs)))


class History:
    """Two folders, of which the first one's journal is made here, round by round."""

    def __init__(self, seed, folder):
        self.draw, self.first, self.second = random.Random(seed), folder / "first", folder / "second"
        self.accounts = [Account(i) for i in range(ACCOUNTS)]
        self.share = self.draw.choice((0, 0.1, 0.3))  # of messages that are mutated
        repositories = self.repositories()
        for folder, fetched in (self.first, repositories), (self.second, self.draw.choice((repositories, {}))):
            (folder / "repos").mkdir(parents=True)
            for did, content in fetched.items():
                (folder / f"repos/{link_text(link_of(did.encode()))}.car").write_bytes(content)
        for method in ("plc", "web"):
            lines = [f"home {a.did} {a.host}\ntrust {a.did}\n" for a in self.accounts if f":{method}:" in a.did]
            (self.first / f"{method}.1").write_text("".join(lines))
        now = time.time() * 1e6
        self.known = Relay({a.did: a.host for a in self.accounts}, {a.did for a in self.accounts}, repositories, now)
        self.model = chain.Second(HOST, fetched, now)

    def repositories(self):
        """Whole repositories of some accounts, each behind a few changes that no message brings."""
        return {a.did: a.repository(self.draw).car() for a in self.accounts if self.draw.random() < 0.5}

    def tape(self):
        """Messages, each with its host: mostly what an honest host would send next."""
        found, sent = [], []
        for _ in range(MESSAGES):
            account = self.draw.choice(self.accounts)
            parts = next(account.ready(), None) or self.message(account)
            sent.append(parts.message())
            if self.draw.random() < self.share:
                found.append((account.host, mutated(self.draw, parts, sent)))
            else:
                found.append((account.host, sent[-1]))
            self.known.take(*found[-1])
            account.settle(self.known.accounts.get(account.did), self.known.cursors.get(account.host, 0))
        return found

    def message(self, account):
        kind = self.draw.random()
        if kind < 0.8:
            return account.commit(self.draw)
        return self.draw.choice((account.sync, account.identity, account.account, lambda: account.account(active=False)))()

    def go_on(self):
        """Has the first relay take messages, and commands of an operator."""
        tape = b"".join(program.record(*message) for message in self.tape())
        status, report = program.run(self.first, "ingest", given=tape)
        if status != 0:
            sys.exit(f"ingest: status {status}, {report.decode()}")
        for _ in range(self.draw.choice((0, 1, 2))):
            self.command(self.draw.choice(("takedown", "restore", "restore", "sync")), self.draw.choice(self.accounts).did, TIME)
        if self.draw.random() < 0.1:
            self.command("cut", str(self.draw.randrange(1, 1 + max(1, chain.last_of(rows_of(self.first))))))

    def command(self, *words):
        status, report = program.run(self.first, *words)
        if status not in ENDS:
            sys.exit(f"{' '.join(words)}: status {status}, {report.decode()}")

    def wanted(self):
        """What the second relay has to write, and the rows that it has to add, behind what the first one has now."""
        return self.model.chain(rows_of(self.first))


def differences(history, run):
    """What is wrong with a history. `run` runs the second relay on two folders for a host: it gives its status and its output."""
    for turn in range(ROUNDS):
        history.go_on()
        before, wanted = rows_of(history.second), history.wanted()
        status, written = run(history.first, history.second, HOST)
        if (status, written.decode()) != (0, wanted.lines):
            yield f"round {turn}: wanted {wanted.lines!r}, got status {status}, {written.decode()!r}"
            return
        now = rows_of(history.second)
        new = now[len(before):]
        if now[:len(before)] != before or list(chain.rows_of_host(new, HOST)) != wanted.rows or len(new) != len(wanted.rows):
            yield f"round {turn}: another journal"
        if turn == 0:
            wrong, _ = chain.differences(rows_of(history.first), before, new, HOST)
            yield from (f"round {turn}: {each}" for each in wrong)
    # A remark may come again, but no event: of a cursor below the oldest event, where what stands behind it isn't shown.
    wanted, again = history.wanted(), run(history.first, history.second, HOST)
    if again != (0, wanted.lines.encode()) or wanted.rows:
        yield f"once more: {again}"
