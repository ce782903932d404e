"""Hosts and accounts for a live relay: honest hosts on which much goes on, and hostile ones."""
import pathlib
import random
import sys
import threading
import time

TESTS = pathlib.Path(__file__).resolve().parents[1]
sys.path[:0] = [str(TESTS), str(TESTS / "world"), str(TESTS / "model")]
from accounts import P256, SECP256K1, Account, Key, encode  # noqa: E402
from hosts import Directory, Host  # noqa: E402

SHORT = 20  # letters


class Shared(Account):
    """An account that goes on while its repository is asked for."""

    def __init__(self, *words):
        super().__init__(*words)
        self.lock = threading.RLock()

    def commit(self, *words, **changes) -> dict:
        with self.lock:
            return super().commit(*words, **changes)

    def repository(self) -> bytes:
        with self.lock:
            return super().repository()

    def commit_object(self, *words) -> bytes:
        """A commit object, which says an account's name: of a very long one, which is for long records, the front alone."""
        name, self.name = self.name, self.name[:SHORT]
        try:
            return super().commit_object(*words)
        finally:
            self.name = name


class Scene:
    """A directory, honest hosts with accounts, and what goes on there, drawn from a seed."""

    def __init__(self, hosts: int = 2, accounts: int = 3, seed: int = 1, context=None):
        self.directory, self.hosts = Directory(context), [Host(context) for _ in range(hosts)]
        self.draw, self.home = random.Random(seed), {}
        self.lock = threading.Lock()
        for i, host in enumerate(self.hosts):
            for j in range(accounts):
                self.add(host, f"{'abc'[i]}{j}-{seed}", SECP256K1 if (i + j) % 2 else P256)

    def add(self, host: Host, name: str, kind: tuple) -> Account:
        """An account that is new at its host."""
        account = Shared(name, kind)
        host.add(account)
        self.home[account.did] = host
        self.directory.publish(account, host.name)
        host.identity(account)
        host.state(account, True)
        host.commit(account, creates=2)
        return account

    def accounts(self) -> "list[Account]":
        return [account for host in self.hosts for account in host.accounts.values()]

    def host_names(self) -> "dict[str, str]":
        return {did: host.name for did, host in self.home.items()}

    def step(self) -> None:
        """Something happens: mostly a commit; now and then a lost commit, a new key, or an account that rests and is back."""
        with self.lock:
            account = self.draw.choice([account for account in self.accounts() if account.is_active])
            host, chance = self.home[account.did], self.draw.random()
            if chance < 0.06:
                account.commit()  # nobody is sent this commit: the next one doesn't follow on what the relay knows
                host.commit(account)
            elif chance < 0.1:
                account.key = Key(f"{account.name} {account.count}", account.kind)
                self.directory.publish(account, host.name)
                host.identity(account)
                host.commit(account)
            elif chance < 0.14:
                host.state(account, False, "deactivated")
                host.state(account, True)
            else:
                host.commit(account, creates=self.draw.randrange(1, 3), updates=self.draw.randrange(2), deletes=self.draw.randrange(2))

    def go_on(self, steps: int, pause: float) -> threading.Thread:
        """Lets this much happen, in a thread of its own."""
        def go() -> None:
            for _ in range(steps):
                self.step()
                time.sleep(self.draw.random() * 2 * pause)

        thread = threading.Thread(target=go, daemon=True)
        thread.start()
        return thread

    def sent(self) -> "dict[str, int]":
        """The last number of each host."""
        return {host.name: len(host.events) for host in self.hosts}


class Hostile:
    """A host that sends what no host should: others' words, wrong signatures, invented accounts, bytes that are no frame."""

    def __init__(self, scene: Scene):
        self.scene, self.host = scene, Host()
        self.eve = Shared("eve", P256)
        self.host.add(self.eve)
        scene.directory.publish(self.eve, self.host.name)
        self.host.identity(self.eve)
        self.host.commit(self.eve)

    def act(self) -> None:
        """Does all of it, one after another, and at last what ends its stream."""
        stranger, invented = self.scene.accounts()[0], Account("nobody", SECP256K1)
        silent = Account("silent", P256, f"did:web:localhost%3A{self.host.server.server_port}")
        with self.scene.lock:
            self.host.emit("#commit", stranger.commit(is_kept=False))
        self.host.state(stranger, False, "takendown")
        self.host.commit(self.eve, key=Key("mallory", P256), is_kept=False)
        self.host.commit(invented)
        self.host.commit(silent)
        self.host.commit(self.eve)
        with self.host.news:
            self.host.events.append((encode({"t": "#commit", "op": 1}) + encode({"seq": len(self.host.events) + 1}), ""))
            self.host.events.append((b"\xff no frame", ""))
            self.host.news.notify_all()
        self.host.commit(self.eve)
