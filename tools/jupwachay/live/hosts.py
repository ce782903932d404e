"""The hosts that are followed: what has come from each and waits, how far the journal is with it, and how it does."""
import asyncio
import pathlib
import time
from collections import deque
from typing import NamedTuple, Optional

from jupwachay import files, names
from jupwachay.frames import Event
from jupwachay.live.configuration import Configuration, HostLimits

RATE_SECONDS = 2.0  # a host may send at once what it may send in this time


class Message(NamedTuple):
    """A message of a host that waits to be taken."""

    host: str
    seq: Optional[int]
    event: Optional[Event]  # the event of an account that it is, where it is one
    content: bytes
    came: float  # by the monotonic clock


class Allowance:
    """What may come in a second, and at once what may come in a few seconds."""

    def __init__(self, rate: float):
        self.rate, self.left, self.moment = rate, rate * RATE_SECONDS, time.monotonic()

    def take(self, count: float) -> float:
        """Takes some of it, and gives the seconds to wait before more is taken."""
        now = time.monotonic()
        self.left = min(self.rate * RATE_SECONDS, self.left + (now - self.moment) * self.rate) - count
        self.moment = now
        return max(0.0, -self.left / self.rate)


class Queue:
    """Messages in their order, with their bytes."""

    def __init__(self):
        self.messages: "deque[Message]" = deque()
        self.bytes = 0

    def __len__(self) -> int:
        return len(self.messages)

    def put(self, message: Message) -> None:
        self.messages.append(message)
        self.bytes += len(message.content)

    def take(self) -> Message:
        """Takes the first one."""
        message = self.messages.popleft()
        self.bytes -= len(message.content)
        return message

    def clear(self) -> None:
        self.messages.clear()
        self.bytes = 0


class Host:
    """A host. What it sends comes (`coming`), is vouched for, and is ready to be taken (`ready`)."""

    def __init__(self, name: str, limits: HostLimits, cursor: Optional[int]):
        self.name, self.limits = name, limits
        self.taken = cursor  # the last number that the journal has of it
        self.received = cursor  # the last number that came
        self.coming, self.ready, self.vouching = Queue(), Queue(), Queue()
        self.news, self.room = asyncio.Event(), asyncio.Event()
        self.room.set()
        self.by_count, self.by_bytes = Allowance(limits.messages_per_second), Allowance(limits.bytes_per_second)
        self.is_connected, self.told = False, "not yet reached"
        self.messages = self.bytes = self.failures = 0
        self.last_came = 0.0  # when the last message came
        self.resets = 0
        self.tasks: "list[asyncio.Task]" = []

    def put(self, message: Message) -> None:
        """Adds a message to those that have come."""
        self.coming.put(message)
        self.messages += 1
        self.bytes += len(message.content)
        self.last_came = time.time()
        if message.seq is not None:
            self.received = max(message.seq, self.received or 0)
        self.news.set()
        self.see_room()

    def waiting(self) -> "tuple[int, int]":
        """How many messages wait, and their bytes."""
        queues = (self.coming, self.vouching, self.ready)
        return sum(map(len, queues)), sum(queue.bytes for queue in queues)

    def see_room(self) -> None:
        """Says whether more may come."""
        many, size = self.waiting()
        if many >= self.limits.waiting_messages or size >= self.limits.waiting_bytes:
            self.room.clear()
        else:
            self.room.set()

    def reset(self) -> None:
        """Drops what waits: the host is asked again from where the journal is with it."""
        for queue in (self.coming, self.vouching, self.ready):
            queue.clear()
        self.received = self.taken
        self.resets += 1
        self.failures += 1
        self.see_room()

    def wait(self, size: int) -> float:
        """The seconds to wait after a message of this size."""
        return max(self.by_count.take(1), self.by_bytes.take(size))

    def lag(self) -> float:
        """For how many seconds the message that waits longest has waited."""
        first = next((queue.messages[0] for queue in (self.ready, self.vouching, self.coming) if queue.messages), None)
        return time.monotonic() - first.came if first else 0.0


class Hosts:
    """All hosts: those of the configuration, and those that asked to be followed and were let in, which a file keeps."""

    def __init__(self, words: Configuration, folder: pathlib.Path):
        self.words, self.path = words, folder / "live.hosts"
        self.all: dict[str, Host] = {}
        self.work = asyncio.Event()  # something is ready
        self.turn = 0
        self.cursors: dict[str, int] = {}

    def begin(self, cursors: "dict[str, int]") -> None:
        """Begins with the cursors of the journal."""
        self.cursors = cursors
        for name in [*self.words.hosts, *self.asked()]:
            self.add(name)

    def asked(self) -> "list[str]":
        """The hosts that asked to be followed, and are let in still."""
        try:
            lines = self.path.read_text(encoding="ascii", errors="replace").split()
        except FileNotFoundError:
            return []
        return [name for name in lines if names.is_host(name) and self.words.lets_in(name)]

    def add(self, name: str) -> Optional[Host]:
        """Adds a host, unless it is followed."""
        if name in self.all:
            return None
        self.all[name] = Host(name, self.words.limits_of(name), self.cursors.get(name))
        return self.all[name]

    def keep_asked(self, name: str) -> None:
        """Keeps that a host asked to be followed, and was let in."""
        lines = list(dict.fromkeys([*self.asked(), name]))
        files.replace(self.path, [f"{line}\n".encode() for line in lines])

    def waiting(self) -> "tuple[int, int]":
        """How many messages wait, and their bytes."""
        each = [host.waiting() for host in self.all.values()]
        return sum(many for many, _ in each), sum(size for _, size in each)

    def ready(self) -> "tuple[int, int]":
        """How many messages are ready to be taken, and their bytes."""
        return sum(len(host.ready) for host in self.all.values()), sum(host.ready.bytes for host in self.all.values())

    def take(self, most: int, most_bytes: int) -> "list[Message]":
        """Takes messages that are ready, of one host after another, each host's own in their order."""
        found: "list[Message]" = []
        size = 0
        hosts = [host for host in self.all.values() if len(host.ready)]
        self.turn += 1
        first = self.turn % len(hosts) if hosts else 0
        hosts = hosts[first:] + hosts[:first]
        while hosts and len(found) < most and size < most_bytes:
            for host in hosts:
                message = host.ready.take()
                host.see_room()
                found.append(message)
                size += len(message.content)
                if len(found) >= most or size >= most_bytes:
                    break
            hosts = [host for host in hosts if len(host.ready)]
        return found

    def taken(self, cursors: "dict[str, int]") -> None:
        """Keeps how far the journal is with each host."""
        for name, cursor in cursors.items():
            self.cursors[name] = max(cursor, self.cursors.get(name, 0))
            if name in self.all:
                self.all[name].taken = self.cursors[name]
