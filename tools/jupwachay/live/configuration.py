"""The configuration of a live relay: a file (TOML), and words of the command line, which count before it."""
import dataclasses
import fnmatch
import pathlib
import tomllib
from typing import Any, Optional

from jupwachay import names
from jupwachay.endings import WRONG_WORDS, Ended

MEBIBYTE = 1 << 20


@dataclasses.dataclass
class HostLimits:
    """What one host may send, and what of it may wait."""

    messages_per_second: float = 500.0
    bytes_per_second: float = 4.0 * MEBIBYTE
    waiting_messages: int = 5000
    waiting_bytes: int = 16 * MEBIBYTE
    longest_pause: float = 60.0  # seconds, after failures in a row
    most_hosts: int = 1000


@dataclasses.dataclass
class Batch:
    """When what has come is given to the relay: after these seconds, or once it is this much; and how much at a time at most."""

    interval: float = 1.0
    messages: int = 2000
    bytes: int = 16 * MEBIBYTE
    longest_pause: float = 60.0  # seconds, after runs in a row that failed


@dataclasses.dataclass
class ConsumerLimits:
    """How many consumers there may be, and how far one may fall back."""

    most: int = 500
    waiting_events: int = 50_000
    waiting_bytes: int = 16 * MEBIBYTE
    seconds: float = 20.0  # within which a message has to be taken
    part_seconds: float = 300.0  # within which a part of the past has to be taken
    heartbeat: float = 30.0
    backlog_events: int = 200_000
    backlog_bytes: int = 64 * MEBIBYTE
    part_bytes: int = 16 * MEBIBYTE  # of the past, read from the disk at a time
    past_bytes: int = 256 * MEBIBYTE  # of all parts of the past in memory


@dataclasses.dataclass
class Documents:
    """How DID documents are asked for."""

    fresh: float = 86_400.0  # seconds for which one counts
    rate: float = 20.0  # requests a second
    patience: float = 10.0  # seconds for one answer
    at_once: int = 8


@dataclasses.dataclass
class Repositories:
    """How the repositories of lost accounts are fetched."""

    at_once: int = 4
    patience: float = 600.0  # seconds for one
    bytes_per_hour: int = 4096 * MEBIBYTE
    first_pause: float = 5.0  # seconds after a failure, twice as long after each further one
    longest_pause: float = 3600.0


@dataclasses.dataclass
class Window:
    """Which events are kept; with 0 all are."""

    keep_hours: float = 0.0
    keep_events: int = 0
    every: float = 600.0  # seconds between two looks


SECTIONS = {"host": HostLimits, "batch": Batch, "consumers": ConsumerLimits, "documents": Documents, "repositories": Repositories,
            "window": Window}
SMALLEST_PART = 8 * MEBIBYTE  # a message and its length have to fit


@dataclasses.dataclass
class Configuration:
    """The whole configuration."""

    listen: str = "127.0.0.1:2480"
    relay: str = ""
    hosts: list[str] = dataclasses.field(default_factory=list)
    let_in: list[str] = dataclasses.field(default_factory=list)
    plc: str = ""
    plain: bool = False
    private: bool = False
    limits: dict[str, dict[str, Any]] = dataclasses.field(default_factory=dict)  # of single hosts, in place of `host`
    host: HostLimits = dataclasses.field(default_factory=HostLimits)
    batch: Batch = dataclasses.field(default_factory=Batch)
    consumers: ConsumerLimits = dataclasses.field(default_factory=ConsumerLimits)
    documents: Documents = dataclasses.field(default_factory=Documents)
    repositories: Repositories = dataclasses.field(default_factory=Repositories)
    window: Window = dataclasses.field(default_factory=Window)

    def address(self) -> "tuple[str, int]":
        """Where it listens."""
        host, _, port = self.listen.rpartition(":")
        return host.strip("[]"), int(port)

    def limits_of(self, host: str) -> HostLimits:
        return dataclasses.replace(self.host, **self.limits.get(host, {}))

    def lets_in(self, host: str) -> bool:
        """Whether a host that asks to be followed is let in."""
        return any(fnmatch.fnmatchcase(host, pattern) for pattern in self.let_in)


def wrong(what: str) -> Ended:
    return Ended(WRONG_WORDS, what)


def fitting(where: str, value: Any, usual: Any) -> Any:
    """A value of the form that is wanted there."""
    if isinstance(usual, float) and isinstance(value, int) and not isinstance(value, bool):
        value = float(value)
    if type(value) is not type(usual):
        raise wrong(f"{where} wants a value as {usual!r}, and has {value!r}")
    if isinstance(value, (int, float)) and value < 0:
        raise wrong(f"{where} is below 0")
    return value


def filled(where: str, kind: type, given: Any) -> Any:
    """A section with the values that are given; the others are the usual ones."""
    if not isinstance(given, dict):
        raise wrong(f"{where} wants a table of values")
    usual = kind()
    for name, value in given.items():
        if not hasattr(usual, name):
            raise wrong(f"{where} has {name}, which is no setting: the settings are {', '.join(vars(usual))}")
        setattr(usual, name, fitting(f"{where}.{name}", value, getattr(usual, name)))
    return usual


def read(path: Optional[pathlib.Path]) -> Configuration:
    """The configuration of a file, or the usual one."""
    if path is None:
        return Configuration()
    try:
        given = tomllib.loads(path.read_text(encoding="utf-8"))
    except (OSError, UnicodeDecodeError, tomllib.TOMLDecodeError) as why:
        raise wrong(f"{path}: {getattr(why, 'strerror', None) or why}") from why
    try:
        sections = {name: filled(name, kind, given.pop(name, {})) for name, kind in SECTIONS.items()}
        found = filled("the file", Configuration, given)
    except Ended as why:
        raise wrong(f"{path}: {why}") from why
    return dataclasses.replace(found, **sections)


def check(found: Configuration) -> None:
    """Refuses what can't be meant."""
    try:
        found.address()
    except ValueError as why:
        raise wrong(f"listen wants ADDRESS:PORT, and has {found.listen!r}") from why
    for name in [*found.hosts, *found.limits]:
        if not isinstance(name, str) or not names.is_host(name):
            raise wrong(f"{name!r} is no host's name")
    for name, given in found.limits.items():
        filled(f"limits.{name}", HostLimits, given)
    if not found.plain and found.plc and not found.plc.startswith("https://"):
        raise wrong("plc wants an address with https://")
    if not SMALLEST_PART <= found.consumers.part_bytes <= found.consumers.past_bytes:
        raise wrong(f"consumers.part_bytes has to be {SMALLEST_PART} at least, and past_bytes no less than it")
    for name, section in SECTIONS.items():
        for field in dataclasses.fields(section):
            if name != "window" and not getattr(getattr(found, name), field.name):
                raise wrong(f"{name}.{field.name} has to be above 0")
