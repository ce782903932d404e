"""Identities: what DID documents say of accounts, where these come from, and how many may be asked for."""
import hashlib
import json
import os
import pathlib
import threading
import time
import urllib.parse
from typing import Container, Iterable, Optional

from cryptography.hazmat.primitives.asymmetric import ec

from jupwachay.addresses import Reach
from jupwachay.endings import BAD_TABLE, Ended
from jupwachay.files import write
from jupwachay.items import Unread
from jupwachay.names import is_host
from jupwachay.speech import printable
from jupwachay.web import Barred, Refused, Unanswered, content_of

LONGEST_DOCUMENT = 1 << 20
BASE58 = "123456789ABCDEFGHJKLMNPQRSTUVWXYZabcdefghijkmnopqrstuvwxyz"
LONGEST_MULTIKEY = 200
# The code of each kind of key in front of its point (Multicodec), with its curve and the order of that curve's group.
CURVES = {
    b"\xe7\x01": (ec.SECP256K1(), 0xFFFFFFFFFFFFFFFFFFFFFFFFFFFFFFFEBAAEDCE6AF48A03BBFD25E8CD0364141),
    b"\x80\x24": (ec.SECP256R1(), 0xFFFFFFFF00000000FFFFFFFFFFFFFFFFBCE6FAADA7179E84F3B9CAC2FC632551),
}
USUAL_PORTS = {"https": 443, "http": 80}
TRIES, FIRST_PAUSE = 3, 1.0  # of a directory; a host of a did:web is asked once a run
MOST_FAILURES = 3  # of a server, one after another; then it is asked no more in this run
SHARE = 4  # how many times the patience the names of one speaking host may take in a run
MOST_KNOWN = 200_000  # documents in memory
LEFTOVER_SECONDS = 3600


class Document:
    """What a DID document says: the home and the key of an account, or why it doesn't say them."""

    __slots__ = ("home", "key", "order", "why", "asked")

    def __init__(self, why: str = "", asked: float = 0.0):
        self.home: Optional[str] = None
        self.key, self.order, self.why, self.asked = None, 0, why, asked


class NotAsked(Exception):
    """Why an account's document could not be asked for."""


class LeftOut(NotAsked):
    """A bound of the run that kept an account's document from being asked for."""


# What a document says.


def key_of(multikey: object) -> "tuple[object, int]":
    """The public key of a Multikey, and the order of its group."""
    if not isinstance(multikey, str) or multikey[:1] != "z" or len(multikey) > LONGEST_MULTIKEY or not set(multikey[1:]) <= set(BASE58):
        raise Unread("the key is no Multikey in base58btc")
    value = 0
    for each in multikey[1:]:
        value = value * 58 + BASE58.index(each)
    content = value.to_bytes((value.bit_length() + 7) // 8, "big")
    curve, order = CURVES.get(content[:2], (None, 0))
    if curve is None or len(content) != 35:
        raise Unread("the key is no compressed point of secp256k1 or P-256")
    try:
        return ec.EllipticCurvePublicKey.from_encoded_point(curve, content[2:]), order
    except ValueError as why:
        raise Unread("the key is no point of its curve") from why


def home_of(endpoint: object, is_plain: bool) -> str:
    """The host of a service's address, with its port where that isn't the usual one."""
    try:
        parts = urllib.parse.urlsplit(endpoint if isinstance(endpoint, str) else "")
        host, port = parts.hostname or "", parts.port
    except ValueError as why:
        raise Unread("the address of its host is none") from why
    if parts.scheme != "https" and not (is_plain and parts.scheme == "http") or parts.path not in ("", "/"):
        raise Unread(printable(f"the address of its host is none that is asked for: {endpoint}"))
    name = host if port in (None, USUAL_PORTS[parts.scheme]) else f"{host}:{port}"
    if not is_host(name):
        raise Unread("the name of its host is none")
    return name


def entry(document: dict, did: str, field: str, name: str) -> dict:
    """The first entry of a list of a document with this name."""
    entries = document.get(field)
    for each in entries if isinstance(entries, list) else []:
        if isinstance(each, dict) and each.get("id") in (f"#{name}", f"{did}#{name}"):
            return each
    raise Unread(f"the document has no #{name}")


def read_document(did: str, document: object, is_plain: bool, asked: float) -> Document:
    """The home and the key by a document; a document may say one of them alone. One that isn't there is a list of one text, why."""
    if isinstance(document, list) and len(document) == 1:
        return Document(str(document[0]), asked)
    if not isinstance(document, dict) or document.get("id") != did:
        return Document("the document is another's", asked)
    found = Document(asked=asked)
    try:
        service = entry(document, did, "service", "atproto_pds")
        if service.get("type") != "AtprotoPersonalDataServer":
            raise Unread("the service #atproto_pds is no AtprotoPersonalDataServer")
        found.home = home_of(service.get("serviceEndpoint"), is_plain)
    except Unread as why:
        found.why = str(why)
    try:
        method = entry(document, did, "verificationMethod", "atproto")
        if method.get("type") != "Multikey":
            raise Unread("the method #atproto is no Multikey")
        found.key, found.order = key_of(method.get("publicKeyMultibase"))
    except Unread as why:
        found.why = str(why)
    return found


def parsed(content: bytes) -> dict:
    """A document out of its bytes."""
    try:
        found = json.loads(content)
    except (ValueError, RecursionError) as why:
        raise Unread("its document is no JSON") from why
    if not isinstance(found, dict):
        raise Unread("its document is no object of JSON")
    return found


# The export of a directory.


def document_of(did: str, operation: object) -> object:
    """The document that an operation of the PLC directory stands for."""
    if not isinstance(operation, dict) or operation.get("type") == "plc_tombstone":
        return ["its DID has a tombstone"]
    if operation.get("type") == "create":
        key, endpoint = operation.get("signingKey"), operation.get("service")
    else:
        key = (operation.get("verificationMethods") or {}).get("atproto")
        endpoint = ((operation.get("services") or {}).get("atproto_pds") or {}).get("endpoint")
    methods = [{"id": "#atproto", "type": "Multikey", "publicKeyMultibase": str(key)[len("did:key:"):]}] if key else []
    services = [{"id": "#atproto_pds", "type": "AtprotoPersonalDataServer", "serviceEndpoint": endpoint}] if endpoint else []
    return {"id": did, "verificationMethod": methods, "service": services}


def read_export(path: pathlib.Path, wanted: Container[str], is_plain: bool) -> "dict[str, Document]":
    """What is said of the accounts that are wanted, by the last operation of each that counts."""
    found: "dict[str, Document]" = {}
    now = time.time()
    with open(path, "rb") as lines:
        for i, line in enumerate(lines, 1):
            try:
                entry_of_line = json.loads(line)
                did, operation = entry_of_line["did"], entry_of_line["operation"]
                if did in wanted and not entry_of_line.get("nullified"):
                    found[did] = read_document(did, document_of(did, operation), is_plain, now)
            except (ValueError, KeyError, TypeError, AttributeError, RecursionError) as why:
                raise Ended(BAD_TABLE, f"{path}: line {i} is none of an export") from why
    return found


# Documents that are kept.


class Cache:
    """A folder with the documents that were asked for, each under a digest of its DID."""

    def __init__(self, folder: pathlib.Path):
        self.folder, self.begun = folder, folder / "begun"  # where a document is written before it has its name

    def place(self, did: str) -> pathlib.Path:
        name = hashlib.sha256(did.encode()).hexdigest()
        return self.folder / name[:2] / f"{name}.json"

    def take_leftovers_away(self) -> None:
        """Takes away what runs that were killed left half written."""
        for path in self.begun.glob("*"):
            if path.stat().st_mtime < time.time() - LEFTOVER_SECONDS:
                path.unlink(missing_ok=True)

    def get(self, did: str, since: float) -> "tuple[object, float]":
        """The document that is kept, and when it was asked for, where that isn't before a moment; else None."""
        path = self.place(did)
        try:
            asked = path.stat().st_mtime
            return (json.loads(path.read_bytes()), asked) if asked >= since else (None, 0.0)
        except (OSError, ValueError, RecursionError):
            return None, 0.0

    def keep(self, did: str, document: object) -> None:
        path = self.place(did)
        path.parent.mkdir(parents=True, exist_ok=True)
        self.begun.mkdir(exist_ok=True)
        new = self.begun / f"{path.stem}.{os.getpid()}.{threading.get_ident()}"
        write(new, [json.dumps(document).encode()], is_synced=False)
        os.replace(new, path)


class Documents:
    """The documents of accounts: of an export, from a folder where they are kept, or asked for, as far as the run's bounds go."""

    def __init__(self, cache: Cache, plc: Optional[str], reach: Reach, *, exported: "Optional[dict[str, Document]]" = None,
                 fresh: float = 86_400.0, rate: float = 10.0, patience: float = 30.0, spared: float = 0.0):
        self.cache, self.plc, self.reach, self.exported = cache, plc, reach, exported
        self.fresh, self.rate, self.patience, self.spared = fresh, rate, patience, spared
        self.known: "dict[str, Document]" = {}
        self.renewed: "dict[str, float]" = {}
        self.next_request, self.asked = 0.0, 0
        self.begin(float("inf"), 2**63)
        cache.take_leftovers_away()

    def begin(self, seconds: float, requests: int) -> None:
        """Begins a run, with a limit of requests, and of seconds from now in which they may be made."""
        self.begun, self.end = time.time(), time.monotonic() + seconds
        self.seconds, self.requests, self.left = seconds, requests, requests
        self.failed: "dict[str, Document]" = {}  # of whom nothing is known, since they could not be asked for
        self.unasked: "set[str]" = set()  # who could not be asked for, though an older document may count
        self.left_out: "dict[str, str]" = {}  # those of them that a bound kept from it, and which
        self.asked_anew: "set[str]" = set()
        self.failures: "dict[str, int]" = {}  # of a server, one after another
        self.taken: "dict[str, float]" = {}  # the seconds that the names of a speaking host took

    def renew(self, did: str, moment: float) -> None:
        """An account's document that was asked for before this moment counts no more."""
        self.renewed[did] = max(moment, self.renewed.get(did, 0.0))

    def of(self, did: str, hosts: Iterable[str] = ()) -> Document:
        """What is known of an account, for which these hosts speak."""
        if self.exported is not None and did in self.exported:
            return self.exported[did]
        if did in self.failed:
            return self.failed[did]
        since = max(self.begun - self.fresh, self.renewed.get(did, 0.0))
        if did in self.known and self.known[did].asked >= since:
            return self.known[did]
        kept, asked = self.cache.get(did, since)
        found = self.ask(did, hosts) if kept is None else read_document(did, kept, self.reach.is_plain, asked)
        return found if did in self.failed else self.remember(did, found)

    def anew(self, did: str, hosts: Iterable[str] = ()) -> Document:
        """What is known of an account, once its document was asked for again where it is older than this run. Where nobody answers
        the older one counts."""
        before = self.of(did, hosts)
        is_older = before.asked < self.begun - self.spared and did not in self.failed
        may_be_asked = self.plc is not None or not did.startswith("did:plc:")
        if not is_older or not may_be_asked or did in self.asked_anew or self.exported is not None and did in self.exported:
            return before
        self.asked_anew.add(did)
        found = self.ask(did, hosts)
        return before if self.failed.pop(did, None) else self.remember(did, found)

    def remember(self, did: str, found: Document) -> Document:
        if len(self.known) >= MOST_KNOWN:
            self.known.pop(next(iter(self.known)), None)
        self.known[did] = found
        return found

    def ask(self, did: str, hosts: Iterable[str]) -> Document:
        """What is said of an account by who is to say it."""
        try:
            document = self.asked_of_directory(did) if did.startswith("did:plc:") else self.asked_of_host(did, list(hosts))
            self.cache.keep(did, document)
            return read_document(did, document, self.reach.is_plain, time.time())
        except Unread as why:
            return Document(str(why), time.time())
        except NotAsked as why:
            self.unasked.add(did)
            if isinstance(why, LeftOut):
                self.left_out[did] = str(why)
            self.failed[did] = Document(str(why))
            return self.failed[did]

    def asked_of_directory(self, did: str) -> object:
        """The document of a did:plc."""
        if self.plc is None:
            raise Unread("no directory was named: --plc or --export" if self.exported is None else "its DID isn't in the export")
        parts = urllib.parse.urlsplit(self.plc)
        reach = self.reach._replace(is_plain=parts.scheme == "http")
        try:
            return self.answer(parts.netloc, f"{parts.path.rstrip('/')}/{urllib.parse.quote(did, safe=':')}", reach, TRIES)
        except Barred as why:
            raise NotAsked(f"{why}; --private allows it") from why

    def asked_of_host(self, did: str, hosts: "list[str]") -> object:
        """The document of a did:web, for which hosts speak. Each of these has a share of the run's time."""
        if not did.startswith("did:web:"):
            raise Unread("its DID is of another method")
        name = did[len("did:web:"):]
        host = urllib.parse.unquote(name)
        if ":" in name or not is_host(host):
            raise Unread("its DID names no host alone")
        if hosts and all(self.taken.get(each, 0.0) >= SHARE * self.patience for each in hosts):
            raise LeftOut(f"names of {hosts[0]} took {SHARE * self.patience:g} seconds in this run")
        begun = time.monotonic()
        try:
            return self.answer(host, "/.well-known/did.json", self.reach, 1)
        except Barred as why:
            raise Unread(str(why)) from why
        finally:
            for each in hosts:
                self.taken[each] = self.taken.get(each, 0.0) + time.monotonic() - begun

    def answer(self, server: str, target: str, reach: Reach, tries: int) -> object:
        """The document that a server gives; what isn't there is a list of one text. A server that failed for some accounts in a row
        is asked no more."""
        address, pause = f"{reach.scheme()}://{server}{target}", FIRST_PAUSE
        if self.failures.get(server, 0) >= MOST_FAILURES:
            raise NotAsked(f"{server} failed before")
        for i in range(tries):
            seconds = self.take_turn()
            try:
                content = content_of(server, target, "application/json", reach, seconds, LONGEST_DOCUMENT)
                self.failures[server] = 0
                return parsed(content)
            except Barred:
                raise
            except Refused as why:
                if why.is_gone():
                    self.failures[server] = 0
                    return [f"{address} isn't there ({why.status})"]
                if not why.may_change():
                    raise NotAsked(f"{address} answers {why.status}") from why
                what = f"{address} answers {why.status}"
            except Unanswered as why:
                what = printable(f"{address}: {why}")
            if i + 1 < tries:
                time.sleep(max(0.0, min(pause, self.end - time.monotonic())))
                pause *= 2
        self.failures[server] = self.failures.get(server, 0) + 1
        raise NotAsked(what)

    def take_turn(self) -> float:
        """Waits until the next request may be made, and gives how long that may take."""
        time.sleep(max(0.0, min(self.next_request, self.end) - time.monotonic()))
        rest = self.end - time.monotonic()
        if rest <= 0:
            raise LeftOut(f"the run's {self.seconds:g} seconds are over (--seconds)")
        if self.left <= 0:
            raise LeftOut(f"the run's {self.requests} requests are used (--requests)")
        self.next_request = time.monotonic() + 1 / self.rate
        self.left -= 1
        self.asked += 1
        return min(self.patience, rest)
