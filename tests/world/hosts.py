"""A small PLC directory and small hosts (PDS), which answer over loopback: each by a server with threads of its own."""
import http.server
import json
import pathlib
import select
import socket
import ssl
import sys
import threading
import time
import urllib.parse

sys.path.insert(0, str(pathlib.Path(__file__).resolve().parents[1] / "clients"))
from accounts import TIME, Account, encode  # noqa: E402
from frames import BINARY, CLOSE, PONG, accept_key, frame, split  # noqa: E402

STREAM = "/xrpc/com.atproto.sync.subscribeRepos"
REPOSITORY = "/xrpc/com.atproto.sync.getRepo"
FUTURE = encode({"op": -1}) + encode({"error": "FutureCursor", "message": "the cursor is ahead"})
TOO_SLOW = encode({"op": -1}) + encode({"error": "ConsumerTooSlow"})
OUTDATED = encode({"t": "#info", "op": 1}) + encode({"name": "OutdatedCursor"})


class Server(http.server.ThreadingHTTPServer):
    """A server on a free port of this machine, with TLS where there is a context; its owner's `answer` answers each path."""

    daemon_threads = True
    request_queue_size = 64

    def __init__(self, owner, context: "ssl.SSLContext | None" = None):
        super().__init__(("127.0.0.1", 0), Asked)
        self.owner, self.scheme = owner, "https" if context else "http"
        if context:
            self.socket = context.wrap_socket(self.socket, server_side=True, do_handshake_on_connect=False)
        threading.Thread(target=self.serve_forever, args=(0.05,), daemon=True).start()

    def name(self) -> str:
        return f"localhost:{self.server_port}"

    def handle_error(self, request, client_address):
        """A peer that is gone is none of the server's troubles."""
        if not isinstance(sys.exc_info()[1], OSError):
            super().handle_error(request, client_address)


class Asked(http.server.BaseHTTPRequestHandler):
    """A request."""

    protocol_version = "HTTP/1.1"

    def do_GET(self):
        path, _, query = self.path.partition("?")
        self.server.owner.answer(self, path, dict(urllib.parse.parse_qsl(query)))

    def give(self, status: int, content: bytes, kind: str = "application/json", size: "int | None" = None):
        """Answers with a content, byte by byte where the server is slow; a size says how long it is, where it breaks off before."""
        self.send_response(status)
        self.send_header("Content-Type", kind)
        self.send_header("Content-Length", str(len(content) if size is None else size))
        self.end_headers()
        slowness = self.server.owner.slowness
        for byte in content if slowness else b"":
            self.wfile.write(bytes([byte]))
            time.sleep(slowness)
        self.wfile.write(content)
        self.close_connection = size is not None

    def upgrade(self):
        """Answers the request for a WebSocket (RFC 6455, section 4.2.2)."""
        key = self.headers["Sec-WebSocket-Key"].encode()
        lines = [b"HTTP/1.1 101 Switching Protocols", b"Upgrade: websocket", b"Connection: Upgrade", b"Sec-WebSocket-Accept: " + accept_key(key)]
        self.connection.sendall(b"\r\n".join(lines) + b"\r\n\r\n")
        self.close_connection = True

    def log_message(self, *_):
        pass


class Directory:
    """A PLC directory: the operations of each account, in their order, without their own signatures."""

    def __init__(self, context: "ssl.SSLContext | None" = None):
        self.operations, self.asked, self.failing, self.slowness = [], {}, 0, 0.0  # seconds for each byte
        self.server = Server(self, context)
        self.address = f"{self.server.scheme}://{self.server.name()}"

    def publish(self, account: Account, home: str, is_nullified: bool = False):
        """States an account's key and home."""
        self.operations.append({
            "did": account.did, "cid": f"bafy{len(self.operations)}", "nullified": is_nullified, "createdAt": TIME,
            "operation": {
                "type": "plc_operation", "prev": None, "sig": "", "rotationKeys": [], "alsoKnownAs": [f"at://{account.name}.example"],
                "verificationMethods": {"atproto": f"did:key:{account.key.multikey()}"},
                "services": {"atproto_pds": {"type": "AtprotoPersonalDataServer", "endpoint": f"{self.server.scheme}://{home}"}},
            },
        })

    def export(self) -> bytes:
        return b"".join(json.dumps(each).encode() + b"\n" for each in self.operations)

    def answer(self, asked: Asked, path: str, _query: dict):
        did = path[1:]
        self.asked[did] = self.asked.get(did, 0) + 1
        if self.failing > 0:
            self.failing -= 1
            asked.give(503, b"{}")
        elif path == "/export":
            asked.give(200, self.export(), "application/jsonlines")
        else:
            found = [each["operation"] for each in self.operations if each["did"] == did and not each["nullified"]]
            asked.give(*((200, json.dumps(document(did, found[-1])).encode()) if found else (404, b"{}")))


def document(did: str, operation: dict) -> dict:
    """The DID document that a directory makes of an operation."""
    key, home = operation["verificationMethods"]["atproto"][len("did:key:"):], operation["services"]["atproto_pds"]["endpoint"]
    return {
        "@context": ["https://www.w3.org/ns/did/v1", "https://w3id.org/security/multikey/v1"], "id": did,
        "alsoKnownAs": operation["alsoKnownAs"],
        "verificationMethod": [{"id": f"{did}#atproto", "type": "Multikey", "controller": did, "publicKeyMultibase": key}],
        "service": [{"id": "#atproto_pds", "type": "AtprotoPersonalDataServer", "serviceEndpoint": home}],
    }


class Host:
    """A host: its accounts, and its events with what the relay is to say of each."""

    def __init__(self, context: "ssl.SSLContext | None" = None):
        self.accounts, self.events, self.first = {}, [], 1
        self.repositories, self.web, self.slowness, self.more = {}, None, 0.0, 0
        self.delay, self.busy, self.busiest = 0.0, 0, 0
        self.breaks, self.farewell, self.pause, self.longest, self.streams = [], b"", 0.0, None, 0
        self.news = threading.Condition()
        self.server = Server(self, context)
        self.name = self.server.name()

    def emit(self, kind: str, fields: dict, words: str = "event"):
        """Sends an event, of which the relay is to say these words."""
        with self.news:
            seq = len(self.events) + 1
            self.events.append((encode({"t": kind, "op": 1}) + encode({**fields, "seq": seq}), words))
            self.news.notify_all()

    def commit(self, account: Account, words: str = "event", **changes):
        self.emit("#commit", account.commit(**changes), words)

    def identity(self, account: Account, words: str = "event"):
        self.emit("#identity", {"did": account.did, "time": TIME, "handle": f"{account.name}.example"}, words)

    def state(self, account: Account, active: bool, status: "str | None" = None, words: str = "event"):
        fields = {"did": account.did, "time": TIME, "active": active}
        self.emit("#account", fields if status is None else {**fields, "status": status}, words)

    def add(self, account: Account):
        self.accounts[account.did] = account

    def answer(self, asked: Asked, path: str, query: dict):
        if path == STREAM:
            self.stream(asked, query)
        elif path == REPOSITORY:
            self.repository(asked, query.get("did", ""))
        elif path == "/.well-known/did.json" and self.web:
            account = self.web
            key = {"verificationMethods": {"atproto": f"did:key:{account.key.multikey()}"}, "alsoKnownAs": []}
            found = document(account.did, {**key, "services": {"atproto_pds": {"endpoint": f"http://{self.name}"}}})
            asked.give(200, json.dumps(found).encode())
        else:
            asked.give(404, b"{}")

    def repository(self, asked: Asked, did: str):
        """A whole repository; an older one where the host is behind with it. The most that are asked for at once are counted."""
        with self.news:
            self.busy += 1
            self.busiest = max(self.busiest, self.busy)
        time.sleep(self.delay)
        with self.news:
            self.busy -= 1
        account = self.accounts.get(did)
        if account is None or account.block is None:
            asked.give(400, b'{"error": "RepoNotFound"}')
        else:
            content = self.repositories.get(did) or account.repository()
            asked.give(200, content, "application/vnd.ipld.car", len(content) + self.more if self.more else None)

    def stream(self, asked: Asked, query: dict):
        """Sends the events after the cursor, and what comes, until the peer goes or it is time to break off."""
        asked.upgrade()
        peer = asked.connection
        peer.setsockopt(socket.IPPROTO_TCP, socket.TCP_NODELAY, 1)
        cursor = int(query.get("cursor", len(self.events)))
        if cursor > len(self.events):
            peer.sendall(frame(BINARY, FUTURE) + frame(CLOSE, b"\x03\xf0"))
            return
        if cursor < self.first - 1:
            peer.sendall(frame(BINARY, OUTDATED))
            cursor = self.first - 1
        most = self.breaks.pop(0) if self.breaks else None
        with self.news:
            self.streams += 1
        while is_there(peer) and most != 0:
            with self.news:
                if cursor == len(self.events):
                    self.news.wait(0.02)
                later = self.events[cursor:cursor + 1]
            for message, _ in later:
                peer.sendall(frame(BINARY, message))
                cursor, most = cursor + 1, None if most is None else most - 1
                time.sleep(self.pause)
            if self.longest is not None and cursor == len(self.events):
                peer.sendall(frame(BINARY, size=self.longest))
                peer.sendall(bytes(self.longest))
        if most == 0 and self.farewell:
            peer.sendall(frame(BINARY, self.farewell))
        with self.news:
            self.streams -= 1


def is_there(peer: socket.socket) -> bool:
    """Whether a peer is still there; its pings are answered, and so is its close."""
    if not select.select([peer], [], [], 0)[0]:
        return True
    taken = peer.recv(1 << 16)
    for name, payload in split(taken):
        if name == "ping":
            peer.sendall(frame(PONG, payload))
        elif name == "close":
            peer.sendall(frame(CLOSE, payload[:2]))
            return False
    return bool(taken)
