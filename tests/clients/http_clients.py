"""Clients of the wire: each function plays one on a fresh connection, and hands back the bytes that came and how it ended."""
import socket
import time

from frames import LONG, played, read_rest, reset, says

TARGET = "/xrpc/com.atproto.sync.getRepoStatus?did=did:plc:ada"
LONGEST = 8_192
MANY = 100_000
# The beginning of a connection over TLS 1.3 (RFC 8446, section 4.1.2).
HELLO = b"\x16\x03\x01\x02\x00\x01\x00\x01\xfc\x03\x03" + bytes(range(100, 132))


def request(method="GET", target=TARGET, version="HTTP/1.1", more=""):
    return f"{method} {target} {version}\r\nHost: localhost:2471\r\n{more}\r\n".encode()


def padded(size):
    """A request of so many bytes."""
    bare = len(request(more="X: \r\n"))
    return request(more=f"X: {'y' * (size - bare)}\r\n")


def ends_behind(content):
    """A client that sends these bytes, says that no more come, and takes what comes."""

    def play(peer):
        peer.sendall(content)
        peer.shutdown(socket.SHUT_WR)
        return read_rest(peer, LONG)

    return play


def in_steps(peer):
    for byte in request():
        peer.sendall(bytes([byte]))
    return read_rest(peer, LONG)


def byte_a_second(peer):
    for byte in request():
        peer.settimeout(1)
        peer.sendall(bytes([byte]))
        try:
            piece = peer.recv(1 << 16)
        except TimeoutError:
            continue
        rest, ending = read_rest(peer, LONG)
        return piece + rest, ending
    return b"", "silence"


def stays(peer):
    """Asks, and doesn't close behind the reply."""
    peer.sendall(request())
    found = read_rest(peer, LONG)
    time.sleep(3)
    return found


def talks_on(peer):
    """Asks, and sends more and more behind the request, which nobody takes for ever."""
    peer.settimeout(15)
    peer.sendall(request())
    try:
        while True:
            peer.sendall(b"z" * MANY)
    except OSError:
        return b"", "gone"


def gone(peer):
    peer.close()
    return b"", "gone"


def resets_behind(content):
    """A client that sends these bytes, and drops the connection without a farewell."""

    def play(peer):
        peer.sendall(content)
        reset(peer)
        return b"", "gone"

    return play


def never_reads(peer):
    peer.sendall(request())
    time.sleep(40)
    return b"", "silence"


def drips(peer):
    peer.sendall(request())
    begun = time.monotonic()
    try:
        while time.monotonic() - begun < 60 and peer.recv(2000):
            time.sleep(0.1)
    except OSError:
        pass
    return b"", "gone"


def resets_in_the_middle(peer):
    peer.sendall(request())
    taken = 0
    while taken < 3_000_000:
        taken += len(peer.recv(1 << 16))
    reset(peer)
    return b"", "gone"


CLIENTS = {
    "polite": says(request()),
    "in-steps": in_steps,
    "line-feeds-alone": says(request().replace(b"\r\n", b"\n")),
    "old-http": says(request(version="HTTP/1.0")),
    "without-a-host": says(f"GET {TARGET} HTTP/1.1\r\n\r\n".encode()),
    "encoded-name-and-value": says(request(target=TARGET.replace("did=did:plc:ada", "%64id=did%3Aplc%3Aada"))),
    "ends-behind": ends_behind(request()),
    "pipelined": says(request() + request()),
    "keeps-alive": says(request(more="Connection: keep-alive\r\n")),
    "body-behind-get": says(request(more=f"Content-Length: {MANY}\r\n") + b"z" * MANY),
    "stays": stays,
    "sixty-four-fields": says(request(more="x: y\r\n" * 63)),
    "sixty-five-fields": says(request(more="x: y\r\n" * 64)),
    "longest": says(padded(LONGEST)),
    "longer": says(padded(LONGEST + 1)),
    "long-target": says(request(target="/" + "a" * 9_000)),
    "empty-line-in-front": says(b"\r\n" + request()),
    "another-host": says(request(target="http://localhost:2471" + TARGET)),
    "slash-behind": says(request(target=TARGET.replace("?", "/?"))),
    "head": says(request(method="HEAD")),
    "options": says(request(method="OPTIONS")),
    "post": says(request(method="POST", more=f"Content-Length: {MANY}\r\n") + b"z" * MANY),
    "lower-case-method": says(request(method="get")),
    "new-http": says(request(version="HTTP/2.0")),
    "tls": says(HELLO),
    "tls-that-ends": ends_behind(HELLO),
    "silent": says(b""),
    "byte-a-second": byte_a_second,
    "half-a-head": ends_behind(request()[:40]),
    "ends-at-once": ends_behind(b""),
    "gone": gone,
    "resets-at-once": resets_behind(b""),
    "resets-in-the-head": resets_behind(request()[:40]),
    "talks-on": talks_on,
    "never-reads": never_reads,
    "drips": drips,
    "resets-in-the-middle": resets_in_the_middle,
}

# Clients that take little at a time.
NARROW = {"never-reads", "drips"}


def play(name, port):
    return played(CLIENTS[name], port, name in NARROW)
