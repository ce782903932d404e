"""Guests at the door: each function plays one on a fresh connection, and hands back the bytes that came and how it ended."""
import base64
import socket
import time

from frames import BINARY, CLOSE, CONTINUE, LONG, PING, TEXT, frame, played, read_head, read_rest, reset, says

TARGET = "/xrpc/com.atproto.sync.subscribeRepos?cursor=4"
NONCE = base64.b64encode(b"0123456789abcdef").decode()
GOODBYE = frame(CLOSE, b"\x03\xe8", masked=True)
FAREWELL = frame(CLOSE, b"\x03\xe8")


def request(method="GET", target=TARGET, version="HTTP/1.1", more="", upgrade=True, key=NONCE, protocol="13"):
    lines = [f"{method} {target} {version}", "Host: localhost:2470"]
    if upgrade:
        lines += ["Connection: keep-alive, Upgrade", "Upgrade: websocket", f"Sec-WebSocket-Version: {protocol}", f"Sec-WebSocket-Key: {key}"]
    return ("\r\n".join(lines) + "\r\n" + more + "\r\n").encode()


def enter(peer):
    peer.sendall(request())
    return read_head(peer)


def take_all(peer, head):
    """Everything up to the door's close."""
    taken = head
    while not taken.endswith(FAREWELL):
        piece = peer.recv(1 << 17)
        if not piece:
            break
        taken += piece
    return taken


def polite(peer, target=TARGET):
    peer.sendall(request(target=target))
    taken = take_all(peer, read_head(peer))
    peer.sendall(GOODBYE)
    rest, ending = read_rest(peer, LONG)
    return taken + rest, ending


def in_steps(peer):
    for byte in request():
        peer.sendall(bytes([byte]))
    taken = take_all(peer, read_head(peer))
    peer.sendall(GOODBYE)
    rest, ending = read_rest(peer, LONG)
    return taken + rest, ending


def at_the_root(peer):
    return polite(peer, "/")


def byte_a_second(peer):
    peer.settimeout(1)
    for byte in request()[:15]:
        peer.sendall(bytes([byte]))
        try:
            if piece := peer.recv(1000):
                return piece, "end"
        except TimeoutError:
            pass
    return b"", "silence"


def gone(peer):
    peer.close()
    return b"", "gone"


def reset_at_once(peer):
    reset(peer)
    return b"", "gone"


def half_a_head(peer):
    peer.sendall(request()[:40])
    peer.shutdown(socket.SHUT_WR)
    return read_rest(peer, LONG)


def leaves_without_a_close(peer):
    return take_all(peer, enter(peer)), "gone"


def half_closed(peer):
    head = enter(peer)
    peer.shutdown(socket.SHUT_WR)
    rest, ending = read_rest(peer, LONG)
    return head + rest, ending


def silent_at_the_close(peer):
    head = enter(peer)
    rest, ending = read_rest(peer, LONG)
    return head + rest, ending


def goodbye_first(peer):
    peer.sendall(request() + GOODBYE)
    return read_rest(peer, LONG)


def with_pings(peer):
    head = enter(peer)
    peer.sendall(b"".join(frame(PING, b"p%d" % i, masked=True) for i in range(3)))
    peer.sendall(frame(BINARY, b"x" * 1000, masked=True) * 20 + GOODBYE)
    rest, ending = read_rest(peer, LONG)
    return head + rest, ending


def speaks(content):
    """A guest who sends these bytes once it is in."""

    def play(peer):
        head = enter(peer)
        peer.sendall(content)
        rest, ending = read_rest(peer, LONG)
        return head + rest, ending

    return play


def fragments_without_end(peer):
    """Sends empty fragments of one message, and takes nothing."""
    enter(peer)
    peer.sendall(frame(BINARY, final=False, masked=True))
    try:
        while True:
            peer.sendall(frame(CONTINUE, final=False, masked=True) * 1000)
    except OSError:
        return b"", "gone"


def slow_fragments(peer):
    """Sends an empty fragment each half second, and never closes."""
    enter(peer)
    peer.sendall(frame(BINARY, final=False, masked=True))
    try:
        for _ in range(80):
            peer.sendall(frame(CONTINUE, final=False, masked=True))
            time.sleep(0.5)
    except OSError:
        return b"", "gone"
    return b"", "silence"


def resets(peer):
    head = enter(peer)
    reset(peer)
    return head, "gone"


def take(peer, count):
    taken = 0
    while taken < count:
        taken += len(peer.recv(100_000))


def never_reads(peer):
    enter(peer)
    time.sleep(40)
    return b"", "silence"


def drips(peer):
    enter(peer)
    begun = time.monotonic()
    try:
        while time.monotonic() - begun < 60:
            if not peer.recv(2000):
                break
            time.sleep(0.1)
    except OSError:
        pass
    return b"", "gone"


def goodbye_in_the_middle(peer):
    enter(peer)
    take(peer, 3_000_000)
    peer.sendall(GOODBYE)
    _, ending = read_rest(peer, LONG)
    return b"", ending


def reset_in_the_middle(peer):
    enter(peer)
    take(peer, 3_000_000)
    reset(peer)
    return b"", "gone"


def pings_all_along(peer):
    """Sends a ping with each piece that it takes, and counts the answers."""
    enter(peer)
    pongs, last = 0, b""
    pong = frame(10, b"PINGPONG")
    while not last.endswith(FAREWELL):
        peer.sendall(frame(PING, b"PINGPONG", masked=True))
        piece = peer.recv(1 << 17)
        if not piece:
            return b"", "end"
        pongs += piece.count(pong)
        last = (last + piece)[-4:]
    peer.sendall(GOODBYE)
    return b"", "pongs" if pongs > 0 else "no pong"


def talks_and_never_reads(peer):
    enter(peer)
    peer.settimeout(40)
    words = frame(BINARY, b"z" * 1000, masked=True) * 10
    try:
        while True:
            peer.sendall(words)
    except OSError:
        return b"", "gone"


GUESTS = {
    "polite": polite,
    "in-steps": in_steps,
    "at-the-root": at_the_root,
    "no-upgrade": says(request(upgrade=False)),
    "other-version": says(request(protocol="8")),
    "post": says(request(method="POST")),
    "old-http": says(request(version="HTTP/1.0")),
    "short-key": says(request(key="short")),
    "no-utf8": says(request(target="/x").replace(b"/x", b"/\xff\xfe")),
    "no-http": says(b"\x16\x03\x01\x02\x00\x01\x00\x01\xfc\x03\x03"),
    "long-head": says(request(more="X: " + "y" * 200_000 + "\r\n")),
    "many-fields": says(request(more="".join(f"X{i}: y\r\n" for i in range(150)))),
    "silent": says(b""),
    "byte-a-second": byte_a_second,
    "gone": gone,
    "reset-at-once": reset_at_once,
    "half-a-head": half_a_head,
    "leaves-without-a-close": leaves_without_a_close,
    "half-closed": half_closed,
    "silent-at-the-close": silent_at_the_close,
    "goodbye-first": goodbye_first,
    "with-pings": with_pings,
    "unmasked": speaks(frame(TEXT, b"hello")),
    "long-word": speaks(frame(BINARY, b"x" * 5000, masked=True)),
    "resets": resets,
    "fragments-without-end": fragments_without_end,
    "fragments-all-along": fragments_without_end,
    "slow-fragments": slow_fragments,
    "never-reads": never_reads,
    "drips": drips,
    "goodbye-in-the-middle": goodbye_in_the_middle,
    "reset-in-the-middle": reset_in_the_middle,
    "pings-all-along": pings_all_along,
    "talks-and-never-reads": talks_and_never_reads,
}

# Guests who take little at a time.
NARROW = {"never-reads", "drips", "talks-and-never-reads"}


def play(name, port):
    return played(GUESTS[name], port, name in NARROW)
