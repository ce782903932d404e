"""Frames of WebSockets (RFC 6455, section 5), as the peers of the edge write and read them."""
import base64
import hashlib
import socket
import struct
import time

GUID = b"258EAFA5-E914-47DA-95CA-C5AB0DC85B11"
CONTINUE, TEXT, BINARY, CLOSE, PING, PONG = 0, 1, 2, 8, 9, 10
NAMES = {CONTINUE: "more", TEXT: "text", BINARY: "message", CLOSE: "close", PING: "ping", PONG: "pong"}
KEY = b"abcd"
LONG = 120  # seconds after which what has to come is waited for no more; a busy machine is slow


def frame(opcode, payload=b"", final=True, masked=False, size=None):
    """A frame. A size says how long the payload is, where another payload than that follows."""
    size = len(payload) if size is None else size
    front = bytes([(0x80 if final else 0) | opcode])
    mask = 0x80 if masked else 0
    if size < 126:
        front += bytes([mask | size])
    elif size < 65536:
        front += bytes([mask | 126]) + struct.pack(">H", size)
    else:
        front += bytes([mask | 127]) + struct.pack(">Q", size)
    return front + (KEY + unmask(payload, KEY) if masked else payload)


def unmask(payload, key):
    return bytes(byte ^ key[i % 4] for i, byte in enumerate(payload))


def split(taken):
    """The frames at the front of what was taken, each as its name and payload."""
    found = []
    while len(taken) >= 2:
        opcode, size, at = taken[0] & 15, taken[1] & 127, 2
        if size == 126:
            size, at = struct.unpack(">H", taken[2:4])[0], 4
        elif size == 127:
            size, at = struct.unpack(">Q", taken[2:10])[0], 10
        key = b"\0\0\0\0"
        if taken[1] & 128:
            key, at = taken[at : at + 4], at + 4
        if len(taken) < at + size:
            break
        found.append((NAMES.get(opcode, "other"), unmask(taken[at : at + size], key)))
        taken = taken[at + size :]
    return found


def accept_key(key):
    return base64.b64encode(hashlib.sha1(key + GUID).digest())


def read_head(peer):
    """The head of a request or an answer, and nothing behind it."""
    head = b""
    while not head.endswith(b"\r\n\r\n"):
        byte = peer.recv(1)
        if not byte:
            break
        head += byte
    return head


def read_rest(peer, seconds):
    """What still comes, at most so long: the bytes, and how it ended."""
    peer.settimeout(seconds)
    taken = bytearray()
    try:
        while piece := peer.recv(1 << 20):
            taken += piece
        return bytes(taken), "end"
    except TimeoutError:
        return bytes(taken), "silence"
    except OSError:
        return bytes(taken), "reset"


def reset(peer):
    """Drops a connection without a farewell."""
    peer.setsockopt(socket.SOL_SOCKET, socket.SO_LINGER, struct.pack("ii", 1, 0))
    peer.close()


def says(content):
    """A peer that sends these bytes and takes what comes."""

    def play(peer):
        try:
            peer.sendall(content)
        except OSError:
            pass
        return read_rest(peer, LONG)

    return play


def connect(port, narrow=False):
    """A connection to a port of this machine, once it is open. A narrow one takes little at a time."""
    end = time.monotonic() + LONG
    while time.monotonic() < end:
        peer = socket.socket()
        if narrow:
            peer.setsockopt(socket.SOL_SOCKET, socket.SO_RCVBUF, 4096)
        try:
            peer.connect(("127.0.0.1", port))
            peer.settimeout(LONG)
            return peer
        except OSError:
            peer.close()
            time.sleep(0.05)
    raise ConnectionError(f"nobody let in at port {port}")


def played(play, port, narrow=False):
    """What a peer on a connection of its own hands back: the bytes that came, and how it ended."""
    with connect(port, narrow) as peer:
        try:
            return play(peer)
        except OSError as error:
            return b"", type(error).__name__
