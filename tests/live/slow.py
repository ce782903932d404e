"""Consumers that are too slow, and peers of the door that do what no consumer should."""
import base64
import os
import pathlib
import socket
import sys
import threading
import time
import urllib.parse

from rows import Rows, expect, same

sys.path.insert(0, str(pathlib.Path(__file__).resolve().parents[1] / "clients"))
from clients import Reader, read  # noqa: E402
from frames import split  # noqa: E402
from live_tool import WAIT, Relay, wait_for  # noqa: E402
from scene import Scene  # noqa: E402

ROWS = Rows()
SMALL_ROOM = 4096
LONG_NAME = "x" * 20_000


def connected(relay: Relay, cursor: str = "") -> socket.socket:
    """A consumer that has shaken hands, and reads nothing; its system keeps little for it."""
    parts = urllib.parse.urlsplit(relay.stream())
    peer = socket.socket()
    peer.setsockopt(socket.SOL_SOCKET, socket.SO_RCVBUF, SMALL_ROOM)
    peer.connect((parts.hostname, parts.port))
    key = base64.b64encode(os.urandom(16)).decode()
    peer.sendall((f"GET {parts.path}{cursor} HTTP/1.1\r\nHost: {parts.netloc}\r\nUpgrade: websocket\r\nConnection: Upgrade\r\n"
                  f"Sec-WebSocket-Key: {key}\r\nSec-WebSocket-Version: 13\r\n\r\n").encode())
    return peer


class Reading:
    """Reads all that comes of a peer once a consumer is told that it is too slow: it has ten seconds then, whatever else goes on."""

    def __init__(self, relay: Relay, peer: socket.socket):
        self.relay, self.peer, self.taken = relay, peer, b""
        self.thread = threading.Thread(target=self.read, daemon=True)
        self.thread.start()

    def read(self) -> None:
        wait_for(lambda: self.relay.metrics()["live_consumers_too_slow_total"] > 0, "a consumer is too slow")
        self.taken = all_of(self.peer)

    def all(self) -> bytes:
        self.thread.join()
        return self.taken


def all_of(peer: socket.socket) -> bytes:
    """What comes up to the end of a connection."""
    taken = b""
    peer.settimeout(WAIT)
    try:
        while piece := peer.recv(1 << 16):
            taken += piece
    except ConnectionError:
        pass
    return taken


@ROWS.row("a consumer that takes nothing is told so and closed, and others go on")
def takes_nothing(folder):
    scene = Scene(hosts=1)
    host, account = scene.hosts[0], scene.accounts()[0]
    limits = {"waiting_bytes": 300_000, "seconds": 600.0, "heartbeat": 600.0}
    with Relay(folder / "slow", scene.directory.address, [host.name], consumers=limits) as relay:
        relay.wait_until_taken(scene.sent())
        reader = Reader(scene.host_names()).start(relay.stream())
        peer = connected(relay)
        wait_for(lambda: relay.metrics()["live_consumers"] == 2, "both are there")
        account.name = LONG_NAME  # its records have it
        reading = Reading(relay, peer)
        while relay.metrics()["live_consumers_too_slow_total"] == 0:
            for _ in range(4):
                host.commit(account, creates=10)
            relay.wait_until_taken(scene.sent())
            expect(len(host.events) < 300, "it was never too slow")
        head, _, stream = reading.all().partition(b"\r\n\r\n")
        expect(head.startswith(b"HTTP/1.1 101 "), f"the handshake: {head}")
        messages = [payload for name, payload in split(stream) if name == "message"]
        header, payload = read(messages[-1])
        same((header, payload["error"]), ({"op": -1}, "ConsumerTooSlow"), "its last message")
        expect(isinstance(payload["message"], str) and payload["message"], "the error has no message")
        last = relay.metrics()["live_last_number"]
        wait_for(lambda: reader.cursor >= last, "the other consumer has all")
        reader.stop()
        same((reader.numbers, reader.consumer.faults), (list(range(1, int(last) + 1)), []), "what the other one got")


@ROWS.row("a consumer of the past that takes nothing is closed after its time")
def takes_no_past(folder):
    scene = Scene(hosts=1)
    scene.accounts()[0].name = LONG_NAME
    for _ in range(8):
        scene.hosts[0].commit(scene.accounts()[0], creates=10)
    with Relay(folder / "past", scene.directory.address, [scene.hosts[0].name], consumers={"seconds": 1.0, "heartbeat": 600.0}) as relay:
        relay.wait_until_taken(scene.sent())
        peer = connected(relay, "?cursor=0")
        wait_for(lambda: relay.metrics()["live_consumers_too_slow_total"] == 1, "it is too slow")
        wait_for(lambda: relay.metrics()["live_consumers"] == 0, "it is gone")
        peer.close()


@ROWS.row("peers that say nothing or too much do no harm")
def odd_peers(folder):
    scene = Scene(hosts=1)
    with Relay(folder / "odd", scene.directory.address, [scene.hosts[0].name], consumers={"most": 3, "heartbeat": 600.0}) as relay:
        relay.wait_until_taken(scene.sent())
        parts = urllib.parse.urlsplit(relay.address)
        silent = socket.create_connection((parts.hostname, parts.port))
        long = socket.create_connection((parts.hostname, parts.port))
        long.sendall(b"GET /" + b"x" * 20_000 + b" HTTP/1.1\r\n\r\n")
        peers = [connected(relay) for _ in range(3)]
        wait_for(lambda: relay.metrics()["live_consumers"] == 3, "three are there")
        fourth = connected(relay)
        expect(all_of_head(fourth).startswith(b"HTTP/1.1 503 "), "a fourth one was let in")
        peers[0].sendall(b"\x82\xfe\x20\x00" + bytes(4) + bytes(0x2000))  # a message of 8,192 bytes
        peers[1].sendall(b"\xff\xff\xff\xff")  # no frame
        wait_for(lambda: relay.metrics()["live_consumers"] == 1, "they are gone")
        same(relay.get("/xrpc/_health")[0], 200, "its health")
        for peer in (silent, long, fourth, *peers):
            peer.close()
        time.sleep(0.1)


def all_of_head(peer: socket.socket) -> bytes:
    peer.settimeout(WAIT)
    return peer.recv(4096)
