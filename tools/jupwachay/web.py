"""Asking a host over HTTP: with TLS unless it is plain, only at addresses that may be reached, with no redirection followed, and
with bounds on the time and on the bytes of an answer."""
import contextlib
import http.client
import socket
import ssl
import threading
import time
from typing import Iterator

from jupwachay.addresses import Late, NotPublic, Reach, Unreached, connected, within
from jupwachay.speech import printable

PIECE = 1 << 20
LONGEST_WAIT = 60  # seconds for one read
GRACE = 1  # seconds more until nobody waits for an answer that should have been cut off
GONE = (404, 410)
AGENT = "jupwachay"


class Unanswered(Exception):
    """Why there is no answer."""


class Refused(Unanswered):
    """An answer with another status than 200."""

    def __init__(self, host: str, status: int):
        super().__init__(f"{host} answers {status}")
        self.status = status

    def is_gone(self) -> bool:
        """Whether what was asked for isn't there."""
        return self.status in GONE

    def may_change(self) -> bool:
        """Whether the same question may have another answer soon."""
        return self.status == 429 or self.status >= 500


class Barred(Unanswered):
    """A host that may not be asked."""


class Wire(http.client.HTTPConnection):
    """A connection of `http.client` to an address that may be reached."""

    def __init__(self, host: str, reach: Reach, seconds: float):
        self.default_port = 80 if reach.is_plain else 443
        super().__init__(host, timeout=min(LONGEST_WAIT, seconds))
        self.reach = reach

    def connect(self) -> None:
        self.sock = connected(self.host, self.port, self.reach, self.timeout)
        if not self.reach.is_plain:
            context = ssl.create_default_context()
            context.set_alpn_protocols(["http/1.1"])
            self.sock = context.wrap_socket(self.sock, server_hostname=self.host)


class Connection:
    """A connection to a host, which is cut off after a time, however slowly it answers."""

    def __init__(self, host: str, reach: Reach, seconds: float):
        self.host, self.seconds, self.end = host, seconds, time.monotonic() + seconds
        try:
            self.wire = Wire(host, reach, seconds)
        except http.client.InvalidURL as why:
            raise Unanswered(f"{host} has no port") from why
        self.timer = threading.Timer(seconds, self.cut_off)
        self.timer.daemon = True

    def __enter__(self) -> "Connection":
        self.timer.start()
        return self

    def __exit__(self, *_) -> None:
        self.timer.cancel()
        self.wire.close()

    def is_late(self) -> bool:
        return time.monotonic() >= self.end

    def cut_off(self) -> None:
        with contextlib.suppress(OSError, AttributeError):  # it may be gone, or not there yet
            self.wire.sock.shutdown(socket.SHUT_RDWR)

    def pieces(self, target: str, kind: str) -> Iterator[bytes]:
        """The content of an answer, piece by piece. It comes to its end, or there is none."""
        try:
            self.wire.connect()
            if self.is_late():
                raise Unanswered(self.late())
            self.wire.request("GET", target, headers={"User-Agent": AGENT, "Accept": kind})
            answer = self.wire.getresponse()
            if answer.status != 200:
                raise Refused(self.host, answer.status)
            while piece := answer.read1(PIECE):
                yield piece
            is_whole = not answer.length
        except NotPublic as why:
            raise Barred(str(why)) from why
        except (OSError, ValueError, Unreached, http.client.HTTPException) as why:
            raise Unanswered(self.late() if self.is_late() else printable(f"{self.host}: {why}")) from why
        if self.is_late():
            raise Unanswered(self.late())
        if not is_whole:
            raise Unanswered(f"{self.host} broke off")

    def late(self) -> str:
        return f"{self.host} took more than {self.seconds:g} seconds"


def content_of(host: str, target: str, kind: str, reach: Reach, seconds: float, most: int) -> bytes:
    """The whole content of an answer. One that is longer than it may be isn't read to its end."""
    def read() -> bytes:
        found = bytearray()
        with Connection(host, reach, seconds) as connection:
            for piece in connection.pieces(target, kind):
                found += piece
                if len(found) > most:
                    raise Unanswered(f"{host}: the answer has more than {most} bytes")
        return bytes(found)

    try:
        return within(seconds + GRACE, read)  # a signal ends the wait for another thread, and not every wait for a socket
    except Late as why:
        raise Unanswered(f"{host} {why}") from why
