"""Which addresses may be reached, and sockets that were connected to such ones alone.

A name is no promise of an address: who owns the name may change it between two looks. So the addresses of a name are looked up
once for each connection, and the socket is connected to one of them that may be reached.
"""
import asyncio
import contextlib
import ipaddress
import socket
import threading
import time
from typing import Callable, NamedTuple, TypeVar, Union

Result = TypeVar("Result")
Address = Union[ipaddress.IPv4Address, ipaddress.IPv6Address]
# Addresses by which a translator or a tunnel may lead to a private one, former private ones, and those for documents.
LEADING_ELSEWHERE = [ipaddress.ip_network(text) for text in (
    "64:ff9b::/96", "64:ff9b:1::/48", "2002::/16", "2001::/32", "::/96", "fec0::/10", "3fff::/20", "192.88.99.0/24")]
SHORTEST_WAIT, BRIEF = 0.001, 0.5


class Reach(NamedTuple):
    """What a tool may reach: public addresses by TLS; private ones and connections without TLS where these are allowed."""

    is_private_allowed: bool = False
    is_plain: bool = False

    def scheme(self) -> str:
        return "http" if self.is_plain else "https"


class Unreached(Exception):
    """Why no address of a host was reached."""


class NotPublic(Unreached):
    """A host none of whose addresses may be reached."""


class Late(Unreached):
    """What took more time than it may."""


def is_public(text: str) -> bool:
    """Whether an address, as numbers, is one of the public network."""
    address: Address = ipaddress.ip_address(text.split("%")[0])
    if isinstance(address, ipaddress.IPv6Address) and address.ipv4_mapped:
        address = address.ipv4_mapped
    if address.is_multicast or address.is_unspecified:
        return False
    return address.is_global and not any(address in network for network in LEADING_ELSEWHERE if network.version == address.version)


def within(seconds: float, work: Callable[[], Result]) -> Result:
    """What some work gives, which nobody waits longer for than this. It goes on by itself where it takes longer."""
    given: list = []

    def run() -> None:
        try:
            given.append((work(), None))
        except Exception as why:  # handed on to who waits
            given.append((None, why))

    thread = threading.Thread(target=run, daemon=True)
    thread.start()
    end = time.monotonic() + seconds
    while thread.is_alive() and (rest := end - time.monotonic()) > 0:
        thread.join(min(rest, BRIEF))  # a signal that comes just before a wait is seen at its end alone
    if not given:
        raise Late(f"took more than {seconds:g} seconds")
    found, why = given[0]
    if why is not None:
        raise why
    return found


def looked_up(host: str, port: int, seconds: float) -> list:
    """The addresses of a name, as `getaddrinfo` gives them."""
    try:
        return within(seconds, lambda: socket.getaddrinfo(host, port, type=socket.SOCK_STREAM))
    except UnicodeError as why:
        raise Unreached(f"{host} is no name of a host") from why
    except OSError as why:
        raise Unreached(f"{host}: {why.strerror or why}") from why


def connected(host: str, port: int, reach: Reach, seconds: float) -> socket.socket:
    """A socket that is connected to an address of a host that may be reached."""
    end = time.monotonic() + seconds
    found = looked_up(host, port, seconds)
    allowed = [each for each in found if reach.is_private_allowed or is_public(each[4][0])]
    if not allowed:
        raise NotPublic(f"{host} isn't public" + (f": its address is {found[0][4][0]}" if found else ""))
    fault: Exception = Unreached(f"{host} has no address")
    for family, kind, protocol, _, address in allowed:
        sock = socket.socket(family, kind, protocol)
        try:
            sock.settimeout(max(end - time.monotonic(), SHORTEST_WAIT))
            sock.connect(address)
            return sock
        except OSError as why:
            sock.close()
            is_late = isinstance(why, TimeoutError)
            fault = Late(f"took more than {seconds:g} seconds") if is_late else Unreached(f"{host}: {why.strerror or why}")
    raise fault


async def opened(host: str, port: int, reach: Reach, seconds: float) -> socket.socket:
    """As `connected`, for a loop of asyncio. Whoever stops waiting leaves nothing open."""
    loop = asyncio.get_running_loop()
    found: asyncio.Future = loop.create_future()

    def settle(sock: "socket.socket | None", why: "Exception | None") -> None:
        if found.done():
            if sock is not None:
                sock.close()
        elif why is not None:
            found.set_exception(why)
        else:
            found.set_result(sock)

    def work() -> None:
        sock, fault = None, None
        try:
            sock = connected(host, port, reach, seconds)
            sock.setblocking(False)
        except Exception as why:  # handed on to who waits
            fault = why
        with contextlib.suppress(RuntimeError):  # the loop is closed: nobody waits any more
            loop.call_soon_threadsafe(settle, sock, fault)

    threading.Thread(target=work, daemon=True).start()
    return await found


def host_and_port(name: str, usual: int) -> "tuple[str, int]":
    """A host's name without its port, and the port, which is the usual one where the name has none."""
    host, _, port = name.partition(":")
    return host, int(port) if port.isdigit() else usual
