"""Hosts for the feed: each function plays one, from the request on. What a host hands back are the frames that it saw."""
import time

from frames import BINARY, CLOSE, CONTINUE, LONG, PING, PONG, TEXT, accept_key, frame, read_head, read_rest, reset, split

LONGEST = 8_388_608
FAREWELL = frame(CLOSE, b"\x03\xe8")
PATIENCE = 75


def answer(head, wrong=False):
    key = next(line.split(b": ")[1] for line in head.split(b"\r\n") if line.startswith(b"Sec-WebSocket-Key: "))
    accept = accept_key(b"wrong" if wrong else key)
    fields = [b"HTTP/1.1 101 Switching Protocols", b"Upgrade: websocket", b"Connection: Upgrade", b"Sec-WebSocket-Accept: " + accept]
    return b"\r\n".join(fields) + b"\r\n\r\n"


def seen(peer, seconds=LONG):
    taken, _ = read_rest(peer, seconds)
    return split(taken)


def gives(*frames):
    """A host that sends these frames and then looks at what the feed sends."""

    def play(peer, head):
        peer.sendall(answer(head))
        for each in frames:
            peer.sendall(each)
        return seen(peer)

    return play


def together(peer, head):
    peer.sendall(answer(head) + frame(BINARY, b"j" * 6) + FAREWELL)
    return seen(peer)


def in_steps(peer, head):
    for byte in answer(head) + frame(BINARY, b"s" * 300) + FAREWELL:
        peer.sendall(bytes([byte]))
    return seen(peer)


def past_the_limit(peer, head):
    peer.sendall(answer(head) + frame(BINARY, b"x" * LONGEST, final=False) + frame(CONTINUE, size=1))
    return seen(peer)


def far_past_the_limit(peer, head):
    peer.sendall(answer(head) + frame(BINARY, b"x", final=False) + frame(PING, b"so far") + frame(CONTINUE, size=LONGEST))
    return seen(peer)


def ends(peer, head):
    peer.sendall(answer(head) + frame(BINARY, b"x" * 10))


def ends_inside(peer, head):
    peer.sendall(answer(head) + frame(BINARY, b"x" * 10) + frame(BINARY, b"abc", size=1000))


def resets(peer, head):
    peer.sendall(answer(head) + frame(BINARY, b"x" * 10))
    time.sleep(0.5)
    reset(peer)


def closes_and_stays(peer, head):
    peer.sendall(answer(head) + frame(BINARY, b"x") + FAREWELL)
    time.sleep(3)
    return seen(peer)


def wrong_key(peer, head):
    peer.sendall(answer(head, wrong=True))
    return seen(peer)


def not_found(peer, _head):
    peer.sendall(b"HTTP/1.1 404 Not Found\r\nContent-Length: 0\r\n\r\n")
    return seen(peer)


def no_http(peer, _head):
    peer.sendall(b"\x16\x03\x01\x02\x00\x01\x00\x01\xfc\x03\x03")
    return seen(peer)


def long_answer(peer, _head):
    peer.sendall(b"HTTP/1.1 101 Switching Protocols\r\nX: " + b"y" * 20000)
    return seen(peer)


def no_answer(peer, _head):
    return seen(peer, PATIENCE)


def slow_answer(peer, head):
    drip(peer, answer(head))


def silent(peer, head):
    peer.sendall(answer(head) + frame(BINARY, b"x" * 10))
    return seen(peer, PATIENCE)


def quiet(peer, head):
    """Has nothing to say for more than a minute, and answers pings."""
    peer.sendall(answer(head) + frame(BINARY, b"x" * 10))
    begun, found = time.monotonic(), []
    while time.monotonic() - begun < 65:
        taken, _ = read_rest(peer, 1)
        for name, payload in split(taken):
            found.append((name, payload))
            if name == "ping":
                peer.sendall(frame(PONG, payload))
    peer.sendall(frame(BINARY, b"y") + FAREWELL)
    return found + seen(peer)


def dripping(peer, head):
    peer.sendall(answer(head) + frame(BINARY, size=1000))
    drip(peer, b"x" * 1000)


def empty_fragments(peer, head):
    peer.sendall(answer(head) + frame(BINARY, final=False))
    for _ in range(2 * PATIENCE):
        peer.sendall(frame(CONTINUE, final=False))
        time.sleep(0.5)


def in_fragments(count):
    """A message in this many fragments of a byte each."""
    return frame(BINARY, b"x", final=False) + frame(CONTINUE, b"x", final=False) * (count - 2) + frame(CONTINUE, b"x")


def fragments_without_end(peer, head):
    peer.sendall(answer(head) + frame(BINARY, final=False))
    while True:
        peer.sendall(frame(CONTINUE, final=False) * 1000)


def slow_fragments(peer, head):
    """Sends a fragment of a byte each second, and answers pings."""
    peer.sendall(answer(head))
    time.sleep(1)
    peer.sendall(frame(BINARY, b"x", final=False))
    for _ in range(2 * PATIENCE):
        taken, _ = read_rest(peer, 1)
        peer.sendall(b"".join(frame(PONG, payload) for name, payload in split(taken) if name == "ping"))
        peer.sendall(frame(CONTINUE, b"x", final=False))


def flood(peer, head):
    peer.sendall(answer(head) + frame(PING, b"p" * 100) * 1001)
    return seen(peer, PATIENCE)


def drip(peer, content):
    for byte in content:
        peer.sendall(bytes([byte]))
        time.sleep(0.5)


HOSTS = {
    "three": gives(frame(BINARY, b"a" * 5), frame(BINARY, b"b" * 300), frame(BINARY, b"c" * 70000), FAREWELL),
    "empty": gives(frame(BINARY), frame(BINARY, b"x"), FAREWELL),
    "text": gives(frame(TEXT, b"hello"), frame(BINARY, b"x" * 3), FAREWELL),
    "no-utf8": gives(frame(TEXT, b"\xff\xfe"), frame(BINARY, b"x" * 3), FAREWELL),
    "fragments": gives(
        frame(BINARY, b"a" * 100, final=False),
        frame(PING, b"between"),
        frame(CONTINUE, b"b" * 100, final=False) + frame(CONTINUE, b"c" * 56),
        FAREWELL,
    ),
    "many-fragments": gives(in_fragments(65_536), FAREWELL),
    "thousand-empty-fragments": gives(frame(BINARY, final=False) + frame(CONTINUE, final=False) * 999 + frame(CONTINUE, b"x"), FAREWELL),
    "more-fragments": gives(in_fragments(65_537)),
    "fragments-without-end": fragments_without_end,
    "pings": gives(frame(PING, b"one") + frame(BINARY, b"x"), frame(PING, b"two"), frame(PONG, b"un") + frame(BINARY, b"yy"), FAREWELL),
    "together": together,
    "in-steps": in_steps,
    "longest": gives(frame(BINARY, b"x" * LONGEST), FAREWELL),
    "longest-in-parts": gives(*[frame(BINARY if i == 0 else CONTINUE, b"x" * (LONGEST // 8), final=i == 7) for i in range(8)], FAREWELL),
    "longer": gives(frame(BINARY, size=LONGEST + 1)),
    "longer-behind-another": gives(frame(BINARY, b"a" * 5) + frame(BINARY, size=LONGEST + 1)),
    "far-longer": gives(frame(BINARY, size=1 << 62)),
    "fragment-past-the-limit": past_the_limit,
    "fragment-far-past-the-limit": far_past_the_limit,
    "ends": ends,
    "ends-inside": ends_inside,
    "resets": resets,
    "closes-and-stays": closes_and_stays,
    "wrong-key": wrong_key,
    "not-found": not_found,
    "no-http": no_http,
    "long-answer": long_answer,
    "masked": gives(frame(BINARY, b"abc", masked=True)),
    "reserved-bit": gives(b"\xc2\x03abc"),
    "long-ping": gives(frame(PING, size=126)),
    "thousand-pings": gives(frame(PING) * 1000 + frame(BINARY, b"x"), FAREWELL),
    "flood": flood,
    "no-answer": no_answer,
    "slow-answer": slow_answer,
    "silent": silent,
    "quiet": quiet,
    "dripping": dripping,
    "empty-fragments": empty_fragments,
    "slow-fragments": slow_fragments,
}


def play(name, peer):
    """Plays a host on a connection: the request's head, and the frames that it saw."""
    head = read_head(peer)
    try:
        if head.endswith(b"\r\n\r\n"):
            return head, HOSTS[name](peer, head) or []
    except OSError:
        pass
    finally:
        peer.close()
    return head, []
