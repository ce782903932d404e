"""What may become of a message on its way, or by a host's ill will: changes of its bytes, and of its parts."""
import messages as m

VALUES = (None, True, False, 0, 1, -1, 23, 24, 2**53 - 1, 2**53, 2**63 - 1, -(2**63), "", "a", "create", "update", "delete", "did:plc:m0001",
          "did:web:x:", m.TIME, "t" * 65, "2222222222222", "jzzzzzzzzzzzz", "kzzzzzzzzzzzz", b"", b"a", [], {}, [None], m.value(1),
          m.Link(b"\x01\x55\x12\x20" + bytes(32)), m.Link(bytes.fromhex("01711220") + bytes(32)))
NAMES = ("op", "t", "ops", "seq", "rev", "repo", "did", "time", "blobs", "blocks", "since", "prevData", "commit", "status", "active",
         "path", "cid", "prev")
PATHS = ("app.bsky.feed.post/0000", "a/b", "app.bsky.feed.post/", "/a", "a", "a/..", "a/b/c", "c" * 317 + "/" + "k" * 512,
         "c" * 318 + "/k", "c/" + "k" * 513, "app.bsky.feed.post/é")


# changes of bytes: what a message becomes, beside others of the tape

def flip(draw, message, _):
    changed = bytearray(message)
    for _ in range(draw.choice((1, 1, 1, 2, 3))):
        changed[draw.randrange(len(changed))] ^= 1 << draw.randrange(8)
    return bytes(changed)


def cut(draw, message, _):
    start, end = sorted(draw.randrange(len(message) + 1) for _ in range(2))
    return draw.choice((message[:start], message[end:], message[:start] + message[end:]))


def grow(draw, message, _):
    at = draw.randrange(len(message) + 1)
    start, end = sorted(draw.randrange(len(message) + 1) for _ in range(2))
    return message[:at] + draw.choice((message[start:end], draw.randbytes(draw.randrange(1, 9)))) + message[at:]


def splice(draw, message, others):
    other = draw.choice(others)
    at = draw.randrange(len(message) + 1)
    return message[:at] + other[draw.randrange(len(other)):] if draw.random() < 0.5 else message[:at] + other[at:]


def heads(message):
    """Where heads of items stand: in front, and at the keys of fields and behind them."""
    found = [0]
    for key in map(m.encode, NAMES):
        at = message.find(key)
        if at >= 0:
            found += [at, at + len(key)]
    return [at for at in found if at < len(message)]


def lengths(draw, message, _):
    """Another argument, or another form of it, in the head of an item."""
    at = draw.choice(heads(message))
    major = message[at] & 0xE0
    argument = draw.choice((0, 1, 23, 24, 255, 256, 65535, 65536, 2**31, 2**32, 2**53, 2**63, 2**64 - 1, draw.getrandbits(16)))
    size, low = draw.choice(((1, 24), (2, 25), (4, 26), (8, 27)))
    encoded = draw.choice((
        m.head(major >> 5, argument),
        bytes([major | low]) + (argument % (1 << 8 * size)).to_bytes(size, "big"),
        bytes([major | draw.randrange(28, 32)]), bytes([message[at] ^ draw.choice((1, 2, 4, 32, 64, 128))])))
    return message[:at] + encoded + message[at + 1:]


# changes of parts

def fields(draw, parts):
    key = draw.choice([*parts.payload, "tooBig", "since", "prevData", "status", "extra"])
    if draw.random() < 0.25:
        parts.payload.pop(key, None)
    else:
        parts.payload[key] = draw.choice(VALUES)


def header(draw, parts):
    key = draw.choice(("t", "op", "extra"))
    if draw.random() < 0.2:
        parts.header.pop(key, None)
    else:
        parts.header[key] = draw.choice((*VALUES, "#commit", "#sync", "#info", "#labels", "#account", "#identity"))


def depths(draw, parts):
    """Lists or maps in one another, round the greatest depth that is allowed."""
    value = draw.choice((None, 7, []))
    for _ in range(draw.choice((1, 30, 60, 61, 62, 63, 64, 65, 100))):
        value = [value] if draw.random() < 0.5 else {"a": value}
    parts.payload[draw.choice(("extra", "blobs", "ops", "time"))] = value


def ops_of(parts):
    """The operations, as long as they are some."""
    ops = parts.payload.get("ops")
    return ops if isinstance(ops, list) and all(isinstance(op, dict) for op in ops) else []


def counts(draw, parts):
    """More operations, or the same ones again, up to their limit and past it."""
    ops = ops_of(parts)
    count = draw.choice((0, 1, 2, 199, 200, 201, 500))
    more = [m.operation(b"a.b/%05d" % i, None, m.value(i)) for i in range(max(count - len(ops), 0))]
    parts.payload["ops"] = (ops + more)[:count] if draw.random() < 0.8 else ops + ops


def operations(draw, parts):
    ops = ops_of(parts)
    if not ops:
        return
    op = dict(draw.choice(ops))
    at = draw.randrange(len(ops))
    key = draw.choice(("action", "path", "cid", "prev", "swap"))
    if key == "swap":
        other = draw.randrange(len(ops))
        ops[at], ops[other] = ops[other], ops[at]
        return
    if key == "path":
        op[key] = draw.choice(PATHS)
    elif draw.random() < 0.3:
        op.pop(key, None)
    else:
        op[key] = draw.choice(VALUES)
    ops[at] = op


def without(draw, parts):
    """A block is missing."""
    if parts.blocks:
        del parts.blocks[draw.randrange(len(parts.blocks))]


def sections(draw, parts):
    """Blocks in another order, twice, under a link that isn't theirs, of no tree, or one changed in a bit."""
    if not parts.blocks:
        return
    at = draw.randrange(len(parts.blocks))
    link, block = parts.blocks[at]
    kind = draw.randrange(6)
    if kind == 0:
        draw.shuffle(parts.blocks)
    elif kind == 1:
        parts.blocks.append((link, block))
    elif kind == 2:
        parts.blocks[at] = link, block + b"\0"
    elif kind == 3:
        more = draw.randbytes(draw.randrange(40))
        parts.blocks.append((m.Link(b"\x01\x55" + m.link_of(more)[2:]), more))
    elif kind == 4:
        parts.blocks[at] = m.Link(bytes([link[0], draw.choice((0x55, 0x70, 0x71)), *link[2:]])), block
    else:
        parts.blocks[at] = link, flip(draw, block, None) if block else b"\0"


def front(draw, parts):
    """Another header of the CAR."""
    parts.front[draw.choice(("version", "roots", "extra"))] = draw.choice((*VALUES, [], [m.value(1)], [m.value(1), m.value(2)]))


def relinked(draw, parts):
    """A block that was changed, all links to it made anew, up to the commit."""
    if not parts.blocks:
        return
    at = draw.randrange(len(parts.blocks))
    old, block = parts.blocks[at]
    replace(parts, old, draw.choice((flip, cut, grow, lengths))(draw, block, None) if block else b"\0")


def replace(parts, old, block):
    new = m.link_of(block)
    parts.blocks = [(new, block) if link == old else (link, there) for link, there in parts.blocks]
    if parts.payload.get("commit") == old:
        parts.payload["commit"] = new
    if isinstance(parts.front["roots"], list):
        parts.front["roots"] = [new if link == old else link for link in parts.front["roots"]]
    for link, there in list(parts.blocks):
        if old in there:
            replace(parts, link, there.replace(old, new))


def commits(draw, parts):
    """Another field in the commit object, its link made anew."""
    if not parts.blocks:
        return
    payload = parts.payload
    found = {"did": payload.get("repo", payload.get("did")), "rev": payload.get("rev"), "sig": bytes(64), "data": m.value(1), "prev": None,
             "version": 3}
    at = parts.blocks[0][1].find(b"ddata") + 5
    found["data"] = m.Link(parts.blocks[0][1][at + 5:at + 41])
    key = draw.choice([*found, "extra"])
    if draw.random() < 0.2:
        found.pop(key, None)
    else:
        found[key] = draw.choice((*VALUES, bytes(8000), bytes(9000)))
    replace(parts, parts.blocks[0][0], m.encode(found))


def bulk(draw, parts):
    """So many bytes that a limit is reached: of the blocks, of what goes out, of a message."""
    size = draw.choice((9_000, 1_990_000, 2_010_000, 4_190_000, 4_200_000, 8_380_000))
    if parts.blocks and size < 3_000_000:
        more = bytes(size)
        parts.blocks.append((m.Link(b"\x01\x55" + m.link_of(more)[2:]), more))
    else:
        parts.payload["extra"] = bytes(size)


LONGEST = 8_388_608  # bytes of a message on a tape
OF_BYTES = (flip, cut, grow, splice, lengths)
OF_PARTS = (fields, header, depths, counts, operations, without, sections, front, relinked, commits)
OF_REPOSITORIES = (without, sections, front, relinked, commits)
ONE_BULKY_IN = 1000


def mutated(draw, parts, others):
    """The message of these parts, changed, and cut where it is too long for a tape; of others of the tape it may get a part."""
    return changed(draw, parts, others)[:LONGEST]


def changed(draw, parts, others):
    if draw.randrange(ONE_BULKY_IN) == 0:
        bulk(draw, parts)
    if draw.random() < 0.65:
        for _ in range(draw.choice((1, 1, 2))):
            draw.choice(OF_PARTS)(draw, parts)
        return parts.message()
    return draw.choice(OF_BYTES)(draw, parts.message(), others)


def mutated_repository(draw, parts):
    """The CAR of these parts, changed or not."""
    for _ in range(draw.choice((0, 1, 1, 2))):
        draw.choice(OF_REPOSITORIES)(draw, parts)
    whole = parts.car()
    return draw.choice((flip, cut, grow))(draw, whole, None) if draw.random() < 0.2 else whole
