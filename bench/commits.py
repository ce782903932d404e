#!/usr/bin/env python3
"""commits.py FOLDER: writes messages that measure what one commit costs, one file each, and for each the blocks of its
CAR (FOLDER/NAME.blocks: four bytes of length, then the block), which is what any checker has to hash."""
import pathlib
import random
import sys

import messages as m


def posts(count, draw):
    keys = set()
    while len(keys) < count:
        keys.add(b"app.bsky.feed.post/" + m.tid(draw.getrandbits(62)).encode())
    return sorted(keys)


def ordinary(count, operations, draw, heights):
    """A commit of some operations on a map of so many keys: creates mostly, then updates and deletes."""
    keys = posts(count + operations, draw)
    draw.shuffle(keys)
    fresh, held = keys[:operations], sorted(keys[operations:])
    pairs = {key: m.value(i) for i, key in enumerate(held)}
    changes = {}
    for i in range(operations):
        kind = draw.choice(["create", "create", "create", "update", "delete"])
        if kind == "create":
            changes[fresh[i]] = None, m.value(10**6 + i)
        else:
            key = draw.choice(held)
            changes[key] = pairs[key], m.value(2 * 10**6 + i) if kind == "update" else None
    return m.step(pairs, changes, heights=heights)


def first_of(keys):
    changes = {key: (None, m.value(i)) for i, key in enumerate(keys)}
    tree = m.Tree({key: now for key, (_, now) in changes.items()})
    blocks = list({link: block for link, block in tree.nodes.values()}.items())
    return m.message(1, m.tid(1), None, tree.root, None, changes, blocks)


def small_blocks(count):
    """A commit of one create beside many blocks of three bytes that the tree doesn't name."""
    more = [(m.link_of(block), block) for block in (i.to_bytes(3, "big") for i in range(count))]
    key = b"app.bsky.feed.post/one"
    return m.step({}, {key: (None, m.value(1))}, more=more)


def low_keys(count, make):
    keys, i = [], 0
    while len(keys) < count:
        key = make(i)
        if m.height(key) == 0:
            keys.append(key)
        i += 1
    return keys


def wide(count, operations):
    """Creates spread over one node of so many keys."""
    keys = low_keys(count, lambda i: b"app.bsky.feed.post/%08d" % (i * 7919 % 10**8))
    fresh = sorted(keys)[:: len(keys) // operations][:operations]
    pairs = {key: m.value(i) for i, key in enumerate(keys) if key not in set(fresh)}
    changes = {key: (None, m.value(10**6 + i)) for i, key in enumerate(fresh)}
    return m.step(pairs, changes)


def long_deletes(count, operations, key):
    """Deletes from one node of so many keys of 830 bytes."""
    keys = low_keys(count + operations, key)
    draw = random.Random(5)
    gone = draw.sample(keys, operations)
    pairs = {key: m.value(i) for i, key in enumerate(keys)}
    changes = {key: (pairs[key], None) for key in gone}
    return m.step(pairs, changes)


def apart(i):
    """Keys of 830 bytes that differ early."""
    return b"%07d" % (i * 4999999 % 10**7) + b"c" * 310 + b"/" + b"k" * 512


def alike(i):
    """Keys of 830 bytes that differ in their last bytes alone, so that a block holds many of them."""
    return b"c" * 317 + b"/" + b"k" * 504 + b"%08d" % (i * 4999999 % 10**8)


def nested_lists(size):
    """A frame without its fields: lists of one item, as deep as they may lie, one after another."""
    deep = b"\x81" * 61 + b"\x80"
    return m.encode({"t": "#commit", "op": 1}) + b"\xa1\x61a" + m.head(4, size // 62) + deep * (size // 62)


def blocks_of(message_bytes):
    """The blocks of a message's CAR, found by its own `blocks` field."""
    at = message_bytes.find(b"fblocks") + 7
    major, info = message_bytes[at] >> 5, message_bytes[at] & 31
    assert major == 2
    size = {24: 1, 25: 2, 26: 4}.get(info, 0)
    length = int.from_bytes(message_bytes[at + 1:at + 1 + size], "big") if size else info
    car = message_bytes[at + 1 + size:at + 1 + size + length]
    place, first = 0, True
    while place < len(car):
        n = shift = 0
        while True:
            byte = car[place]
            place += 1
            n |= (byte & 127) << shift
            shift += 7
            if byte < 128:
                break
        if not first:
            yield car[place + 36:place + n]
        first = False
        place += n


def all_messages():
    for count in (1000, 10000, 100000):
        draw, heights = random.Random(count), {}
        for operations in (1, 2, 3, 4):
            for turn in range(2):
                yield f"keys{count}_ops{operations}_{turn}", ordinary(count, operations, draw, heights)
    yield "first200", first_of(posts(200, random.Random(200)))
    yield "small48000", small_blocks(48000)
    yield "wide16000_ops200", wide(16000, 200)
    yield "wide4000_ops200", wide(4000, 200)
    yield "wide16000_ops50", wide(16000, 50)
    yield "deletes_apart", long_deletes(2190, 200, apart)
    yield "deletes_alike", long_deletes(27000, 200, alike)
    yield "nested8MiB", nested_lists(8 * 2**20 - 4096)


def main():
    folder = pathlib.Path(sys.argv[1])
    folder.mkdir(parents=True, exist_ok=True)
    for name, message_bytes in all_messages():
        (folder / f"{name}.message").write_bytes(message_bytes)
        if name.startswith("nested"):
            continue
        blocks = list(blocks_of(message_bytes))
        (folder / f"{name}.blocks").write_bytes(b"".join(len(b).to_bytes(4, "big") + b for b in blocks))


if __name__ == "__main__":
    main()
