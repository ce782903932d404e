"""Trees: their nodes, what blocks show of one, and what undoing operations leaves."""
from items import Fault, Link, is_node, link_of, encode, whole
from messages import height, shared

EMPTY = link_of(bytes.fromhex("a2616580616cf6"))
LONGEST_KEY = 830


def is_child(value):
    return value is None or is_node(value)


def node(block):
    """The left link and the entries (key, value, right link) of a node's one encoding."""
    found = whole(block)
    if type(found) is not dict or set(found) != {"e", "l"} or type(found["e"]) is not list or not is_child(found["l"]):
        raise Fault
    entries, before = [], b""
    for entry in found["e"]:
        if type(entry) is not dict or set(entry) != {"k", "p", "t", "v"} or type(entry["k"]) is not bytes:
            raise Fault
        if type(entry["p"]) is not int or type(entry["v"]) is not Link or not is_child(entry["t"]):
            raise Fault
        key = before[:max(entry["p"], 0)] + entry["k"]
        if entry["p"] != shared(before, key) or not before < key or len(key) > LONGEST_KEY:
            raise Fault
        entries.append((key, entry["v"], entry["t"]))
        before = key
    return found["l"], entries


class AtFault(Exception):
    """The first block at fault: its link, and whether it is there."""

    def __init__(self, link, is_there):
        super().__init__(link)
        self.link, self.is_there = link, is_there


def view(blocks, root, is_whole=False):
    """The list that the blocks show at a link: (key, value), and (layer, link) of a hole. In a whole tree nothing may be missing."""
    if root not in blocks:
        raise AtFault(root, False)
    found = []

    def visit(link, layer, low, high):
        is_top = layer is None
        if link not in blocks:
            if is_whole:
                raise AtFault(link, False)
            found.append((layer, link))
            return
        try:
            left, entries = node(blocks[link])
        except Fault as wrong:
            raise AtFault(link, True) from wrong
        if is_top:
            layer = height(entries[0][0]) if entries else 0
        links = [left, *(right for _, _, right in entries)]
        keys = [key for key, _, _ in entries]
        if (any(height(key) != layer for key in keys) or any(low is not None and key <= low for key in keys)
                or any(high is not None and key >= high for key in keys)
                or any(links) and (layer == 0 or is_top and not keys) or not (is_top or keys or any(links))):
            raise AtFault(link, True)
        bounds = [low, *keys, high]
        for i, child in enumerate(links):
            if i > 0:
                found.append((keys[i - 1], entries[i - 1][1]))
            if child is not None:
                visit(child, layer - 1, bounds[i], bounds[i + 1])

    visit(root, None, None, None)
    holes = [link for layer, link in found if type(layer) is int]
    if len(set(holes)) < len(holes):
        raise AtFault(root, True)
    return found


def is_hole(entry):
    return type(entry[0]) is int


def stop(shown, changes):
    """The first operation that disagrees with the list (21) or isn't covered by it (22), with its code, or None. A change is
    (key, was, now)."""
    places = {entry[0]: i for i, entry in enumerate(shown) if not is_hole(entry)}
    for i, (key, was, now) in enumerate(changes):
        if key in places:
            at = places[key]
            is_beside = any(0 <= j < len(shown) and is_hole(shown[j]) for j in (at - 1, at + 1))
            if now is None or shown[at][1] != now:
                return 21, i
            if was is None and is_beside:
                return 22, i
        else:
            at = gap(shown, key)
            is_hidden = any(is_hole(entry) for entry in at)
            if not is_hidden and now is not None:
                return 21, i
            if is_hidden:
                return 22, i
    return None


def gap(shown, key):
    """What stands between the visible keys around a key that isn't visible."""
    found = []
    for entry in shown:
        if is_hole(entry):
            found.append(entry)
        elif entry[0] < key:
            found = []
        else:
            break
    return found


def undone(shown, changes):
    """The list with what was before each change, where `stop` finds none."""
    found = list(shown)
    for key, was, _ in changes:
        at = next((i for i, entry in enumerate(found) if entry[0] == key), None)
        if at is not None:
            found[at:at + 1] = [(key, was)] if was is not None else []
        else:
            at = next((i for i, entry in enumerate(found) if not is_hole(entry) and entry[0] > key), len(found))
            found.insert(at, (key, was))
    return found


def root(shown):
    """The link of the tree of a list."""
    keys = [entry[0] for entry in shown if not is_hole(entry)]
    return link_of(encoded(shown, max(map(height, keys), default=0)))


def encoded(shown, layer):
    """The block over a part of a list at a layer."""
    parts, own, part = [], [], []
    for entry in shown:
        if not is_hole(entry) and height(entry[0]) == layer:
            own.append(entry)
            parts.append(part)
            part = []
        else:
            part.append(entry)
    parts.append(part)
    links = [below(part, layer) for part in parts]
    entries, before = [], b""
    for (key, value), right in zip(own, links[1:]):
        count = shared(before, key)
        entries.append({"k": key[count:], "p": count, "t": right, "v": value})
        before = key
    return encode({"e": entries, "l": links[0]})


def below(part, layer):
    if not part:
        return None
    if len(part) == 1 and part[0][0] == layer - 1:
        return part[0][1]
    return link_of(encoded(part, layer - 1))
