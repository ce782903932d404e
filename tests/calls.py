"""The way from `main` to the hash of a block: the functions that one goes through to read what a commit of `ingest` is put to.

A function calls another one where its body names it: one of its own file, one that a line of `use` brings in, one of a type
(`Cid::of`), or a method. Of a method the receiver isn't known: those of this name count that are in the crate or in one below it, and
of `self` those of its own type, where it has any. Such a guess can make the way shorter than it is, and not longer. So the way leads
through the functions of WAY, all of which a commit is put to, and is the shortest one between each and the next.
"""
import collections
import pathlib
import re
from dataclasses import dataclass, field

# The functions that begin the program, run the command, take one message, open a commit's blocks, read their CAR, and hash a block.
WAY = (("relay_cli", "main"), ("take_run", "ingest"), ("relay_step", "decide_message"), ("commit_check", "open_commit"),
       ("at_car", "read"), ("at_cid", "is_of"))
HASH = "Sha256"  # which the last of them names
COMMENT = re.compile(r"//[^\n]*|\"(?:\\.|[^\"\\])*\"")
BLOCK = re.compile(r"^(?:pub(?:\([^)]*\))? )?(?:impl|trait)\b", re.MULTILINE)
HEAD = re.compile(r"\bfn (\w+)")
CLAUSE = re.compile(r"\s*(?:requires|ensures)\b\s*\w*\s*\{")
USE = re.compile(r"^(?:pub(?:\([^)]*\))? )?use ([^;]+);", re.MULTILINE)
CALL = re.compile(r"(\.|\b\w+::)?\b([a-z_]\w*)(?:::<[^()]*?>)?\(")
OF_SELF = re.compile(r"\bself\s*$")


@dataclass
class Function:
    """A function with a body: where it stands, the type or trait that it is of, and its body."""
    crate: str
    module: str
    of: "tuple[str, ...]"
    name: str
    is_method: bool
    body: str = field(repr=False)

    def key(self):
        return self.crate, self.module, self.of, self.name

    def __str__(self):
        return f"{self.crate}/{self.module}: {'.'.join([*self.of[-1:], self.name])}"


def closing(text, at):
    """The place after the bracket that closes the one at a place; arrows close none."""
    opens, depth = text[at], 0
    closes = {"(": ")", "{": "}", "<": ">"}[opens]
    for i in range(at, len(text)):
        depth += (text[i] == opens) - (text[i] == closes and text[i - 1:i + 1] not in ("->", "=>"))
        if depth == 0:
            return i + 1
    raise ValueError(text[at:at + 60])


def blank(found):
    return re.sub(r"[^\n]", " ", found[0])


def names_of(head):
    """The trait and the type that the head of a block names."""
    head = re.sub(r"<[^<>]*>", "", re.sub(r"<[^<>]*>", "", re.sub(r"<[^<>]*>", "", head)))
    head = head.replace("impl", " ").replace("pub", " ").replace("trait", " ").partition(":")[0]
    return tuple(re.findall(r"[A-Z]\w*", head))


def functions_in(crate, path):
    """The functions with bodies in a file."""
    text = COMMENT.sub(blank, path.read_text())
    blocks = []
    for block in BLOCK.finditer(text):
        start = text.find("{", block.end())
        if start >= 0:
            blocks.append((start, closing(text, start), names_of(text[block.start():start])))
    for head in HEAD.finditer(text):
        at = head.end()
        at = closing(text, at) if text[at] == "<" else at
        if text[at] != "(":
            continue
        after = closing(text, at)
        start = re.compile(r"\b(?:requires|ensures)\b|[{;](?![^\[\n]*\])").search(text, after).start()
        while clause := CLAUSE.match(text, start):
            start = closing(text, clause.end() - 1)
        start = re.compile(r"\S").search(text, start).start()
        if text[start] == "{":
            of = next((names for begin, end, names in blocks if begin < head.start() < end), ())
            yield Function(crate, path.stem, of, head[1], "self" in text[at:after].partition(",")[0], text[start:closing(text, start)])


def brought_in(text):
    """What names stand for by the lines of `use` of a file: the segments of their paths."""
    found = {}

    def take(words, front):
        depth, part = 0, ""
        for letter in words + ",":
            depth += (letter == "{") - (letter == "}")
            if letter == "," and depth == 0:
                path, brace, rest = part.strip().partition("{")
                if brace:
                    take(rest.rpartition("}")[0], [*front, *filter(None, path.split("::"))])
                elif path:
                    path, _, alias = path.partition(" as ")
                    segments = [*front, *path.split("::")]
                    found[alias or segments[-1]] = segments
                part = ""
            else:
                part += letter

    for line in USE.finditer(COMMENT.sub(blank, text)):
        take(re.sub(r"\s+", " ", line[1]), [])
    return found


class Calls:
    """The functions of the crates, and which calls which."""

    def __init__(self, top, crates):
        self.needs = {}
        for line in (top / "crates.txt").read_text().splitlines():
            name, colon, below = line.partition("#")[0].partition(":")
            if colon:
                self.needs[name.split()[0]] = below.split()
        self.functions, self.uses = [], {}
        for crate in crates:
            for path in sorted((top / "crates" / crate / "src").rglob("*.rt")):
                self.functions += functions_in(crate, path)
                self.uses[crate, path.stem] = brought_in(path.read_text())
        self.free, self.methods = collections.defaultdict(list), collections.defaultdict(list)
        for each in self.functions:
            (self.methods[each.name] if each.of else self.free[each.crate, each.name]).append(each)
        self.reach = {}

    def reachable(self, crate):
        """A crate, and all crates below it."""
        if crate not in self.reach:
            self.reach[crate] = {crate}.union(*(self.reachable(below) for below in self.needs.get(crate, ())))
        return self.reach[crate]

    def standing(self, crate, segments):
        """The functions that a path of `use` may name, through the names that crates hand on."""
        first, *rest = segments
        home = first if first in self.needs else crate
        modules = [each for each in segments[:-1] if each not in (home, "crate", "self", "super")]
        found = self.free[home, segments[-1]]
        handed = self.uses.get((home, "lib"), {}).get(segments[-1])
        if not modules and handed and handed != segments and (home != crate or handed[0] not in self.needs):
            return self.standing(home, handed)
        return [each for each in found if not modules or each.module == modules[-1]] or found

    def called(self, function):
        """The functions that one calls."""
        uses = self.uses[function.crate, function.module]
        for call in CALL.finditer(function.body):
            before, name = call[1], call[2]
            if before == ".":
                yield from self.method(function, name, bool(OF_SELF.search(function.body, 0, call.start())))
            elif before:
                kind = before[:-2]
                names = {*function.of} if kind == "Self" else {uses.get(kind, [kind])[-1]}
                reach = self.reachable(function.crate)
                yield from (each for each in self.methods[name] if names & {*each.of} and each.crate in reach)
                if kind[:1].islower():
                    yield from self.standing(function.crate, [*uses.get(kind, [kind]), name])
            else:
                own = [each for each in self.free[function.crate, name] if each.module == function.module]
                if own:
                    yield from own
                elif name in uses:
                    yield from self.standing(function.crate, uses[name])

    def method(self, function, name, is_of_self):
        reach = self.reachable(function.crate)
        found = [each for each in self.methods[name] if each.is_method and each.crate in reach]
        own = [each for each in found if each.crate == function.crate and {*each.of} & {*function.of}] if is_of_self else []
        return own or found

    def named(self, crate, name):
        found = [each for each in self.functions if (each.crate, each.name) == (crate, name)]
        if not found:
            raise SystemExit(f"tests/calls.py: {crate} has no function {name}: WAY has to name another one")
        return found

    def shortest(self, start, ends):
        """The functions on the shortest way from one to one of some, without the first."""
        before, left = {start.key(): None}, collections.deque([start])
        ends = {each.key(): each for each in ends}
        while left:
            each = left.popleft()
            if each.key() in ends:
                found = [each]
                while before[found[-1].key()] is not start:
                    found.append(before[found[-1].key()])
                return found[::-1]
            for other in self.called(each):
                if other.key() not in before:
                    before[other.key()] = each
                    left.append(other)
        raise SystemExit(f"tests/calls.py: no way leads from {start} to {', '.join(map(str, ends.values()))}")


def way(top, crates):
    """The functions from `main` to the one that hashes a block, in their order."""
    calls = Calls(top, crates)
    found = calls.named(*WAY[0])[:1]
    for each in WAY[1:]:
        found += calls.shortest(found[-1], calls.named(*each))
    if HASH not in found[-1].body:
        raise SystemExit(f"tests/calls.py: {found[-1]} hashes nothing: WAY has to end with what does")
    return found
