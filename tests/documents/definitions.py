"""The definitions in the specs of all crates: where each stands, how many lines it has, and which others it cites.

A line counts unless it is blank or a comment. What is declared in Rust (`specs.declared`) and in the standard library isn't
counted: a definition that cites it needs nothing more of this repository's specs.
"""
import pathlib
import re
from dataclasses import dataclass, field

TOKEN = re.compile(r"[A-Za-z_][A-Za-z0-9_']*(?:\.[A-Za-z_][A-Za-z0-9_']*)*|[^\s\w(){};,.:]+")
USE = re.compile(r"^use (Rattle(?:\.\w+)+)(?:\.\{([^}]*)\})?(?: as (\w+))?", re.MULTILINE)
GHOST_USE = re.compile(r"^ghost use (Rattle(?:\.\w+)+)\.\{([^}]*)\};", re.MULTILINE)
HEAD = re.compile(r"^(?:  )?(?:abbrev|unfoldable|pub(?= (?:record|data) )|record|data)\s+(?:pub\s+)?(?:record\s+|data\s+)?([^\s:({]+)")
MUTUAL = re.compile(r"^(?:abbrev|unfoldable)?\s*mutual$")
MEMBER = re.compile(r"^  (?:pub )?(?:data |record )?([^\s:]+) : ")
NO_DEFINITION = re.compile(r"^\s*(?:infix[lr]?|pub mod|module)\b")
CONSTRUCTOR = re.compile(r"^\s+(?:pub )?([A-Za-z_]\w*) :")


@dataclass
class Definition:
    """A definition: its module, its name, its file, and its lines that count."""
    module: str
    name: str
    path: pathlib.Path
    lines: "list[str]" = field(default_factory=list)


class Module:
    """A file of specs: the names that it brings in, and its definitions in their order."""

    def __init__(self, name: str, path: pathlib.Path):
        self.name, self.text = name, path.read_text()
        self.names, self.aliases = brought_in(USE, self.text)
        self.definitions: "list[Definition]" = []
        self.constructors: "dict[str, str]" = {}
        self.read(path)

    def read(self, path: pathlib.Path):
        current, is_mutual = None, False
        for line in USE.sub("", self.text).splitlines():
            if not line.strip() or line.lstrip().startswith("--") or NO_DEFINITION.match(line):
                continue
            if MUTUAL.match(line):
                current, is_mutual = None, True
                continue
            is_mutual = is_mutual and line.startswith(" ")
            head = MEMBER.match(line) if is_mutual else HEAD.match(line)
            if head:
                current = Definition(self.name, head[1], path)
                self.definitions.append(current)
            if current is None:
                continue
            current.lines.append(line)
            constructor = CONSTRUCTOR.match(line)
            if constructor and not head and re.match(r"\s*(pub )?data ", current.lines[0]):
                self.constructors[constructor[1]] = current.name


def brought_in(pattern: re.Pattern, text: str) -> "tuple[dict[str, tuple[str, str]], dict[str, str]]":
    """What names stand for in a file, by its lines of `use`: a definition's module and name, or a module."""
    names, aliases = {}, {}
    for found in pattern.finditer(text):
        for words in (found[2] or "").split(","):
            if words.strip():
                first, _, alias = words.strip().partition(" as ")
                names[alias.strip() or first.strip()] = (found[1], first.strip())
        if pattern is USE and found[3]:
            aliases[found[3]] = found[1]
    return names, aliases


def tokens(text: str) -> "list[str]":
    return TOKEN.findall(text)


class Specs:
    """All definitions of the crates below a folder."""

    def __init__(self, top: pathlib.Path):
        self.top, self.modules, self.definitions = top, {}, {}
        for path in sorted((top / "crates").glob("*/specs/**/*.antt")):
            place = path.relative_to(top / "crates").with_suffix("")
            module = Module("Rattle." + ".".join(place.parts), path)
            self.modules[module.name] = module
            self.definitions.update({(module.name, each.name): each for each in module.definitions})

    def standing(self, key: "tuple[str, str]") -> "tuple[str, str]":
        """The definition that a name stands in: that of its data, where it is a constructor."""
        module = self.modules.get(key[0])
        return (key[0], module.constructors.get(key[1], key[1])) if module else key

    def cited(self, definition: Definition) -> "set[tuple[str, str]]":
        """The definitions that one cites by itself."""
        module = self.modules[definition.module]
        found = set()
        for token in tokens("\n".join(definition.lines)):
            first, _, rest = token.partition(".")
            operator = f"◌{first}◌"
            if first in module.names or operator in module.names:
                key = module.names.get(first) or module.names[operator]
            elif first in module.aliases and rest:
                key = module.aliases[first], rest.split(".")[0]
            else:
                key = module.name, operator if (module.name, operator) in self.definitions else first
            key = self.standing(key)
            if key in self.definitions and key != (definition.module, definition.name):
                found.add(key)
        return found

    def below(self, keys) -> "set[tuple[str, str]]":
        """These definitions, and all that they cite, directly or not."""
        seen, left = set(), [self.standing(key) for key in keys]
        while left:
            key = left.pop()
            if key not in seen:
                seen.add(key)
                left += self.cited(self.definitions[key])
        return seen

    def unread(self) -> "list[tuple[str, str]]":
        """The names that files bring in from specs of this repository, and whose definitions weren't found there."""
        own = {name.split(".")[1] for name in self.modules}
        keys = {self.standing(key) for module in self.modules.values() for key in module.names.values()}
        return sorted(key for key in keys if key not in self.definitions and key[0].split(".")[1] in own
                      and key[0].split(".")[2:3] == ["specs"] and not {"declared", "contracts"} & {*key[0].split(".")})

    def lines(self, keys) -> int:
        return sum(len(self.definitions[key].lines) for key in keys)

    def clause(self, path: pathlib.Path, function: str) -> "list[tuple[str, str]]":
        """The definitions that the contract of a public function cites by itself."""
        text = path.read_text()
        names, _ = brought_in(GHOST_USE, text)
        start = re.search(rf"^pub fn {function}\b", text, re.MULTILINE).start()
        contract = text[start:text.index("\n{\n", start)]
        keys = {self.standing(names[token]) for token in (each.split(".")[0] for each in tokens(contract)) if token in names}
        return sorted(key for key in keys if key in self.definitions)
