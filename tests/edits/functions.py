"""Which function's body a place of a source file stands in, as the prover names it, and where the answers for its proof are."""
import pathlib
import re
from dataclasses import dataclass

HEAD = re.compile(r"^( *)(?:pub(?:\([^)]*\))? )?(?:const )?fn (\w+)", re.MULTILINE)
IMPL = re.compile(r"^impl(?:<(?P<bound>[^{]*?)>)? (?:(?P<trait>[\w:]+(?:<.*>)?)\s+for )?(?P<type>[\w:]+)", re.MULTILINE)
CYCLE = re.compile(r"#\[cycle\((\w+)\)\]")
NAME = re.compile(r"\w+")


@dataclass(frozen=True)
class Function:
    """A function: its path below the crate, and the folder of its answers below proofs/, which a cycle of calls shares."""
    path: str
    folder: str

    def has(self, path: str) -> bool:
        """Whether a path is this function's, or that of a closure in it, as module::fn::function::closure."""
        return path == self.path or "fn::" in path and path.replace("fn::", "", 1).startswith(f"{self.path}::")


def module_of(file: str) -> "list[str]":
    parts = file.removeprefix("src/").removesuffix(".rt").split("/")
    return [] if parts in (["lib"], ["main"]) else parts


def declaring(crate: pathlib.Path, name: str) -> "str | None":
    """The file that declares a type of the crate."""
    declared = re.compile(rf"^(?:pub(?:\([^)]*\))? )?(?:struct|enum|union) {name}\b", re.MULTILINE)
    files = (path for path in sorted(crate.glob("src/**/*.rt")) if declared.search(path.read_text()))
    return next((str(path.relative_to(crate)) for path in files), None)


def block_name(impl: re.Match) -> str:
    """What the prover names an `impl` by: its type and what that is given, then its trait and what that is given."""
    bound = NAME.findall(impl["bound"] or "")
    of = re.match(r"<[^{]*>", impl.string[impl.end():])

    def named(text: str) -> str:
        name, _, given = re.sub(r"'\w+(?:, )?", "", text).partition("<")
        words = [each.partition("<")[0] for each in given.removesuffix(">").split(", ") if each]
        return name.rpartition("::")[2] + "".join(each for each in words if each not in bound)

    return named(impl["type"] + (of[0] if of else "")) + named(impl["trait"] or "")


def function_of(crate: pathlib.Path, file: str, text: str, head: re.Match) -> Function:
    """The function that a head in a file begins."""
    parts = module_of(file)
    if head[1]:
        impl = list(IMPL.finditer(text, 0, head.start()))[-1]
        parts = module_of(declaring(crate, impl["type"]) or file) + [block_name(impl)]
    cycle = CYCLE.search(text[:head.start()].rpartition("\n\n")[2])
    return Function("::".join([*parts, head[2]]), "/".join([*parts, f"+{cycle[1]}" if cycle else head[2]]))


def function_at(crate: pathlib.Path, file: str, text: str, start: int, end: int) -> "Function | None":
    """The function in whose body two places stand; None where they stand in a head, in clauses, or in no function."""
    heads = list(HEAD.finditer(text, 0, start))
    if not heads or not file.endswith(".rt"):
        return None
    head = heads[-1]
    opened = re.compile(rf"^{head[1]}(?:\S.*)?\{{$", re.MULTILINE).search(text, head.start())
    closed = opened and re.compile(rf"^{head[1]}\}}$", re.MULTILINE).search(text, opened.end())
    if closed is None or start < opened.end() or end > closed.start():
        return None
    # a method of a trait that has no body: what was found is past the end of the trait
    if head[1] and re.compile(r"^\S", re.MULTILINE).search(text, head.end(), opened.start()):
        return None
    return function_of(crate, file, text, head)
