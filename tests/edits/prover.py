"""Has the prover check functions of a copy of a crate, and reads what it says of each."""
import pathlib
import re
import shutil
import subprocess
from dataclasses import dataclass, field

ERROR = re.compile(r"^(?:note: )?(?:\./)?(?P<file>(?:src|specs|proofs)/\S+?):(?P<line>\d+):\d+: error(?:\[[\w-]+\])?: (?P<words>.*)")
OPEN = re.compile(r"^note: \S+: (?:it is not proved that .*|`search` found no proof )\(`(?P<goal>[^`]+)`\)(?P<why>.*)")
FUNCTION = re.compile(r"^fn (?P<path>\S+): (?P<verdict>.*)")
CALLS = re.compile(r"it calls (.*), which (?:is|are) not proved")
QUOTED = re.compile(r"`(\S+?)`")
WITH_VALUES, NO_PROOF, AT_LIMIT = "values break it", "no proof found", "search at its limit"
NAMES = re.compile(r"has no field|that can be named from here|is not in scope")
PARTS = ("src", "specs", "proofs")
REASONS = {"allow values at which this goal is false": WITH_VALUES, "gave up at one of its limits": AT_LIMIT}


@dataclass(frozen=True)
class Goal:
    """A goal that the prover's search didn't prove, and why."""
    name: str
    why: str


@dataclass(frozen=True)
class Refused:
    """A place in a file of the crate that the prover refuses, and its words, which begin with the name of what stands there."""
    file: str
    line: int
    words: str

    @property
    def answer(self):
        return self.words.removeprefix("`").partition("`")[0]

    @property
    def is_of_names(self):
        """Whether it only names what isn't there."""
        return NAMES.search(self.words) is not None


@dataclass
class Said:
    """What the prover says of a function: its line, and the goals that are open."""
    verdict: str
    goals: "list[Goal]"

    @property
    def is_proved(self):
        return self.verdict == "proved"


@dataclass
class Checked:
    """What a check came to."""
    status: int
    lines: "list[str]"
    functions: "dict[str, Said]" = field(default_factory=dict)
    refused: "list[Refused]" = field(default_factory=list)
    calls: "dict[str, set[str]]" = field(default_factory=dict)


def read(crate: str, status: int, text: str) -> Checked:
    """Reads what a check of a crate printed. The goals of a function stand before its line."""
    checked, goals = Checked(status, text.splitlines()), []
    for line in checked.lines:
        if found := ERROR.match(line):
            checked.refused.append(Refused(found["file"], int(found["line"]), found["words"]))
        elif found := OPEN.match(line):
            why = next((why for words, why in REASONS.items() if words in found["why"]), NO_PROOF)
            goals.append(Goal(found["goal"], why))
        elif found := FUNCTION.match(line):
            path = found["path"].removeprefix(f"{crate}::")
            checked.functions[path] = Said(found["verdict"], goals)
            goals = []
            if called := CALLS.search(found["verdict"]):
                checked.calls[path] = {each.removeprefix(f"{crate}::") for each in QUOTED.findall(called[1])}
    return checked


def files_of(crate: pathlib.Path) -> "dict[str, bytes]":
    """What a check reads of a crate."""
    paths = [path for part in PARTS for path in (crate / part).rglob("*") if path.is_file()]
    return {str(path.relative_to(crate)): path.read_bytes() for path in paths}


class Prover:
    """The prover over the libraries that `rt ci` left in a repository."""

    def __init__(self, over: pathlib.Path, uses: "dict[str, list[str]]", log: "pathlib.Path | None"):
        self.over, self.uses, self.log = over, uses, log
        self.kit = pathlib.Path(shutil.which("rattle") or "rattle").resolve().parents[1]

    def below(self, crate: str) -> "list[str]":
        """The crates of the repository that a crate stands on."""
        found, left = [], list(self.uses[crate])
        while left:
            name = left.pop()
            if name in self.uses and name not in found:
                found.append(name)
                left += self.uses[name]
        return found

    def library(self, crate: str) -> pathlib.Path:
        return self.over / "crates" / crate / "out/rlib" / f"{crate}.rlib"

    def lacking(self, crate: str) -> "list[str]":
        """The crates below whose library isn't there."""
        return [name for name in self.below(crate) if not self.library(name).exists()]

    def has_proved(self, crate: str, folder: pathlib.Path) -> bool:
        """Whether the crate's own library stands, which only a proved crate has, and is of the files in this folder."""
        library, files = self.library(crate), files_of(self.over / "crates" / crate)
        if not library.exists() or files_of(folder) != files:
            return False
        built = (library / "format").stat().st_mtime
        return all((self.over / "crates" / crate / file).stat().st_mtime <= built for file in files)

    def words(self, crate: str, room: pathlib.Path) -> "list[str]":
        root = "src/main.rt" if (room / "src/main.rt").exists() else "src/lib.rt"
        libraries = self.kit / "rlibs"
        words = ["--crate-name", crate, root]
        for name in ["std", *self.uses[crate]]:
            words += ["--extern", f"{name}={self.library(name) if name in self.uses else libraries / (name + '.rlib')}"]
        for folder in [libraries, *(self.library(name).parent for name in self.below(crate))]:
            words += ["-L", f"dependency={folder}"]
        return words + ["--antt-project", str(self.kit / "rattle/logic/antt-project.json"), "--logic-built", str(self.kit / "logic_built")]

    def check(self, crate: str, room: pathlib.Path, kept: pathlib.Path, functions: "list[str]", jobs: int) -> Checked:
        """Checks functions of the crate in the room, or all of it where none are given. What it proves is kept for later checks."""
        only = [word for path in functions for word in ("--only", path)]
        command = ["rattle", "check", *self.words(crate, room), "--incremental", str(kept), "--jobs", str(jobs), *only]
        ran = subprocess.run(command, cwd=room, stdin=subprocess.DEVNULL, stdout=subprocess.PIPE, stderr=subprocess.STDOUT,
                             text=True, errors="replace")
        if self.log is not None:
            self.log.mkdir(parents=True, exist_ok=True)
            with (self.log / crate).open("a") as log:
                print("$", *only, "\n" + ran.stdout, file=log)
        return read(crate, ran.returncode, ran.stdout)
