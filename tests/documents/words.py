"""The words that people read: those of documents, of help texts and messages, and of the public comments of the top crates; and
which of them have phrases that are banned here (docs/CONTRIBUTING.md says what stands in their place)."""
import ast
import pathlib
import re

from pages import Page, runs

TOP = pathlib.Path(__file__).resolve().parents[2]
TOP_CRATES = ("relay_cli", "relay_chain", "program_parts", "os_edge", "run_base", "take_run", "relay_run", "read_run",
              "mirror_run", "trial_run")
HELP_CRATES = ("relay_cli", "relay_chain", "program_parts", "os_edge")  # whose texts are printed
# What stands after "tells" where it means "reports". Of an object that contracts see through one says that it tells what it
# holds, or tells nothing: that is a word of the glossary (docs/CONTRIBUTING.md).
OBJECT = "whether|that|which|how|why|who|whose|when|where|of|the|this|these|it|us|them|him|you|a|an|one|all|each|from|its end"
# Each pattern with what is written in its place.
BANNED = (
    (r"\bso many\b", "a number, or its name"),
    (r"\bbut for\b", "except, or unless"),
    (r"\b(?:is|are|was|were|be|been|being) told\b", "is reported, gets, is sent"),
    (rf"\btells?\b(?= (?:{OBJECT})\b)(?! (?:\w+ ){{0,3}}apart)(?! the time\b)", "reports, returns, shows"),
    (r"\bbehind\b", "after"),
)
CITATIONS = (
    (r"\b(?:paper|request|issue|theorem|lemma|row|rule|finding|seed|ticket|milestone)s? (?:no\. ?)?#?\d+(?:\.\d+)*\b", "its name"),
    (r"(?<![\w/&])#\d+\b", "its name"),
    (r"(?<![\w.-])[TDRWHFM]\d{1,2}(?:\.\d+)*(?![\w.-]*\w)", "its name"),
)
RUST_TEXT = re.compile(r'"((?:[^"\\]|\\.)*)"')


def documents() -> "list[pathlib.Path]":
    return [*sorted(TOP.glob("*.md")), *sorted((TOP / "docs").glob("*.md")), TOP / "tests/README.md"]


def scripts() -> "list[pathlib.Path]":
    """The programs beside the product that a user runs."""
    beside = [path for path in sorted((TOP / "tools").rglob("*")) if path.is_file() and path.suffix in ("", ".py")]
    return [path for path in (TOP / "relay", TOP / "test", *beside) if path.exists()]


def comment_runs(path: pathlib.Path, mark: str) -> list:
    """The comments of a file that begin so, with the numbers of their lines."""
    lines = path.read_text().splitlines()
    return runs((i, line.strip().removeprefix(mark).strip() if line.strip().startswith(mark) else "") for i, line in enumerate(lines, 1))


def head_of_specs(path: pathlib.Path) -> list:
    """The comment at the head of a file of specs."""
    lines = path.read_text().splitlines()
    count = next((i for i, line in enumerate(lines) if not line.startswith("--")), len(lines))
    return runs((i, line.removeprefix("--").strip()) for i, line in enumerate(lines[:count], 1))


def texts_of_rust(path: pathlib.Path) -> list:
    """The texts in a file of code, outside comments."""
    found = []
    for number, line in enumerate(path.read_text().splitlines(), 1):
        if not line.lstrip().startswith("//"):
            found += [[(number, text)] for text in RUST_TEXT.findall(line) if " " in text]
    return found


def texts_of_script(path: pathlib.Path) -> list:
    """The texts of a python script, and its comments, or the whole of one in another language."""
    text = path.read_text()
    try:
        tree = ast.parse(text)
    except SyntaxError:
        return runs(enumerate(text.splitlines(), 1))
    found = [node for node in ast.walk(tree) if isinstance(node, ast.Constant) and isinstance(node.value, str) and " " in node.value]
    parts = [part for node in found for part in runs(enumerate(node.value.splitlines(), node.lineno))]
    return parts + comment_runs(path, "# ")


def all_texts():
    """Each file that people read with its runs of lines."""
    for path in documents():
        yield path, Page(path).paragraphs()
    for path in scripts():
        yield path, texts_of_script(path)
    for crate in TOP_CRATES:
        for path in sorted((TOP / "crates" / crate / "src").glob("**/*.rt")):
            found = comment_runs(path, "///") + comment_runs(path, "//!")
            yield path, found + (texts_of_rust(path) if crate in HELP_CRATES else [])
        for path in sorted((TOP / "crates" / crate / "specs").glob("**/*.antt")):
            yield path, head_of_specs(path)


class Allowances:
    """Phrases that may stand although a pattern finds them: a line each, with the phrase, the file (or *), and the reason."""

    def __init__(self, path: pathlib.Path):
        rows = [line.split("\t") for line in path.read_text().splitlines() if line and not line.startswith("#")]
        self.wrong = [row for row in rows if len(row) != 3 or not row[2].strip()]
        self.rows = [tuple(row) for row in rows if row not in self.wrong]
        self.used: "set[tuple[str, str, str]]" = set()

    def allow(self, place: str, text: str, start: int, end: int) -> bool:
        """Whether what stands there is within a phrase that may stand in this file."""
        for row in self.rows:
            phrase, where, _ = row
            if where in ("*", place):
                for found in re.finditer(re.escape(phrase), text, re.IGNORECASE):
                    if found.start() <= start and end <= found.end():
                        self.used.add(row)
                        return True
        return False

    def unused(self) -> list:
        return [row for row in self.rows if row not in self.used]


def found_in(path: pathlib.Path, paragraphs: list, patterns: tuple, allowances: Allowances) -> "list[str]":
    """A line for each place where one of the patterns stands and may not."""
    place, found = str(path.relative_to(TOP)), []
    for lines in paragraphs:
        text = " ".join(words for _, words in lines)
        starts = [sum(len(words) + 1 for _, words in lines[:i]) for i in range(len(lines))]
        for pattern, instead in patterns:
            for match in re.finditer(pattern, text, re.IGNORECASE if pattern.islower() else 0):
                if not allowances.allow(place, text, *match.span()):
                    number = lines[sum(start <= match.start() for start in starts) - 1][0]
                    around = text[max(0, match.start() - 40):match.end() + 30]
                    found.append(f"{place}:{number}: {match[0]!r} (write {instead}): .. {around} ..")
    return found
