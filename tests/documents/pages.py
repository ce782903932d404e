"""Documents in Markdown: their headings, links, fenced blocks and plain words, with the lines on which they stand."""
import pathlib
import re
import unicodedata
from dataclasses import dataclass, field

FENCE = re.compile(r"^( *)```(\S*)\s*$")
HEADING = re.compile(r"^(#{1,6}) +(.*?) *#*$")
LINK = re.compile(r"!?\[(?:[^\]\[]|\[[^\]]*\])*\]\(\s*<?([^)\s>]+)>?(?: \"[^\"]*\")?\s*\)")
REFERENCE = re.compile(r"^ {0,3}\[[^\]]+\]: +(\S+)", re.MULTILINE)
NAMED_PLACE = re.compile(r"<a (?:id|name)=\"([^\"]+)\"")
CODE = re.compile(r"``.+?``|`[^`]*`")
COMMENT = re.compile(r"^<!-- (.*) -->$")


@dataclass
class Block:
    """A fenced block: its language, the line of its fence, its text, and the comments directly above it."""
    language: str
    line: int
    text: str
    comments: "list[str]" = field(default_factory=list)


class Page:
    """A document, read."""

    def __init__(self, path: pathlib.Path):
        self.path = path
        self.lines = path.read_text().splitlines()
        self.blocks: "list[Block]" = []
        self.outside: "list[tuple[int, str]]" = []  # the lines that stand in no fenced block, with their numbers
        self.read()

    def read(self):
        open_fence, inside, start, language = None, [], 0, ""
        for number, line in enumerate(self.lines, 1):
            fence = FENCE.match(line)
            if open_fence is None and fence:
                open_fence, language, start, inside = fence[1], fence[2], number, []
            elif open_fence is not None and fence and not fence[2]:
                self.blocks.append(Block(language, start, "\n".join(inside), self.comments_above(start)))
                open_fence = None
            elif open_fence is not None:
                inside.append(line.removeprefix(open_fence))
            else:
                self.outside.append((number, line))
        if open_fence is not None:
            self.blocks.append(Block("", start, "\n".join(inside)))

    def comments_above(self, line: int) -> "list[str]":
        """The comments that stand directly above a line, in their order."""
        found = []
        for above in reversed(self.lines[:line - 1]):
            comment = COMMENT.match(above.strip())
            if not comment:
                break
            found.insert(0, comment[1])
        return found

    def headings(self) -> "list[tuple[int, str]]":
        """The level and the words of each heading."""
        found = (HEADING.match(line) for _, line in self.outside)
        return [(len(each[1]), each[2]) for each in found if each]

    def anchors(self) -> "set[str]":
        """The places that a link may name, as GitHub makes them of headings, and those that the page names itself."""
        found: "set[str]" = set()
        for _, words in self.headings():
            base, count = slug(words), 0
            while (name := base if count == 0 else f"{base}-{count}") in found:
                count += 1
            found.add(name)
        return found | {name for _, line in self.outside for name in NAMED_PLACE.findall(line)}

    def links(self) -> "list[tuple[int, str]]":
        """The line and the target of each link."""
        found = []
        for number, line in self.outside:
            plain = CODE.sub(lambda code: "`" * len(code[0]), line)
            found += [(number, each[1]) for each in LINK.finditer(plain)]
            found += [(number, each[1]) for each in REFERENCE.finditer(plain)]
        return found

    def paragraphs(self) -> "list[list[tuple[int, str]]]":
        """Runs of lines in which a sentence may go on, without code and targets of links."""
        return runs((number, plain_words(line)) for number, line in self.outside)


def slug(words: str) -> str:
    """The anchor that GitHub makes of a heading."""
    words = re.sub(r"\[([^\]]*)\]\([^)]*\)", r"\1", words).replace("`", "").replace("*", "").strip().lower()
    kept = (c for c in words if c in "-_ " or unicodedata.category(c)[0] in "LN")
    return "".join(kept).replace(" ", "-")


def plain_words(line: str) -> str:
    """A line without its code spans, comments and targets of links."""
    line = re.sub(r"<!--.*?-->", "", CODE.sub("`", line))
    return re.sub(r"\]\([^)]*\)", "]", line)


def runs(lines) -> "list[list[tuple[int, str]]]":
    """Lines with their numbers, parted at blank ones."""
    found: "list[list[tuple[int, str]]]" = [[]]
    for number, line in lines:
        if line.strip():
            found[-1].append((number, line.strip()))
        elif found[-1]:
            found.append([])
    return [each for each in found if each]
