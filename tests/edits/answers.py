"""Takes out of a file of proofs the answers, and the lemmas beside them, that the prover refuses."""
import re

BEGUN = re.compile(r"^(?:abbrev )?(?:pub )?(\S+) :(?=\s)", re.MULTILINE)
GOAL = re.compile(r"^pub \S+ : goal\.", re.MULTILINE)
QUOTED = re.compile(r"`([^`]+)`")


def declarations(text):
    """Each declaration of a file: its name, where it begins, and where the next one does."""
    begun = list(BEGUN.finditer(text))
    ends = [each.start() for each in begun[1:]] + [len(text)]
    return [(each[1], each.start(), end) for each, end in zip(begun, ends)]


def cites(part, name):
    return re.search(rf"(?<![\w.'+-]){re.escape(name)}(?![\w'+-])", part) is not None


def without(text, places, names):
    """The text without the declarations at these places and those that cite these names, and without what cites them in turn."""
    left = declarations(text)
    head = text[:left[0][1]] if left else text
    while True:
        gone = [each for each in left if any(each[1] <= place < each[2] for place in places)
                or any(cites(text[each[1]:each[2]], name) for name in names)]
        if not gone:
            return head + "".join(text[start:end] for _, start, end in left) if left else ""
        names = {name for name, start, _ in gone if not GOAL.match(text, start)}
        left = [each for each in left if each not in gone]


def without_refused(text, refused):
    """The text without what the prover refuses of it; where that is a name that a `use` line brings in, without what cites it."""
    lines = text.splitlines(keepends=True)
    places, names = set(), set()
    for each in refused:
        line = lines[each.line - 1]
        if line.startswith("use "):
            lacking = {name for name in QUOTED.findall(each.words) if cites(line, name)}
            names |= lacking
            lines[each.line - 1] = without_names(line, lacking)
        else:
            places.add(each.line - 1)
    starts = [0]
    for line in lines:
        starts.append(starts[-1] + len(line))
    return without("".join(lines), {starts[place] for place in places}, names)


def without_names(line, names):
    """A `use` line without some of the names that it brings in."""
    head, brace, rest = line.partition("{")
    if not brace or not names:
        return "\n"
    left = [each for each in rest.rpartition("}")[0].split(", ") if each not in names]
    return f"{head}{{{', '.join(left)}}}\n" if left else "\n"
