"""What the scripts here share: the wrong bodies of the repository, where their texts stand, and when they were last tried.

An edit is a file with a line `file: PATH` within its crate, and pairs of lines `old: TEXT` and `new: TEXT`. Each `old:`
text stands exactly once in the file, as the earlier pairs have made it.
"""
import hashlib
import pathlib

EDITS = pathlib.Path(__file__).resolve().parent
ROOT = EDITS.parent.parent
TRIED = EDITS / "tried"


def crates_with_edits():
    """The crates that have edits here, by name."""
    return sorted(it.name for it in EDITS.iterdir() if it.is_dir() and any(it.glob("*.edit")))


def all_edits():
    """Each edit of the repository with the folder of its crate: those that the gate tries, and those that are tried by hand."""
    crates = ROOT / "crates"
    for path in sorted(crates.glob("*/must-fail/*.edit")):
        yield path, path.parent.parent
    for path in sorted(EDITS.glob("*/*.edit")):
        yield path, crates / path.parent.name


class Fault(Exception):
    """Why an edit can't be applied."""


def pairs_of(path):
    """An edit's pairs: a file of the crate, the text that stands there, and what comes in its place."""
    pairs, file, old = [], None, None
    for line in path.read_text().splitlines():
        word, _, rest = line.partition(":")
        rest = rest.removeprefix(" ")
        if word == "file":
            file = rest
        elif word == "old" and file is not None and old is None:
            old = rest
        elif word == "new" and old is not None:
            pairs.append((file, old, rest))
            old = None
        elif word in ("old", "new"):
            raise Fault(f"a line `{word}:` out of its place")
    if old is not None or not pairs:
        raise Fault("no pair of `old:` and `new:`")
    return pairs


def applied(path, crate, texts):
    """The texts of files of the crate, by their paths in it, with an edit applied to them or to those that stand."""
    texts = dict(texts)
    for file, old, new in pairs_of(path):
        if file not in texts:
            if not (crate / file).is_file():
                raise Fault(f"no file {file}")
            texts[file] = (crate / file).read_text()
        if (times := texts[file].count(old)) != 1:
            raise Fault(f"the text stands {times} times in {file}: {old}")
        if old == new:
            raise Fault(f"it changes nothing of {file}")
        texts[file] = texts[file].replace(old, new)
    return texts


def fault_of(path, crate):
    """Why an edit can't be applied to its crate, or None."""
    try:
        applied(path, crate, {})
    except Fault as fault:
        return str(fault)
    return None


def sum_of(name):
    """The sum of what a crate's edits were tried on: its sources, its definitions, and the edits."""
    crate = ROOT / "crates" / name
    files = [*crate.glob("src/**/*.rt"), *crate.glob("specs/**/*.antt"), *(EDITS / name).glob("*.edit")]
    whole = hashlib.sha256()
    for file in sorted(files):
        whole.update(str(file.relative_to(ROOT)).encode() + b"\0" + file.read_bytes() + b"\0")
    return whole.hexdigest()


def tried():
    """The sums of the crates when their edits were last tried."""
    lines = TRIED.read_text().splitlines() if TRIED.exists() else []
    return dict(line.split() for line in lines if line and not line.startswith("#"))


def note_tried(names):
    """Notes that the edits of these crates were tried, and each was refused, on the crates as they stand."""
    sums = {name: sum for name, sum in tried().items() if name in crates_with_edits()}
    sums.update((name, sum_of(name)) for name in names)
    head = "# The sum of each crate's sources, definitions and edits when its edits here were last tried, and each refused.\n"
    TRIED.write_text(head + "".join(f"{name} {sum}\n" for name, sum in sorted(sums.items())))
