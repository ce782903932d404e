"""Tries the edits of a crate: what refuses each, and whether that is the contract or only a stored answer.

The crate as it stands has a library, or is proved first as far as the edits touch it. Then edits of different functions are checked
together, since a caller is proved by the contracts of what it calls: one whose function waits for the proof of another is
tried again. Where the prover refuses stored answers alone, these are taken out, and its search tries their goals.
"""
import os
import pathlib
import re
import shutil
import tempfile
from dataclasses import dataclass, field

from answers import without_refused
from functions import Function, function_at
from prover import AT_LIMIT, PARTS, WITH_VALUES, Checked, Goal, Prover, Refused
from wrong_bodies import EDITS, Fault, ROOT, applied, pairs_of

REFUSED, BY_ANSWER, PROVED, NO_EDIT, NOT_TRIED = "refused", "only by a stored answer", "PROVED", "no edit", "not tried"
OF_NAMES, OTHER_ANSWER = "its answer names what is gone", "its answer proves another thing"


class NotTried(Exception):
    """Why a crate's edits can't be tried."""


@dataclass(frozen=True)
class Result:
    """What came of an edit: one of the words above, and more of it."""
    word: str
    more: str = ""

    def __str__(self):
        return f"{self.word} {self.more}".rstrip()


def without_cycle(folder: str) -> str:
    """A folder of answers without the mark of a cycle, which one function that calls itself has, too."""
    return re.sub(r"(^|/)\+", r"\1", folder)


@dataclass
class Trial:
    """An edit that is tried: the functions whose bodies it changes (none: more than bodies); the answers that it breaks, and
    the files of proofs without them."""
    path: pathlib.Path
    functions: "list[Function]"
    broken: "list[Refused]" = field(default_factory=list)
    proofs: "dict[str, str]" = field(default_factory=dict)
    is_alone: bool = False
    result: "Result | None" = None

    @property
    def name(self):
        return f"{self.path.parent.name}/{self.path.stem}"

    @property
    def paths(self):
        return {each.path for each in self.functions}

    @property
    def folders(self):
        return {without_cycle(each.folder) for each in self.functions}

    def has(self, path: str) -> bool:
        """Whether a function's line tells of this edit."""
        return not self.functions or any(each.has(path) for each in self.functions)

    def has_file(self, file: str) -> bool:
        """Whether a file of proofs is of its functions."""
        return not self.functions or without_cycle(file.removeprefix("proofs/").rpartition("/")[0]) in self.folders


def part_of(goal: str) -> str:
    """What a goal is for: a clause of the contract by its name, the only one, or else what the prover names."""
    _, is_clause, clause = goal.rpartition("-clause-")
    return f"clause {clause}" if is_clause else "ensures" if "returns" in goal.split("-") else goal


def whys(goal: Goal, broken: "list[Refused]") -> "list[str]":
    """Why the prover refuses a goal, and what the stored answer for it lacks."""
    lost = [each for each in broken if part_of(each.answer) == part_of(goal.name)]
    if not lost or goal.why == WITH_VALUES:
        return [goal.why]
    return [goal.why, OF_NAMES if all(each.is_of_names for each in lost) else OTHER_ANSWER]


def refused_by(goals: "list[tuple[str, Goal]]", broken: "list[Refused]") -> Result:
    """The result where the search leaves goals open, some of them perhaps for lack of the answers that an edit breaks."""
    told = [(f"{path} {part_of(goal.name)}", whys(goal, broken)) for path, goal in goals]
    head = "by "
    if all(OF_NAMES in why for _, why in told):
        head = "(only by names) by "
    elif all(AT_LIMIT in why for _, why in told):
        head = "(at a limit) by "
    return Result(REFUSED, head + ", ".join(dict.fromkeys(f"{what} ({'; '.join(why)})" for what, why in told)))


def functions_of(path: pathlib.Path, crate: pathlib.Path) -> "list[Function]":
    """The functions whose bodies an edit changes; none where it changes anything else."""
    texts, found = {}, set()
    for file, old, new in pairs_of(path):
        text = texts.get(file) or (crate / file).read_text()
        start = text.index(old)
        same = len(os.path.commonprefix((old, new)))
        found.add(function_at(crate, file, text, start + same, start + len(old)))
        texts[file] = text.replace(old, new)
    return [] if None in found else sorted(found, key=lambda each: each.path)


class Tries:
    """The edits of one crate, in a copy of it."""

    def __init__(self, prover: Prover, name: str, paths: "list[pathlib.Path]", room: pathlib.Path, jobs: int):
        self.prover, self.name, self.jobs = prover, name, jobs
        self.crate, self.copy, self.kept = ROOT / "crates" / name, room / name, room / "kept"
        self.trials = [Trial(path, functions_of(path, self.crate)) for path in paths]
        self.calls: "dict[str, set[str]]" = {}
        self.kept.mkdir()
        for part in PARTS:
            if (self.crate / part).is_dir():
                shutil.copytree(self.crate / part, self.copy / part)

    def run(self):
        """Tries each edit, and gives them as soon as their results are known."""
        if not self.prover.has_proved(self.name, self.crate):
            self.check_as_it_stands()
        while left := [trial for trial in self.trials if trial.result is None]:
            group, texts = self.grouped(left)
            self.take(group, self.check(texts, sorted({path for trial in group for path in trial.paths})))
            yield from (trial for trial in group if trial.result is not None)

    def check_as_it_stands(self):
        whole = any(not trial.functions for trial in self.trials)
        checked = self.check({}, [] if whole else sorted({path for trial in self.trials for path in trial.paths}))
        if checked.status != 0:
            raise NotTried("the crate as it stands isn't proved: " + (checked.lines or [""])[-1])

    def check(self, texts: "dict[str, str]", functions: "list[str]") -> Checked:
        """Checks functions of the copy with these texts in place of the crate's."""
        for file, text in texts.items():
            (self.copy / file).write_text(text)
        checked = self.prover.check(self.name, self.copy, self.kept, functions, self.jobs)
        for file in texts:
            shutil.copyfile(self.crate / file, self.copy / file)
        for path, called in checked.calls.items():
            self.calls.setdefault(path, set()).update(called)
        return checked

    def below(self, trial: Trial) -> "set[str]":
        """The functions whose proofs its functions have waited for."""
        found, left = set(), [path for path in self.calls if trial.has(path)]
        while left:
            called = self.calls.get(left.pop(), set()) - found
            found |= called
            left += called
        return found

    def are_apart(self, one: Trial, other: Trial) -> bool:
        """Whether two edits can be checked together: they have proofs of their own, and neither waits for the other's."""
        return bool(one.functions and other.functions and not one.is_alone and not other.is_alone) and not (
            one.folders & other.folders or one.paths & self.below(other) or other.paths & self.below(one))

    def grouped(self, left: "list[Trial]") -> "tuple[list[Trial], dict[str, str]]":
        """The next edits that are checked together, and the texts that they make of files."""
        group, texts = [], {}
        for trial in left:
            if all(self.are_apart(trial, each) for each in group):
                try:
                    texts = applied(trial.path, self.crate, texts) | trial.proofs
                    group.append(trial)
                except Fault:
                    continue
        return group, texts

    def take(self, group: "list[Trial]", checked: Checked):
        """Takes what a check came to for each edit of a group."""
        if checked.status not in (0, 1, 3):
            raise NotTried(f"the prover ended with status {checked.status}: " + (checked.lines or [""])[-1])
        for trial in group:
            self.take_one(trial, checked, len(group) == 1)

    def take_one(self, trial: Trial, checked: Checked, is_alone: bool):
        """Takes what a check came to for one edit: its result, or how it is to be tried next. Where its function waits for the proof
        of another one, nothing is known."""
        said = {path: each for path, each in checked.functions.items() if trial.has(path)}
        waits = any(not trial.has(called) for path in said for called in checked.calls.get(path, ()))
        unread = [each for each in checked.refused if not each.file.startswith("proofs/")]
        refused = [each for each in checked.refused if each.file.startswith("proofs/") and trial.has_file(each.file)]
        goals = [(path, goal) for path, each in said.items() for goal in each.goals]
        if not said or unread:
            trial.result = Result(NO_EDIT, (unread[0].words if unread else checked.lines[0])) if is_alone else None
            trial.is_alone = True
        elif waits and not is_alone:
            pass
        elif goals:
            trial.result = refused_by(goals, trial.broken + refused)
        elif refused:
            trial.result = self.without(trial, refused)
        elif all(each.is_proved for each in said.values()):
            trial.result = self.proved(trial) if is_alone and checked.status == 0 else None
            trial.is_alone = True
        elif any(each.verdict.startswith("could not tell") for each in said.values()):
            trial.result = Result(REFUSED, "(the prover ended at its limit)")
        elif is_alone:
            trial.result = Result(NOT_TRIED, next(each.verdict for each in said.values() if not each.is_proved))
        else:
            trial.is_alone = True

    def without(self, trial: Trial, refused: "list[Refused]") -> "Result | None":
        """Takes the refused answers out of the files of proofs, for the next check. An invariant that no longer fits is the result,
        since nothing is proved of a loop without it."""
        trial.broken += refused
        for file in sorted({each.file for each in refused}):
            here = [each for each in refused if each.file == file]
            before = trial.proofs.get(file) or (self.crate / file).read_text()
            trial.proofs[file] = without_refused(before, here)
            if file.endswith("/Invariants.antt") or trial.proofs[file] == before:
                return Result(BY_ANSWER, f"in {file}: {here[0].words}")
        return None

    def proved(self, trial: Trial) -> Result:
        return Result(BY_ANSWER, ", ".join(sorted(trial.proofs))) if trial.proofs else Result(PROVED)


def tries(prover: Prover, name: str, paths: "list[pathlib.Path]", jobs: int):
    """Tries edits of a crate; gives each with its result."""
    if lacking := prover.lacking(name):
        raise NotTried(f"no library of {lacking[0]} in {prover.library(lacking[0]).parent}: run `rt ci` first")
    with tempfile.TemporaryDirectory(prefix=f"edits-{name}-") as room:
        yield from Tries(prover, name, paths, pathlib.Path(room), jobs).run()


def edits_of(name: str) -> "list[pathlib.Path]":
    return sorted((EDITS / name).glob("*.edit"))
