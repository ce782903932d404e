"""What `ingest` prints, line by line."""
import re
from collections import Counter
from typing import NamedTuple, Optional

# The refusals after which an account is lost, until its whole repository was taken over.
LOSING = {5, 19, 20, 21, 22, 23}
LAST_LINE = re.compile(r"end (\d+) events (\d+) refused (\d+) last (\d+)")
REFUSED = re.compile(r"(\d+) (\w+)(.*)")


class Refused(NamedTuple):
    """A message that was refused."""

    host: str
    seq: int
    code: int
    name: str
    is_lost: bool  # whether its account is lost now


class Report:
    """A report, or the front of one where its run failed."""

    def __init__(self):
        self.cursors: dict[str, int] = {}  # each host's last number that was taken
        self.ended: dict[str, str] = {}  # hosts of which further messages were passed over, with the reason
        self.accepted: set[tuple[str, int]] = set()  # the host and the number of each message that was accepted
        self.old: set[tuple[str, int]] = set()  # of each that was taken before
        self.told: set[tuple[str, int]] = set()  # of each that has a line
        self.refused: list[Refused] = []
        self.lines: Counter = Counter()  # by the word of the line: event, held, refused, old, info, unknown, ended, after
        self.last: Optional[int] = None  # the last number, where the report is whole

    def is_whole(self) -> bool:
        return self.last is not None

    def names(self) -> Counter:
        """How many messages were refused, by the refusal's name."""
        return Counter(each.name for each in self.refused)

    def take(self, line: str) -> None:
        """Takes one line."""
        end = LAST_LINE.fullmatch(line)
        if end:
            self.last = int(end[4])
            return
        host, _, words = line.partition(" ")
        first, _, rest = words.partition(" ")
        if not first.isdigit():
            self.lines[first] += 1
            if first == "ended":
                self.ended[host] = rest
            return
        seq, (word, _, detail) = int(first), rest.partition(" ")
        self.lines[word] += 1
        self.cursors[host] = max(seq, self.cursors.get(host, 0))
        self.told.add((host, seq))
        if word == "refused":
            self.refuse(host, seq, detail)
        elif word in ("event", "held"):
            self.accepted.add((host, seq))
        elif word == "old":
            self.old.add((host, seq))

    def refuse(self, host: str, seq: int, detail: str) -> None:
        found = REFUSED.fullmatch(detail)
        if not found:
            return
        code = int(found[1])
        self.refused.append(Refused(host, seq, code, found[2], code in LOSING and " synced " not in found[3]))


def read(printed: bytes) -> Report:
    """The report that a run printed; of a run that failed, its whole lines."""
    found = Report()
    for line in printed.decode("ascii", "replace").split("\n")[:-1]:
        found.take(line)
    return found
