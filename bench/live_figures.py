"""The figures of bench/live: in bench/live.tsv, in the table of docs/RUNNING.md, and in docs/live.svg."""
import importlib.machinery
import importlib.util
import math
import pathlib
import re
from typing import NamedTuple

HERE = pathlib.Path(__file__).resolve().parent
DOCS = HERE.parent / "docs"
FILE, PAGE = HERE / "live.tsv", DOCS / "RUNNING.md"
BEGIN, END = "<!-- figures -->", "<!-- end of figures -->"
TABLE_HEAD = ("| Events in the journal | Log, MB | A batch, s | From a send to a receipt, s: median | 99th of a hundred | Events a second |",
              "|---|---|---|---|---|---|")


class Row(NamedTuple):
    """What was measured with a journal of so many events."""
    events: int
    megabytes: float
    batch: float  # seconds of a batch
    median: float  # seconds from a host's send to a consumer's receipt
    late: float  # the 99th of a hundred of these
    rate: float  # events a second

    def cells(self) -> "list[str]":
        return [f"{self.events:,}", f"{self.megabytes:,.0f}", f"{self.batch:.2f}", f"{self.median:.2f}", f"{self.late:.2f}", f"{self.rate:,.0f}"]

    def line(self) -> str:
        return "{} events, a log of {} MB: {} s a batch, {} s to a consumer (99th: {} s), {} events a second".format(*self.cells())


def read() -> "tuple[str, list[Row]]":
    """Of which program and machine the figures are, and the figures."""
    head, *lines = FILE.read_text().splitlines()
    rows = [[float(word) for word in line.split("\t")] for line in lines if not line.startswith("#")]
    return head.removeprefix("# "), [Row(int(row[0]), *row[1:]) for row in rows]


def write(rows: "list[Row]", words: str) -> None:
    """Writes the figures everywhere; those that stand where there are no new ones."""
    if rows:
        lines = [f"# {words}", f"# {' '.join(Row._fields)}", *("\t".join(f"{value:.4g}" if isinstance(value, float) else str(value) for value in row) for row in rows)]
        FILE.write_text("".join(f"{line}\n" for line in lines))
    said, rows = read()
    text = PAGE.read_text()
    table = "\n".join([BEGIN, said, "", *TABLE_HEAD, *(f"| {' | '.join(row.cells())} |" for row in rows), END])
    PAGE.write_text(re.sub(rf"{re.escape(BEGIN)}.*?{re.escape(END)}", lambda _: table, text, flags=re.DOTALL))
    (DOCS / "live.svg").write_text(drawn(rows))


def plots():
    """The script that draws the other plots."""
    loader = importlib.machinery.SourceFileLoader("plots", str(HERE / "plots"))
    module = importlib.util.module_from_spec(importlib.util.spec_from_loader("plots", loader))
    loader.exec_module(module)
    return module


def ticks(highest: float, unit: str) -> "list[tuple[float, str]]":
    """Five round values from 0 to one that is no less than the highest."""
    step = 10 ** math.floor(math.log10(highest / 4))
    step = next(step * by for by in (1, 2, 2.5, 5, 10) if 4 * step * by >= highest)
    return [(i * step, f"{i * step:,g}{unit}") for i in range(5)]


def drawn(rows: "list[Row]") -> str:
    """Two panels over the number of events: seconds, and events a second."""
    draw = plots()
    across = [(row.events, f"{row.events:,}") for row in rows]
    seconds = draw.Panel(60, "Seconds, by the size of the window", "events in the journal", across,
                         ticks(max(row.late for row in rows), " s"), math.log10)
    series = (("a batch", "batch", "#7f8c8d"), ("from a send to a receipt, median", "median", "#1b6ca8"), ("99th of a hundred", "late", "#c0392b"))
    for _, field, color in series:
        seconds.add([(row.events, f"{getattr(row, field)}") for row in rows], color, is_joined=True)
    seconds.named([(name, color) for name, _, color in series])
    rates = draw.Panel(450, "Events a second, sustained", "events in the journal", across, ticks(max(row.rate for row in rows), ""), math.log10)
    rates.add([(row.events, f"{row.rate}") for row in rows], "#1b6ca8", is_joined=True)
    return draw.picture(800, 320, seconds.parts + rates.parts)
