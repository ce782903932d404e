"""What a tool says on standard error: what is amiss, and on a terminal how far it is."""
import pathlib
import sys
import time

CLEAR = "\r\033[K"  # back to the line's begin, which is cleared
SECONDS_BETWEEN = 0.2
LONGEST = 300

last_told = [0.0]


def name() -> str:
    """The tool's name."""
    return pathlib.Path(sys.argv[0]).name


def clear() -> None:
    """Takes the line of progress away."""
    if sys.stderr.isatty():
        sys.stderr.write(CLEAR)
        sys.stderr.flush()


def say(what: str) -> None:
    """Says something in a line of its own."""
    clear()
    sys.stderr.write(f"{name()}: {what}\n")
    sys.stderr.flush()


def tell(what: str) -> None:
    """Says on a terminal how far the run is, in a line that the next one takes the place of."""
    if sys.stderr.isatty() and time.monotonic() - last_told[0] > SECONDS_BETWEEN:
        last_told[0] = time.monotonic()
        sys.stderr.write(f"{CLEAR}{name()}: {what}")
        sys.stderr.flush()


def printable(text: str) -> str:
    """Words of others, fit for one line of a terminal."""
    return "".join(each if each.isprintable() else "?" for each in text[:LONGEST]).strip()
