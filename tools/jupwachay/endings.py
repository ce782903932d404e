"""How a tool ends: its statuses, and a line on standard error that says why."""
import errno
import os
import signal
import sys
from typing import Callable

from jupwachay.speech import say

NO_ROOM = (errno.ENOSPC, errno.EDQUOT, errno.EFBIG)
WRONG_WORDS, NO_TAPE, FAILED, DISK, BAD_TABLE, NO_RELAY, NO_LIBRARY = 2, 3, 4, 5, 6, 7, 8


class Ended(Exception):
    """What ends a run, with the exit status."""

    def __init__(self, status: int, why: str):
        super().__init__(why)
        self.status = status


class Stopped(BaseException):
    """A signal that ends a run."""

    def __init__(self, number: int):
        super().__init__(number)
        self.status = 128 + number


def stop(number: int, _frame: object) -> None:
    raise Stopped(number)


def status_of(run: Callable[[], int], stopped: str) -> int:
    """The status of a run. What ends it early is said on standard error: a fault, or a signal with what it leaves (`stopped`)."""
    for number in (signal.SIGINT, signal.SIGTERM, signal.SIGHUP):
        signal.signal(number, stop)
    try:
        status = run()
        sys.stdout.flush()
        return status
    except Ended as why:
        say(str(why))
        return why.status
    except OSError as why:
        say(fault(why))
        return DISK
    except Stopped as why:
        say(f"stopped; {stopped}")
        return why.status


def fault(why: OSError) -> str:
    """What failed, and for want of room on which disk."""
    if why.filename is None:
        return f"standard output: {why.strerror or why}"
    told = f"{why.filename}: {why.strerror or why}"
    return f"{told} (the disk at {disk_of(why.filename)})" if why.errno in NO_ROOM else told


def disk_of(path: str) -> str:
    """Where the disk is mounted that a path is on."""
    found = os.path.realpath(path)
    while not os.path.ismount(found):
        found = os.path.dirname(found)
    return found


def leave(status: int) -> None:
    """Ends the process with what was printed. Threads that wait for others need not be waited for."""
    try:
        sys.stdout.flush()
    except OSError as why:
        say(f"standard output: {why.strerror}")
        status = status or DISK
    sys.stderr.flush()
    os._exit(status)
