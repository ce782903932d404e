"""Files that are whole on the disk before they have their name."""
import contextlib
import fcntl
import os
import pathlib
from typing import Iterable, Iterator


def sync_folder(folder: pathlib.Path) -> None:
    """Has a folder's names on the disk."""
    place = os.open(folder, os.O_RDONLY | os.O_DIRECTORY)
    try:
        os.fsync(place)
    finally:
        os.close(place)


def write(path: pathlib.Path, pieces: Iterable[bytes], is_synced: bool = True) -> None:
    """Writes a file, which is on the disk then; one that can't be whole is taken away, and the fault names it."""
    try:
        with open(path, "wb") as file:
            for piece in pieces:
                file.write(piece)
            file.flush()
            if is_synced:
                os.fsync(file.fileno())
    except BaseException as why:
        path.unlink(missing_ok=True)
        if isinstance(why, OSError) and why.filename is None:
            why.filename = str(path)
        raise


def replace(path: pathlib.Path, pieces: Iterable[bytes]) -> None:
    """Puts a new file in place of one, by its name: who reads it has the former or the new one, whole."""
    new = path.with_name(f"{path.name}.new")
    write(new, pieces)
    os.replace(new, path)
    sync_folder(path.parent)


@contextlib.contextmanager
def locked(folder: pathlib.Path) -> Iterator[None]:
    """While no other run of a tool works on a folder. It waits for one that does."""
    place = os.open(folder, os.O_RDONLY | os.O_DIRECTORY)
    try:
        fcntl.flock(place, fcntl.LOCK_EX)
        yield
    finally:
        os.close(place)
