"""Rows of tests: named functions, each of which raises `Wrong` where something is not as it has to be, or `LeftOut` where this
machine lacks what the row needs."""
import contextlib
import fnmatch
import pathlib
import shutil
import sys
import tempfile
import traceback

sys.path.insert(0, str(pathlib.Path(__file__).resolve().parent.parent))


class Wrong(Exception):
    """What is not as it has to be."""


class LeftOut(Exception):
    """What this machine lacks for a row."""


def expect(is_so, what):
    """Raises `Wrong` with `what`, unless it is so."""
    if not is_so:
        raise Wrong(what)


def same(found, wanted, what):
    """Raises `Wrong` unless both are equal."""
    if found != wanted:
        raise Wrong(f"{what}: {found!r} in place of {wanted!r}")


def needs(command):
    """The path of a command of the system; leaves the row out where there is none."""
    path = shutil.which(command)
    if path is None:
        raise LeftOut(f"{command} is not installed")
    return path


class Rows:
    """The rows of a module, in their order, and what failed of those that were run."""

    def __init__(self):
        self.rows, self.failures = [], []

    def row(self, name):
        """Adds the function below as the row of this name. It is given a folder of its own, which goes after it."""
        def add(function):
            self.rows.append((name, function))
            return function
        return add

    def run(self, patterns=()):
        """Runs the rows whose names match one of the patterns (all, without any), and returns how many passed, failed and
        were left out."""
        passed = failed = left_out = 0
        for name, function in self.rows:
            if patterns and not any(fnmatch.fnmatch(name, pattern) for pattern in patterns):
                continue
            with contextlib.ExitStack() as stack:
                folder = pathlib.Path(stack.enter_context(tempfile.TemporaryDirectory(ignore_cleanup_errors=True)))
                try:
                    function(folder)
                    passed += 1
                except LeftOut as lack:
                    print(f"{name}: LEFT OUT: {lack}", flush=True)
                    left_out += 1
                except Wrong as wrong:
                    self.fail(f"{name}: {wrong}")
                    failed += 1
                except Exception:  # a row that breaks off is a row that failed
                    self.fail(f"{name}: {traceback.format_exc()}")
                    failed += 1
        return passed, failed, left_out

    def fail(self, told):
        print(told, flush=True)
        self.failures.append(told)


def tell_failures(*modules):
    """Prints once more what failed of the rows of some modules, a line each: who sees the end of a long output alone sees which these
    are."""
    for rows in modules:
        for told in rows.failures:
            first, *rest = told.rstrip().split("\n")
            print(f"FAILED: {first}", *rest[-1:], flush=True)
