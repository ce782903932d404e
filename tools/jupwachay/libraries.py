"""Whether this python3 has the libraries that a tool needs."""
import importlib.util
import os
import sys

from jupwachay.endings import NO_LIBRARY, Ended

DEBIANS = "/usr/bin/python3"


def need(module: str) -> None:
    """Ends the run where this python3 has no such library, and says which python3 that is."""
    if importlib.util.find_spec(module) is not None:
        return
    told = f"{sys.executable} has no library {module}: apt-get install python3-{module.replace('_', '-')}"
    if os.path.realpath(sys.executable) != os.path.realpath(DEBIANS):
        told += f", which {DEBIANS} sees (run {DEBIANS} {sys.argv[0]}), or {sys.executable} -m pip install {module}"
    raise Ended(NO_LIBRARY, told)
