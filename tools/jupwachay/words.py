"""Words of a command line, for `argparse`."""
import argparse

from jupwachay.names import is_did


def positive(text: str) -> float:
    try:
        if float(text) > 0:
            return float(text)
    except ValueError:
        pass
    raise argparse.ArgumentTypeError(f"{text} is no positive number")


def count(text: str) -> int:
    if not text.isdigit():
        raise argparse.ArgumentTypeError(f"{text} is no number")
    return int(text)


def at_least_one(text: str) -> int:
    if not text.isdigit() or int(text) < 1:
        raise argparse.ArgumentTypeError(f"{text} is no number from 1 on")
    return int(text)


def account(text: str) -> str:
    if not is_did(text):
        raise argparse.ArgumentTypeError(f"{text} is no DID")
    return text
