"""The forms of names: of hosts, accounts and revisions."""
import re

HOST = re.compile(r"[a-z0-9.:-]{1,255}")
DID = re.compile(r"did:[a-z]+:[A-Za-z0-9._:%-]*[A-Za-z0-9._-]")
REVISION = re.compile(r"[2-7a-j][2-7a-z]{12}")
LONGEST_DID = 2048
LONGEST_LABEL = 63


def is_did(value: object) -> bool:
    return isinstance(value, str) and len(value) <= LONGEST_DID and DID.fullmatch(value) is not None


def is_revision(value: object) -> bool:
    return isinstance(value, str) and REVISION.fullmatch(value) is not None


def is_record_name(name: str) -> bool:
    """Whether a record of a tape may be of this host."""
    return HOST.fullmatch(name) is not None


def is_host(name: str) -> bool:
    """Whether this is the name of a host that can be asked, with its port where that isn't the usual one."""
    host, _, port = name.partition(":")
    labels_fit = all(0 < len(label) <= LONGEST_LABEL for label in host.split("."))
    return is_record_name(name) and labels_fit and (":" not in name or port.isdigit() and 0 < int(port) < 65536)


def method(did: str) -> str:
    """The method of a DID, as `plc`."""
    return did.split(":")[1]
