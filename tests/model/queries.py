"""Replies to requests over HTTP, and operations as lines of JSON, by RFC 9112, RFC 8259 and the Lexicons `com.atproto.sync`."""
import json
import re
from urllib.parse import unquote_to_bytes

from items import DID, LAST, Link, is_matched
from journal import FETCHED, OPERATED, SYNCED, TAKEN
from relay import LOSES, link_text

NAME = rb"[!#$%&'*+.^_`|~0-9A-Za-z-]+"
FIELD = NAME + rb":[\t\x20-\x7e\x80-\xff]*\r?\n"
HEAD = re.compile(
    rb"(?:\r?\n)*(" + NAME + rb") ([\x21-\x7e\x80-\xff]+) HTTP/1\.[01]\r?\n((?:" + FIELD + rb")*)\r?\n")
MOST_FIELDS, EFFECT = 64, 9
PATH = b"/xrpc/com.atproto.sync."
ERRORS = {"takendown": "RepoTakendown", "suspended": "RepoSuspended", "deactivated": "RepoDeactivated"}


class Account:
    """An account: `head` is the revision and the text of the commit's link, where the repository is known."""

    def __init__(self, is_active=True, status=None, is_down=False, head=None):
        self.is_active, self.status, self.is_down, self.head = is_active, status, is_down, head

    def take(self, effect):
        rev, _, commit = effect[:3]
        self.head = rev.decode(), link_text(commit)

    def is_available(self):
        return self.is_active and not self.is_down

    def shown_status(self):
        if self.is_down:
            return "takendown"
        return None if self.is_active else self.status


def accounts_of(rows):
    """The accounts that rows name, by their DIDs."""
    found = {}
    for row in rows:
        did = row[3 if row[0] == TAKEN else 1]
        if did:
            follow(found.setdefault(did.decode(), Account()), row)
    return found


def follow(account, row):
    """Has an account follow a row that names it."""
    if row[0] == SYNCED:
        account.take(row[2][1:])
    elif row[0] == OPERATED:
        account.is_down = row[2]
    elif row[5] in LOSES:
        account.head = None
        if type(row[FETCHED]) is list:
            account.take(row[FETCHED][1:])
    elif row[5] == 0 and row[4] in (1, 2):
        account.take(row[EFFECT])
    elif row[5] == 0 and row[4] == 4:
        account.is_active, account.status = row[EFFECT][0], row[EFFECT][1] and row[EFFECT][1].decode()


def request_line(request):
    """The method and the target of a request that begins with a whole head, or None."""
    found = HEAD.match(request)
    if not found or len(re.findall(FIELD, found[3])) > MOST_FIELDS:
        return None
    try:
        found[2].decode()
    except UnicodeDecodeError:
        return None
    return found[1], found[2]


def form_text(coded):
    return unquote_to_bytes(coded.replace(b"+", b" ")).decode("utf-8", "replace")


def parts_of(target):
    path, _, query = target.partition(b"?")
    return path, query


def value_of(query, name):
    """The value of the first pair with a name, or None."""
    for pair in query.split(b"&"):
        coded, _, value = pair.partition(b"=")
        if pair and form_text(coded) == name:
            return form_text(value)
    return None


def number_in(text, most):
    return int(text) if re.fullmatch(f"[0-9]{{1,{most}}}", text) else None


def is_did(text):
    return is_matched(DID, text.encode()) and len(text.encode()) <= 2048


def text_of(value):
    """A value as JSON without blanks; the code points of names order as their bytes."""
    return json.dumps(value, ensure_ascii=False, separators=(",", ":"), sort_keys=True).encode()


def some(**members):
    return {name: value for name, value in members.items() if value is not None}


def error(name, code="400 Bad Request"):
    return code, {"error": name}


def reply(accounts, request):
    """The bytes that are replied to a request."""
    line = request_line(request)
    code, body = error("InvalidRequest")
    if line and line[0] == b"GET":
        code, body = reply_to(accounts, *parts_of(line[1]))
    text = text_of(body)
    head = f"HTTP/1.1 {code}\r\nContent-Type: application/json\r\nContent-Length: {len(text)}\r\nConnection: close\r\n\r\n"
    return head.encode() + text


def reply_to(accounts, path, query):
    if path == PATH + b"listRepos":
        return page(accounts, value_of(query, "limit"), value_of(query, "cursor"))
    about = {PATH + b"getRepoStatus": status, PATH + b"getLatestCommit": commit}.get(path)
    if about is None:
        return error("NotFound", "404 Not Found")
    did = value_of(query, "did")
    if did is None or not is_did(did):
        return error("InvalidRequest")
    return about(did, accounts.get(did))


def page(accounts, limit, cursor):
    most = 500 if limit is None else number_in(limit, 4)
    if most is None or not 1 <= most <= 1000 or cursor is not None and not is_did(cursor):
        return error("InvalidRequest")
    behind = sorted(did for did, it in accounts.items() if it.head and did > (cursor or ""))
    shown = behind[:most]
    repos = [some(**status_value(did, accounts[did]), head=accounts[did].head[1]) for did in shown]
    return "200 OK", some(repos=repos, cursor=shown[-1] if len(behind) > most else None)


def status_value(did, account):
    rev = account.head and account.head[0]
    return some(active=account.is_available(), did=did, rev=rev, status=account.shown_status())


def status(did, account):
    return error("RepoNotFound") if account is None else ("200 OK", status_value(did, account))


def commit(_did, account):
    if account is None:
        return error("RepoNotFound")
    if not account.is_available():
        return error(ERRORS.get(account.shown_status(), "RepoNotFound"))
    if account.head is None:
        return error("RepoNotFound")
    return "200 OK", {"cid": account.head[1], "rev": account.head[0]}


def lines(event, collection):
    """The lines of an event's operations in a collection, or of all where it is None."""
    if event.kind != "#commit" or not 0 <= event.seq <= LAST:
        return b""
    found = b""
    for op in event.payload["ops"]:
        path = bytes(op["path"])
        if collection is None or path.partition(b"/")[0] == collection:
            links = {name: {"$link": link_text(op[name])} for name in ("cid", "prev") if type(op.get(name)) is Link}
            texts = {"action": bytes(op["action"]), "did": event.payload["repo"], "path": path, "rev": event.payload["rev"]}
            found += text_of({**{name: text.decode() for name, text in texts.items()}, **links, "seq": event.seq}) + b"\n"
    return found
