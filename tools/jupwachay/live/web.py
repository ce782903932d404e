"""What is served over HTTP: consumers, queries, hosts, health, metrics, and a page."""
import json
from typing import TYPE_CHECKING, Optional

from aiohttp import web

from jupwachay import names
from jupwachay.live import page, queries
from jupwachay.speech import say

if TYPE_CHECKING:
    from jupwachay.live.hosts import Host
    from jupwachay.live.service import Live

XRPC = "/xrpc/com.atproto.sync."
MOST_LISTED, USUALLY_LISTED = 1000, 200
LONGEST_REQUEST = 4096
PREFLIGHT = {"Access-Control-Allow-Origin": "*", "Access-Control-Allow-Methods": "GET, HEAD", "Access-Control-Allow-Headers": "*",
             "Access-Control-Max-Age": "86400"}
# The refusals of a crawl, as the Lexicon (com.atproto.sync.requestCrawl) and XRPC have them.
BANNED, BAD_REQUEST = "HostBanned", "InvalidRequest"


def error(name: str, message: str, status: int = 400) -> web.Response:
    """An error as XRPC has it."""
    return web.json_response({"error": name, "message": message}, status=status)


@web.middleware
async def for_all_origins(request: web.Request, handler) -> web.StreamResponse:
    """Lets pages of other origins read what is public: all that is asked for by GET under /xrpc/."""
    if request.method == "OPTIONS" and request.path.startswith("/xrpc/"):
        return web.Response(status=204, headers=PREFLIGHT)
    try:
        response = await handler(request)
    except web.HTTPException as why:
        response = why
    if request.path.startswith("/xrpc/") and not response.prepared:
        response.headers["Access-Control-Allow-Origin"] = "*"
    return response


class Pages:
    """The paths, and what is served at each."""

    def __init__(self, live: "Live"):
        self.live = live

    def application(self) -> web.Application:
        found = web.Application(middlewares=[for_all_origins], client_max_size=LONGEST_REQUEST)
        found.add_routes([
            web.get("/", self.page), web.get("/metrics", self.metrics), web.get("/xrpc/_health", self.health),
            web.get(f"{XRPC}subscribeRepos", self.live.consumers.serve),
            web.get(f"{XRPC}listHosts", self.list_hosts), web.get(f"{XRPC}getHostStatus", self.host_status),
            web.post(f"{XRPC}requestCrawl", self.request_crawl),
            *(web.get(path, self.live.queries.serve) for path in queries.PATHS),
        ])
        return found

    async def page(self, request: web.Request) -> web.Response:
        is_part = request.query.get("part") == "main"
        text = page.main_part(self.live) if is_part else page.whole(self.live)
        headers = {"Cache-Control": "no-store", "X-Content-Type-Options": "nosniff", "Referrer-Policy": "no-referrer",
                   "Content-Security-Policy": "default-src 'self'; style-src 'unsafe-inline'; script-src 'unsafe-inline'; frame-ancestors 'none'"}
        return web.Response(text=text, content_type="text/html", headers=headers)

    async def metrics(self, _request: web.Request) -> web.Response:
        return web.Response(body=self.live.metrics.text(), content_type="text/plain", charset="utf-8")

    async def health(self, _request: web.Request) -> web.Response:
        fault = self.live.carrier.carried.fault
        said = {"version": self.live.version, **({"error": "Failing", "message": fault} if fault else {})}
        return web.json_response(said, status=503 if fault else 200)

    def told(self, host: "Host") -> dict:
        """A host as the Lexicon (com.atproto.sync.listHosts) has it."""
        status = "active" if host.is_connected else "offline"
        return {"hostname": host.name, "status": status, **({} if host.taken is None else {"seq": host.taken})}

    def everyone(self) -> "dict[str, dict]":
        """All hosts: those of the journal that aren't followed any more, too."""
        former = {name: {"hostname": name, "status": "idle", "seq": cursor} for name, cursor in self.live.hosts.cursors.items()}
        return {**former, **{host.name: self.told(host) for host in self.live.hosts.all.values()}}

    async def list_hosts(self, request: web.Request) -> web.Response:
        """The hosts after a cursor, which is the name of one, in the order of their names."""
        limit = request.query.get("limit", str(USUALLY_LISTED))
        if not (limit.isascii() and limit.isdigit() and 1 <= int(limit) <= MOST_LISTED):
            return error(BAD_REQUEST, f"limit wants a number from 1 to {MOST_LISTED}")
        found = [told for name, told in sorted(self.everyone().items()) if name > request.query.get("cursor", "")]
        some = found[:int(limit)]
        cursor = {"cursor": some[-1]["hostname"]} if len(found) > len(some) else {}
        return web.json_response({"hosts": some, **cursor})

    async def host_status(self, request: web.Request) -> web.Response:
        name = request.query.get("hostname")
        if name is None:
            return error(BAD_REQUEST, "hostname is missing")
        found = self.everyone().get(name)
        return web.json_response(found) if found else error("HostNotFound", "this host isn't followed")

    async def request_crawl(self, request: web.Request) -> web.Response:
        """Follows a host that asks for it, where it is let in."""
        name = await hostname_in(request)
        if name is None or not names.is_host(name):
            return error(BAD_REQUEST, 'wants {"hostname": ".."} as JSON, with the name of a host')
        if name not in self.live.hosts.all:
            if not self.live.words.lets_in(name):
                return error(BANNED, "this relay doesn't let the host in")
            if len(self.live.hosts.all) >= self.live.words.host.most_hosts:
                return error(BANNED, "this relay follows as many hosts as it may")
            say(f"{name} asked to be followed")
            self.live.follow_asked(name)
        return web.json_response({})


async def hostname_in(request: web.Request) -> Optional[str]:
    """The name of the host that asks to be followed. What isn't marked as JSON isn't read: a page of another origin can't send that
    without asking first."""
    if request.content_type != "application/json":
        return None
    try:
        name = (await request.json()).get("hostname")
    except (json.JSONDecodeError, UnicodeDecodeError, AttributeError, RecursionError):
        return None
    return name.lower() if isinstance(name, str) else None
