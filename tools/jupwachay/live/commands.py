"""The operator's commands to a live relay that runs."""
import asyncio
from typing import TYPE_CHECKING

from jupwachay import names, repositories
from jupwachay.endings import WRONG_WORDS
from jupwachay.live.operation import Command
from jupwachay.live.tail import Unserved

if TYPE_CHECKING:
    from jupwachay.live.service import Live


def of(live: "Live") -> "dict[str, Command]":
    """Each command by its word."""
    return {
        "status": lambda words: status(live, words), "stop": lambda words: stop(live, words), "cut": lambda words: cut(live, words),
        "takedown": lambda words: change(live, "takedown", words), "restore": lambda words: change(live, "restore", words),
        "sync": lambda words: sync(live, words),
    }


async def change(live: "Live", word: str, words: "list[str]") -> "tuple[int, str]":
    """Takes an account down, or restores it; consumers get the event, and what may be shown of the account follows."""
    if len(words) != 1 or not names.is_did(words[0]):
        return WRONG_WORDS, f"{word} wants one DID"
    async with live.runs.turn:
        done = await live.runs.run(word, words[0], repositories.moment())
        if done.status == 0:
            live.tail.change()
            try:
                await live.tail.grow(int(done.out.split()[1]))
            except Unserved as why:
                return why.done.status, f"{done.out.decode().strip()}; consumers get it later: {why}"
    return done.status, done.out.decode().strip() or done.sentence()


async def sync(live: "Live", words: "list[str]") -> "tuple[int, str]":
    """Has an account's repository fetched and taken over, as if it were lost."""
    if len(words) != 1 or not names.is_did(words[0]):
        return WRONG_WORDS, "sync wants one DID"
    return await live.finder.sync_now(words[0])


async def cut(live: "Live", words: "list[str]") -> "tuple[int, str]":
    """Cuts the events up to a number away."""
    if len(words) != 1 or not words[0].isascii() or not words[0].isdigit():
        return WRONG_WORDS, "cut wants a number"
    done = await live.window.cut(int(words[0]))
    return done.status, done.out.decode().strip() or done.sentence()


async def stop(live: "Live", _words: "list[str]") -> "tuple[int, str]":
    """Ends the relay, once the answer is on its way."""
    asyncio.get_running_loop().call_later(0.1, live.stopped.set)
    return 0, "stopping"


async def status(live: "Live", _words: "list[str]") -> "tuple[int, str]":
    """How it does, in lines."""
    carried = live.carrier.carried
    lines = [f"last {live.tail.last}", f"events {live.tail.events}", f"messages {carried.messages}", f"batches {carried.batches}"]
    lines += [f"host {host.name} cursor {host.taken or 0} waiting {host.waiting()[0]} {host.told}" for host in live.hosts.all.values()]
    lines += [f"refused {name} {count}" for name, count in carried.refused.most_common()]
    lines += [f"lost {each.did} {each.why}".rstrip() for each in live.finder.lost.values()]
    lines += [f"consumer {each.request.remote} cursor {each.cursor} sent {each.sent}" for each in live.consumers.all.values()]
    lines += [f"failing {carried.fault}"] if carried.fault else []
    return 0, "\n".join(lines)
