"""The page at `/`: how the relay does, at a glance."""
import html
import time
from typing import TYPE_CHECKING, Iterable

if TYPE_CHECKING:
    from jupwachay.live.service import Live

HEAD = """<!DOCTYPE html>
<html lang="en">
<head>
<meta charset="utf-8">
<meta name="viewport" content="width=device-width, initial-scale=1">
<title>Relay</title>
<noscript><meta http-equiv="refresh" content="2"></noscript>
<style>
body { font: 15px/1.45 system-ui, sans-serif; margin: 1.5em auto; max-width: 70em; padding: 0 1em; color: #222; background: #fff; }
h1 { font-size: 1.3em; } h2 { font-size: 1.05em; margin: 1.4em 0 .3em; }
table { border-collapse: collapse; width: 100%; } th, td { text-align: left; padding: .15em .8em .15em 0; border-bottom: 1px solid #ddd; }
td.n, th.n { text-align: right; } .bad { color: #a00; } .wide { overflow-x: auto; }
@media (prefers-color-scheme: dark) { body { color: #ddd; background: #161616; } th, td { border-color: #444; } .bad { color: #f88; } }
</style>
</head>
<body>
<main>
"""
FOOT = """</main>
<script>
setInterval(async () => {
  try {
    const answer = await fetch("/?part=main", { cache: "no-store" });
    if (answer.ok) document.querySelector("main").innerHTML = await answer.text();
  } catch (why) { document.title = "Relay (not reached)"; return; }
  document.title = "Relay";
}, 2000);
</script>
</body>
</html>
"""


def table(heads: "list[str]", rows: "Iterable[Iterable[object]]") -> str:
    """A table; numbers stand at the right."""
    lines = [list(row) for row in rows]
    if not lines:
        return "<p>none</p>"
    is_number = [isinstance(value, (int, float)) for value in lines[0]]
    told = "".join(f"<th{' class=n' if number else ''}>{html.escape(head)}</th>" for head, number in zip(heads, is_number))
    body = "".join("<tr>" + "".join(f"<td{' class=n' if number else ''}>{cell(value)}</td>" for value, number in zip(line, is_number)) + "</tr>\n"
                   for line in lines)
    return f'<div class="wide"><table>\n<tr>{told}</tr>\n{body}</table></div>'


def cell(value: object) -> str:
    return f"{value:,}" if isinstance(value, int) else f"{value:,.1f}" if isinstance(value, float) else html.escape(str(value))


def ago(moment: float) -> str:
    """How long ago a moment was."""
    if not moment:
        return "never"
    seconds = max(0, int(time.time() - moment))
    return f"{seconds} s ago" if seconds < 120 else f"{seconds // 60} min ago" if seconds < 7200 else f"{seconds // 3600} h ago"


def main_part(live: "Live") -> str:
    """What changes: the page without its head."""
    carried, tail = live.carrier.carried, live.tail
    parts = [
        "<h1>Relay</h1>",
        f'<p class="bad">Nothing is taken now: {html.escape(carried.fault)}</p>' if carried.fault else "",
        f"<p>Last number <b id=last>{tail.last:,}</b>, {tail.events:,} events in this run, which began {ago(live.begun)};"
        f" {len(live.consumers.all):,} consumers, {len(live.finder.lost):,} lost accounts; the last batch took {carried.seconds:.1f} s.</p>",
        "<h2>Hosts</h2>",
        table(["host", "state", "cursor", "waiting", "lag, s", "last message"],
              ([host.name, host.told, host.taken or 0, host.waiting()[0], round(host.lag(), 1), ago(host.last_came)]
               for host in live.hosts.all.values())),
        "<h2>Last events</h2>",
        table(["number", "kind", "account"], ([event.seq, event.kind, event.did] for event in reversed(tail.recent))),
        "<h2>Refusals</h2>",
        table(["refusal", "messages"], carried.refused.most_common()),
        "<h2>Last refused</h2>",
        table(["host", "number", "refusal", "account", "when"],
              ([each.host, each.seq, each.name, did, ago(moment)] for moment, each, did in reversed(carried.recent_refused))),
        "<h2>Lost accounts</h2>",
        table(["account", "since", "tries", "why"], ([each.did, ago(each.since), each.failures, each.why] for each in list(live.finder.lost.values())[:20])),
        "<h2>Consumers</h2>",
        table(["from", "cursor", "waiting", "sent", "since"],
              ([each.request.remote or "-", each.cursor, each.lag()[0], each.sent, ago(each.begun)] for each in live.consumers.all.values())),
    ]
    return "\n".join(part for part in parts if part) + "\n"


def whole(live: "Live") -> str:
    return HEAD + main_part(live) + FOOT
