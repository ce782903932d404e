"""What is measured, for Prometheus (`/metrics`)."""
from typing import TYPE_CHECKING

from prometheus_client import CollectorRegistry, Histogram, generate_latest
from prometheus_client.core import CounterMetricFamily, GaugeMetricFamily

if TYPE_CHECKING:
    from jupwachay.live.service import Live

SECONDS = (0.05, 0.1, 0.2, 0.5, 1, 2, 5, 10, 20, 60)


class Metrics:
    """The registry. What the parts count themselves is collected from them when it is asked for."""

    def __init__(self, live: "Live"):
        self.live, self.registry = live, CollectorRegistry()
        self.batch_seconds = Histogram("live_batch_seconds", "Seconds that a batch took", buckets=SECONDS, registry=self.registry)
        self.registry.register(self)

    def text(self) -> bytes:
        return generate_latest(self.registry)

    def collect(self):
        """What stands now. The library calls it."""
        live = self.live
        carried, consumers = live.carrier.carried, live.consumers
        yield from self.hosts()
        yield counter("live_events", "Events read for consumers", live.tail.events)
        yield gauge("live_last_number", "The last number that was given", live.tail.last)
        yield counter("live_messages", "Messages of hosts that were taken", carried.messages)
        yield counter("live_batches", "Batches that were taken", carried.batches)
        yield labelled(CounterMetricFamily("live_outcomes", "Messages by what the relay says of them", labels=["outcome"]), carried.lines)
        yield labelled(CounterMetricFamily("live_refusals", "Messages that were refused, by the refusal's name", labels=["name"]), carried.refused)
        yield counter("live_unvouched", "Commits whose signature isn't their account's, or whose account has no known key", live.vouching.bad)
        yield gauge("live_lost_accounts", "Accounts that wait for their repository", len(live.finder.lost))
        yield counter("live_accounts_back", "Accounts that were lost and are back", live.finder.back)
        yield counter("live_failed_fetches", "Tries to bring a lost account back that failed", live.finder.failed)
        yield gauge("live_consumers", "Consumers that are connected", len(consumers.all))
        yield counter("live_consumers_served", "Consumers that came", consumers.served)
        yield counter("live_consumers_too_slow", "Consumers that were too slow", consumers.too_slow)
        yield gauge("live_backlog_events", "Events in memory", len(live.tail.backlog))
        yield gauge("live_backlog_bytes", "Bytes of the events in memory", live.tail.backlog.size())
        yield gauge("live_is_failing", "Whether nothing is taken now since a run fails", int(bool(carried.fault)))

    def hosts(self):
        columns = {
            "connected": ("Whether the host is connected", lambda host: int(host.is_connected)),
            "cursor": ("The host's last number that was taken", lambda host: host.taken or 0),
            "received": ("The host's last number that came", lambda host: host.received or 0),
            "waiting_messages": ("Messages that wait to be taken", lambda host: host.waiting()[0]),
            "waiting_bytes": ("Bytes that wait to be taken", lambda host: host.waiting()[1]),
            "lag_seconds": ("How long the message that waits longest has waited", lambda host: host.lag()),
            "failures": ("Failed connections in a row", lambda host: host.failures),
        }
        for name, (told, value) in columns.items():
            yield labelled(GaugeMetricFamily(f"live_host_{name}", told, labels=["host"]),
                           {host.name: value(host) for host in self.live.hosts.all.values()})


def counter(name: str, told: str, value: float) -> CounterMetricFamily:
    return CounterMetricFamily(name, told, value=value)


def gauge(name: str, told: str, value: float) -> GaugeMetricFamily:
    return GaugeMetricFamily(name, told, value=value)


def labelled(family, values: dict):
    for label, value in values.items():
        family.add_metric([label], value)
    return family
