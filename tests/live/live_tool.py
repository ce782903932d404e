"""A live relay as the tests run it, and what is asked of it."""
import json
import os
import pathlib
import random
import re
import signal
import subprocess
import sys
import time
import urllib.error
import urllib.request

sys.path[:0] = [str(pathlib.Path(__file__).resolve().parents[1]), str(pathlib.Path(__file__).resolve().parents[1] / "edge")]
import program  # noqa: E402
from rows import Wrong  # noqa: E402

TOOL = program.TOP / "tools/live"
WAIT = 300  # seconds after which nothing is waited for any more; a busy machine is slow
SOON = 30  # seconds in which it ends, whatever it waits for; what it gives runs, hosts and consumers at its end comes to less
LISTENING = re.compile(r"listening on (http://\S+) last (\d+) hosts (\d+)")
SECTIONS = {"batch": {"interval": 0.2, "longest_pause": 0.5}, "host": {"longest_pause": 2.0}, "documents": {"rate": 1000.0},
            "repositories": {"first_pause": 0.5, "longest_pause": 4.0}, "window": {"every": 1.0}}


def wait_for(is_so, what: str, seconds: float = WAIT):
    """Waits until something is so, and gives it."""
    end = time.monotonic() + seconds
    while True:
        found = is_so()
        if found:
            return found
        if time.monotonic() > end:
            raise Wrong(f"waited {seconds:g} seconds in vain: {what}")
        time.sleep(0.05)


def free_port() -> int:
    """A port that nobody listens at, and that the system gives to no connection while a relay that is started again doesn't have it."""
    first = int(pathlib.Path("/proc/sys/net/ipv4/ip_local_port_range").read_text().split()[0])
    while True:
        port = random.randrange(min(10_000, first // 2), first)
        if program.is_free(port):
            return port


def toml(value: object) -> str:
    return json.dumps(value)


class Relay:
    """A folder, its configuration, and the tool that works on it."""

    def __init__(self, folder: pathlib.Path, plc: str = "", hosts: "list[str]" = (), relay: "pathlib.Path | None" = None, **sections):
        self.folder, self.relay, self.child, self.address = folder, relay or program.built("relay_cli"), None, ""
        self.environment = dict(os.environ)
        folder.mkdir(exist_ok=True)
        top = {"listen": f"127.0.0.1:{free_port()}", "plain": True, "plc": plc, "hosts": list(hosts), **{key: value for key, value in sections.items() if not isinstance(value, dict)}}
        parts = {key: value for key, value in sections.items() if isinstance(value, dict)}
        lines = [f"{key} = {toml(value)}" for key, value in top.items()]
        for name in {**SECTIONS, **parts}:
            lines.append(f"[{name}]")
            lines += [f"{key} = {toml(value)}" for key, value in {**SECTIONS.get(name, {}), **parts.get(name, {})}.items()]
        (folder / "live.toml").write_text("\n".join(lines) + "\n")
        self.said = folder.with_name(f"{folder.name}.said")

    def __enter__(self) -> "Relay":
        self.start()
        return self

    def __exit__(self, *_) -> None:
        if self.child and self.child.poll() is None:
            self.child.kill()
            self.child.wait()

    def start(self, *words: str) -> None:
        """Starts the tool, and waits until it listens."""
        self.begin(*words)
        line = self.child.stdout.readline()
        found = LISTENING.match(line)
        if not found:
            raise Wrong(f"the tool ended with {self.child.wait()}, and said {self.words()!r}")
        self.address = found[1]

    def begin(self, *words: str) -> None:
        with open(self.said, "ab") as said:
            self.child = subprocess.Popen([sys.executable, TOOL, self.folder, "--relay", self.relay, *words], stdout=subprocess.PIPE,
                                          stderr=said, text=True, start_new_session=True, env=self.environment)

    def words(self) -> str:
        """All that it said on standard error."""
        return self.said.read_text(errors="replace") if self.said.exists() else ""

    def stop(self, number: int = signal.SIGTERM) -> "tuple[int, float]":
        """Stops it by a signal: its status, and the seconds it took."""
        begun = time.monotonic()
        self.child.send_signal(number)
        status = self.child.wait(WAIT)
        return status, time.monotonic() - begun

    def ended(self) -> int:
        """Waits until it ends by itself, and gives its status."""
        return self.child.wait(WAIT)

    def command(self, *words: str) -> "tuple[int, str]":
        """The status and the output of a command to it."""
        done = subprocess.run([sys.executable, TOOL, self.folder, *words], stdin=subprocess.DEVNULL, capture_output=True, text=True,
                              check=False, timeout=WAIT)
        return done.returncode, (done.stdout + done.stderr).strip()

    def get(self, path: str, **headers: str) -> "tuple[int, bytes]":
        """The status and the content of an answer."""
        return self.asked(urllib.request.Request(self.address + path, headers=headers))

    def post(self, path: str, content: bytes, kind: str = "application/json") -> "tuple[int, bytes]":
        return self.asked(urllib.request.Request(self.address + path, data=content, headers={"Content-Type": kind}))

    @staticmethod
    def asked(request: urllib.request.Request) -> "tuple[int, bytes]":
        try:
            with urllib.request.urlopen(request, timeout=WAIT) as answer:
                return answer.status, answer.read()
        except urllib.error.HTTPError as why:
            return why.code, why.read()

    def stream(self) -> str:
        return f"ws{self.address[4:]}/xrpc/com.atproto.sync.subscribeRepos"

    def metrics(self) -> "dict[str, float]":
        """What `/metrics` says, by name and labels as they stand there."""
        lines = self.get("/metrics")[1].decode().splitlines()
        return {name: float(value) for name, _, value in (line.rpartition(" ") for line in lines if not line.startswith("#"))}

    def cursors(self) -> "dict[str, int]":
        """Where the journal is with each host, as `listHosts` has it."""
        return {host["hostname"]: host.get("seq", 0) for host in json.loads(self.get("/xrpc/com.atproto.sync.listHosts")[1])["hosts"]}

    def has_taken(self, sent: "dict[str, int]") -> bool:
        """Whether it has taken all that hosts sent, and no account is lost."""
        cursors = self.cursors()
        return all(cursors.get(name, 0) >= last for name, last in sent.items()) and self.metrics()["live_lost_accounts"] == 0

    def wait_until_taken(self, sent: "dict[str, int]") -> None:
        wait_for(lambda: self.has_taken(sent), f"what hosts sent is taken: {sent}")

    def run(self, *words: str) -> "tuple[int, bytes]":
        """A run of the relay's program on the folder, for which the tool has to be stopped."""
        return program.run(self.folder, *words, command=self.relay)
