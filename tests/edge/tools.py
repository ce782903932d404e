"""The tools where hosts, directories, disks and names are none that one would wish for."""
import contextlib
import datetime
import fcntl
import hashlib
import http.server
import importlib.util
import json
import os
import pathlib
import shutil
import signal
import socket
import subprocess
import sys
import threading
import time

import program
from rows import LeftOut, Rows, expect, needs, same

TOOLS = program.TOP / "tools"
WORLD = program.TOP / "tests/world"
sys.path[:0] = [str(TOOLS), str(WORLD)]
ROWS = Rows()
LIBRARIES = ("cryptography", "websockets")
MOMENTS = 180  # seconds that a run may take on a machine with other work
SOON = 30  # seconds in which a signal ends a run there
NO_TAPE, FAILED, DISK, BAD_TABLE, NO_RELAY, NO_LIBRARY = 3, 4, 5, 6, 7, 8
HOST = "pds.example.com"
FIRST_LOST, CUT = 130, 100  # of the sample: the messages up to the first by which an account is lost, and the events that are cut


def run(tool, *words, given="", python=(sys.executable,), **options):
    """The status, the output and the words on standard error of a tool's run."""
    command = [*python, tool if isinstance(tool, pathlib.Path) else TOOLS / tool, *map(str, words)]
    done = subprocess.run(command, input=given, text=True, capture_output=True, timeout=MOMENTS, check=False, **options)
    return done.returncode, done.stdout, done.stderr


def world():
    """The modules of tests/world: accounts with keys, and hosts (there are others of this name)."""
    for module in LIBRARIES:
        try:
            __import__(module)
        except ImportError as why:
            raise LeftOut(f"{sys.executable} has no library {module}") from why
    import accounts
    if "world_hosts" not in sys.modules:
        spec = importlib.util.spec_from_file_location("world_hosts", WORLD / "hosts.py")
        sys.modules["world_hosts"] = importlib.util.module_from_spec(spec)
        spec.loader.exec_module(sys.modules["world_hosts"])
    return accounts, sys.modules["world_hosts"]


def tape(path, *records):
    """A tape of records: of each the host and the message."""
    path.write_bytes(b"".join(program.record(host, message) for host, message in records))
    return path


def identities(host, dids):
    """Records of an #identity event of each account."""
    from accounts import TIME, encode
    return [(host, encode({"t": "#identity", "op": 1}) + encode({"did": did, "seq": i, "time": TIME})) for i, did in enumerate(dids, 1)]


class Server(http.server.ThreadingHTTPServer):
    """A server on a free port of this machine; a function is given each request."""

    daemon_threads = True

    def __init__(self, answer):
        class Asked(http.server.BaseHTTPRequestHandler):
            protocol_version = "HTTP/1.1"

            def do_GET(self):
                self.close_connection = True
                self.server.asked.append(self.path)
                with contextlib.suppress(OSError):
                    answer(self)

            def log_message(self, *_):
                pass

        super().__init__(("127.0.0.1", 0), Asked)
        self.asked = []
        threading.Thread(target=self.serve_forever, args=(0.05,), daemon=True).start()

    def did(self):
        return f"did:web:localhost%3A{self.server_port}"


def silent(asked):
    """An answer that doesn't come."""
    time.sleep(MOMENTS)


def give(status, content=b"", **headers):
    """An answer with this status, content and headers."""
    def answer(asked):
        asked.send_response(status)
        for name, value in {"Content-Length": str(len(content)), **headers}.items():
            asked.send_header(name, value)
        asked.end_headers()
        asked.wfile.write(content)
    return answer


def endless(asked):
    """An answer that has no end."""
    asked.send_response(200)
    asked.end_headers()
    while True:
        asked.wfile.write(b" " * 65536)


def unknown(out):
    """Why accounts are unknown, by their DIDs."""
    return dict(line.split(" ", 2)[1:] for line in out.splitlines() if line.startswith("unknown "))


# The package, links, libraries.


@ROWS.row("tools: --help needs no library")
def help_without_libraries(_):
    for tool in ("record", "vouch", "repositories", "status"):
        status, out, err = run(tool, "--help", python=(sys.executable, "-I", "-S"))
        same((status, err), (0, ""), f"{tool} --help")
        expect("Exit status:" in out, f"{tool} --help doesn't say its statuses")


@ROWS.row("tools: a library that is missing is named with the interpreter")
def missing_library(folder):
    account = (folder, "--did", "did:plc:a")
    for tool, words, library in (("record", ("a.example", folder / "tape"), "websockets"), ("vouch", account, "cryptography"),
                                 ("repositories", account, "cryptography")):
        status, out, err = run(tool, *words, python=(sys.executable, "-I", "-S"))
        same((status, out), (NO_LIBRARY, ""), tool)
        expect(err.startswith(f"{tool}: {sys.executable} has no library {library}: ") and f"python3-{library}" in err, f"{tool}: {err}")
    same(sorted(path.name for path in folder.iterdir()), [], "what the runs left")


@ROWS.row("tools: through links, with blanks in paths, from another folder, with the relay beside their real place")
def links(folder):
    world()
    real, other = folder / "the real place", folder / "an other place"
    shutil.copytree(TOOLS, real / "tools", ignore=shutil.ignore_patterns("__pycache__"))
    other.mkdir()
    day = other / "a day"
    day.mkdir()
    (real / "relay").write_text('#!/bin/sh\necho "$@" >> "$(dirname "$0")/was run"\necho "a.example 7\nend 1"\n')
    (real / "relay").chmod(0o755)
    (other / "tools").symlink_to(real / "tools")
    (other / "vouch it").symlink_to(real / "tools/vouch")
    (day / "plc.1").write_text("trust did:plc:a\n")
    for tool in (other / "tools/vouch", other / "vouch it"):
        same(run(tool, day, "--check", cwd="/")[:2], (0, "plc.1 lines 1 homes 0 trusted 1 good 0 sum no\n"), str(tool))
    run(other / "tools/record", "127.0.0.1:1", other / "a tape", "--name", "a.example", "--plain", "--from", day, "--seconds", 1, cwd="/")
    same((real / "was run").read_text(), f"{day} hosts\n", "what the relay beside the tools was asked")


# Addresses.


@ROWS.row("tools: which addresses are public")
def public_addresses(_):
    from jupwachay.addresses import is_public
    public = ("1.1.1.1", "100.0.0.1", "172.15.0.1", "2606:4700::1111", "2a00:1450::1", "::ffff:8.8.8.8")
    others = ("127.0.0.1", "127.9.9.9", "10.0.0.1", "172.16.0.1", "192.168.1.1", "169.254.169.254", "100.64.0.1", "0.0.0.0",
              "224.0.0.1", "239.255.255.255", "255.255.255.255", "240.0.0.1", "192.0.2.1", "198.18.0.1", "203.0.113.1",
              "::1", "::", "fe80::1", "fe80::1%2", "fc00::1", "fd12::1", "ff02::1", "ff0e::1", "::ffff:127.0.0.1", "::ffff:10.0.0.1",
              "::127.0.0.1", "64:ff9b::7f00:1", "64:ff9b::808:808", "64:ff9b:1::1", "2002:7f00:1::1", "2002:808:808::1",
              "2001:0:1::1", "2001:db8::1", "fec0::1")
    same([text for text in public if not is_public(text)], [], "public ones that are refused")
    same([text for text in others if is_public(text)], [], "others that are taken for public ones")


@ROWS.row("tools: an address counts when the connection is made, not before")
def rebinding(_):
    from jupwachay import addresses
    with socket.socket() as listener:
        listener.bind(("127.0.0.1", 0))
        listener.listen()
        listener.settimeout(0.2)
        port = listener.getsockname()[1]
        answers = [[(socket.AF_INET, socket.SOCK_STREAM, 6, "", ("127.0.0.1", port))]]
        before, socket.getaddrinfo = socket.getaddrinfo, lambda *_, **__: answers[0]
        try:
            try:
                addresses.connected("once-public.example", port, addresses.Reach(), 2.0)
                expect(False, "a loopback address was reached")
            except addresses.NotPublic as why:
                same(str(why), "once-public.example isn't public: its address is 127.0.0.1", "what is said")
            addresses.connected("once-public.example", port, addresses.Reach(is_private_allowed=True), 2.0).close()
        finally:
            socket.getaddrinfo = before
        listener.accept()[0].close()
        try:
            listener.accept()
            expect(False, "a second connection was made")
        except TimeoutError:
            pass


@ROWS.row("tools: no host on a private address is asked, wherever its name comes from")
def private_hosts(folder):
    world()
    server = Server(give(200, b"{}"))
    name = f"localhost:{server.server_port}"
    (folder / "plc.1").write_text(f"home did:plc:a {name}\n")
    status, out, _ = run("vouch", folder, "--did", server.did())
    same((status, list(unknown(out))), (0, [server.did()]), "vouch, of a did:web")
    expect("localhost isn't public: its address is " in out, out)
    status, out, _ = run("vouch", folder, "--did", "did:plc:b", "--plc", f"https://{name}")
    same(status, FAILED, "vouch, of a directory")
    expect("localhost isn't public: its address is " in out and "--private allows it" in out, out)
    status, out, _ = run("repositories", folder, "--did", "did:plc:a", "--no-sync")
    same(status, FAILED, "repositories")
    expect(out.startswith("did:plc:a failed localhost isn't public: its address is "), out)
    status, _, err = run("record", name, folder / "tape", "--seconds", 5)
    same(status, FAILED, "record")
    expect("localhost isn't public: its address is " in err, err)
    same(server.asked, [], "what the host was asked")


@ROWS.row("tools: a DID whose host is a path or a number is no host")
def odd_names(folder):
    world()
    names = ("..%2F..%2Fetc", "a.example%2Fx", "a.example:user", "%00", "a..b", "A.example", "a.example%3A0", "a.example%3A99999")
    dids = [f"did:web:{name}" for name in names]
    status, out, _ = run("vouch", folder, *[word for did in dids for word in ("--did", did)], "--plain", "--patience", 2)
    same((status, unknown(out)), (0, dict.fromkeys(dids, "its DID names no host alone")), "why")
    written = {path.name for path in folder.rglob("*") if path.is_file()}
    same(written, {"plc.1", "web.1", "plc.1.sum", "web.1.sum"}, "the files that were written")


# Answers.


@ROWS.row("tools: a redirection leads nowhere")
def redirections(folder):
    world()
    other = Server(give(200, b"{}"))
    for status in (301, 302, 307, 308):
        server = Server(give(status, Location=f"http://localhost:{other.server_port}/.well-known/did.json"))
        got = run("vouch", folder, "--did", server.did(), "--plain")
        same(got[0], FAILED, f"vouch, {status}")
        expect(f"answers {status}" in got[1], got[1])
    name = f"localhost:{server.server_port}"
    (folder / "plc.1.sum").unlink()
    (folder / "plc.1").write_text(f"home did:plc:a {name}\n")
    got = run("repositories", folder, "--did", "did:plc:a", "--no-sync", "--plain")
    same(got[:2], (FAILED, f"did:plc:a failed {name} answers 308\nend 1 fetched 0 synced 0 failed 1\n"), "repositories")
    for target in (f"ws://localhost:{other.server_port}/", "/elsewhere"):
        server = Server(give(302, Location=target))
        got = run("record", f"localhost:{server.server_port}", folder / "tape", "--plain")
        same((got[0], len(server.asked)), (FAILED, 1), f"record, to {target}: {got[2]}")
    same(other.asked, [], "what the other host was asked")


@ROWS.row("tools: answers that are too long aren't read to their end")
def long_answers(folder):
    world()
    for answer in (endless, give(200, b" " * (2 << 20))):
        server = Server(answer)
        status, out, _ = run("vouch", folder, "--did", server.did(), "--plain")
        same(status, FAILED, "the status of vouch")
        expect("the answer has more than 1048576 bytes" in out, out)
    server = Server(endless)
    (folder / "plc.1.sum").unlink()
    (folder / "plc.1").write_text(f"home did:plc:a localhost:{server.server_port}\n")
    got = run("repositories", folder, "--did", "did:plc:a", "--no-sync", "--plain", "--bytes", 3_000_000)
    told = "did:plc:a failed the run's 3000000 bytes are used (--bytes)\nend 1 fetched 0 synced 0 failed 1\n"
    same(got[:2], (FAILED, told), "repositories")
    same(list((folder / "repos").iterdir()), [], "what is left of it")


# Bounds of a run.


@ROWS.row("vouch: a host whose names answer slowly is given up, and no other host's")
def slow_names(folder):
    accounts, hosts = world()
    slow = [Server(silent) for _ in range(12)]
    honest = hosts.Host()
    honest.web = accounts.Account("web", accounts.P256, f"did:web:localhost%3A{honest.server.server_port}")
    records = identities("slow.example", [server.did() for server in slow]) + identities(honest.name, [honest.web.did])
    (folder / "web.1").write_text(f"home {slow[11].did()} before.example\n")
    begun, patience = time.monotonic(), 2
    status, out, err = run("vouch", folder, tape(folder / "tape", *records), "--plain", "--patience", patience)
    same(status, FAILED, "the status")
    expect(time.monotonic() - begun < 12 * 3 * patience, "it took as long as all names in three tries")
    asked = sum(bool(server.asked) for server in slow)
    expect(4 <= asked <= 5, f"{asked} of the slow names were asked")
    expect(all(len(server.asked) <= 1 for server in slow), "a name was asked twice")
    expect(f"{12 - asked} accounts were left out: names of slow.example took {4 * patience} seconds in this run" in err, err)
    lines = (folder / "web.1").read_text().splitlines()
    same(lines, [f"home {slow[11].did()} before.example", f"home {honest.web.did} {honest.name}"], "the table")


@ROWS.row("vouch: invented accounts take no more requests than a run has, and don't take another host's")
def invented_accounts(folder):
    accounts, hosts = world()
    directory, account = hosts.Directory(), accounts.Account("ada", accounts.SECP256K1)
    directory.publish(account, HOST)
    records = identities("liar.example", [accounts.plc_did(f"nobody {i}") for i in range(500)]) + identities(HOST, [account.did])
    words = (tape(folder / "tape", *records), "--plain", "--plc", directory.address, "--rate", 1000, "--requests", 20)
    status, out, err = run("vouch", folder, *words)
    same((status, sum(directory.asked.values())), (FAILED, 20), "the status, and how many requests there were")
    expect("481 accounts were left out: the run's 20 requests are used (--requests)" in err, err)
    same((folder / "plc.1").read_text(), f"home {account.did} {HOST}\n", "the table")
    run("vouch", folder, *words)
    same(sum(directory.asked.values()), 40, "the next run goes on with others")


@ROWS.row("vouch: a run ends asking in time")
def seconds_of_a_run(folder):
    world()
    directory = Server(silent)
    dids = [word for name in "abcde" for word in ("--did", f"did:plc:{name * 24}")]
    words = ("--plain", "--plc", f"http://localhost:{directory.server_port}", "--patience", 20, "--seconds", 2)
    begun = time.monotonic()
    status, _, err = run("vouch", folder, *dids, *words)
    same((status, len(directory.asked)), (FAILED, 1), "the status, and how often the directory was asked")
    expect(time.monotonic() - begun < 15, f"it took {time.monotonic() - begun:.0f} seconds")
    expect("5 accounts were left out: the run's 2 seconds are over (--seconds)" in err, err)


@ROWS.row("repositories: a home that doesn't answer is given up, and a run ends in time")
def slow_homes(folder):
    world()
    server = Server(silent)
    dids = [f"did:plc:{name * 24}" for name in "abcdef"]
    (folder / "plc.1").write_text("".join(f"home {did} localhost:{server.server_port}\n" for did in dids))
    words = [word for did in dids for word in ("--did", did)]
    status, out, _ = run("repositories", folder, *words, "--no-sync", "--plain", "--patience", 2, "--jobs", 1)
    same((status, len(server.asked)), (FAILED, 3), "the status, and how often the home was asked")
    same(out.count(" failed before\n"), 3, "who wasn't asked for")
    status, out, _ = run("repositories", folder, *words, "--no-sync", "--plain", "--patience", 20, "--seconds", 1)
    same(status, FAILED, "the status of a run of a second")
    expect("the run's 1 seconds are over (--seconds)" in out, out)


# Tables.


def good_line(account):
    return f"good {account} {64 * '0'} {128 * '1'}\n"


@ROWS.row("vouch: a table has its sum beside it")
def sums(folder):
    same(run("vouch", folder, "--trust", "did:plc:a", "--trust", "did:web:a.example")[0], 0, "trusting two accounts")
    for name, line in (("plc.1", "trust did:plc:a\n"), ("web.1", "trust did:web:a.example\n")):
        content = (folder / name).read_bytes()
        same(content.decode(), line, name)
        same((folder / f"{name}.sum").read_text(), f"{len(content)} {hashlib.sha256(content).hexdigest()}\n", f"{name}.sum")
    same(run("vouch", folder, "--trust", "did:plc:a")[:2], (0, "plc.1 lines 1 new 0\nweb.1 lines 1 new 0\n"), "trusting one twice")
    told = "".join(f"{name} lines 1 homes 0 trusted 1 good 0 sum yes\n" for name in ("plc.1", "web.1"))
    same(run("vouch", folder, "--check")[:2], (0, told), "--check")


@ROWS.row("vouch: a table that was cut at a line's end is known by its sum, and not written over")
def cut_tables(folder):
    world()
    run("vouch", folder, "--trust", "did:plc:a", "--trust", "did:plc:b")
    (folder / "plc.1").write_text("trust did:plc:a\n")
    for words in (("--trust", "did:plc:c"), ("--did", "did:plc:c"), ("--check",)):
        status, _, err = run("vouch", folder, *words)
        same(status, BAD_TABLE, f"the status of {words[0]}")
        expect(f"{folder}/plc.1: it isn't the table of {folder}/plc.1.sum" in err, err)
    same((folder / "plc.1").read_text(), "trust did:plc:a\n", "the table")
    (folder / "plc.1.sum").unlink()
    same(run("vouch", folder, "--trust", "did:plc:c")[0], 0, "once the sum is gone")
    same((folder / "plc.1").read_text(), "trust did:plc:a\ntrust did:plc:c\n", "the table then")


@ROWS.row("vouch: --check names the file and the line of whatever is none")
def checked_tables(folder):
    lines = {"": "it is empty", "# a comment": "it begins with another word", "trust did:plc:a\r": "it ends in a carriage return",
             "home did:plc:a": "home wants its two fields", "trust  did:plc:a": "trust wants its field",
             **dict.fromkeys(("home did:plc:a UPPER", "good did:plc:a 00 11", "trust nobody"), "a field has another form")}
    for line, why in lines.items():
        (folder / "plc.1").write_text(f"trust did:plc:a\n{line}\n{good_line('did:plc:a')}")
        status, out, err = run("vouch", folder, "--check")
        same((status, out), (BAD_TABLE, ""), repr(line))
        expect(err.startswith(f"vouch: {folder}/plc.1: line 2 is none of a table: {why}"), err)
    (folder / "plc.1").write_text("trust did:plc:a\n\ntrust did:plc:b\n\ntrust did:plc:c")
    (folder / "web.2").write_text("trust did:web:a\n")
    status, out, err = run("vouch", folder, "--check")
    same((status, out), (BAD_TABLE, "web.2 lines 1 homes 0 trusted 1 good 0 sum no\n"), "three lines")
    same([line.split(": ", 2)[2].split(" ")[1] for line in err.splitlines()], ["2", "4", "5"], "which lines are named")


@ROWS.row("vouch: the table has its name before its sum has, and each is on the disk before that")
def order_of_writing(folder):
    strace = needs("strace")
    run("vouch", folder, "--trust", "did:plc:a")
    told = folder / "told"
    calls = "trace=openat,fsync,rename,unlink,write"
    got = run("vouch", folder, "--trust", "did:plc:b", python=(strace, "-f", "-o", told, "-e", calls, "-y", sys.executable))
    if got[0] != 0:
        raise LeftOut(f"strace doesn't run here: {got[2].strip()}")
    steps = []
    for line in told.read_text().splitlines():
        call, _, rest = line.split(" ", 1)[1].strip().partition("(")
        if call in ("fsync", "rename", "unlink") and str(folder) in rest:
            steps.append((call, rest.split(">")[0].rpartition("/")[2] if call == "fsync" else rest.split('"')[1].rpartition("/")[2]))
    steps = [step for step in steps if "web" not in step[1]]
    name = folder.name
    same(steps, [("unlink", "plc.1.sum"), ("fsync", name), ("fsync", "plc.1.new"), ("rename", "plc.1.new"), ("fsync", name),
                 ("fsync", "plc.1.sum.new"), ("rename", "plc.1.sum.new"), ("fsync", name)], "the calls")


# Interrupted runs, and disks.


def stopped(*words, number, when):
    """The status and the words of a tool's run that gets a signal once something is so."""
    command = [sys.executable, TOOLS / words[0], *map(str, words[1:])]
    with subprocess.Popen(command, stdin=subprocess.DEVNULL, stdout=subprocess.PIPE, stderr=subprocess.PIPE, text=True) as child:
        try:
            end = time.monotonic() + MOMENTS
            while not when() and time.monotonic() < end:
                time.sleep(0.02)
            begun = time.monotonic()
            child.send_signal(number)
            _, err = child.communicate(timeout=MOMENTS)
        finally:
            child.kill()
    return child.returncode, err, time.monotonic() - begun


@ROWS.row("tools: a signal ends a run with a line, soon, and with nothing half written")
def signals(folder):
    world()

    def begin(asked):
        asked.send_response(200)
        asked.end_headers()
        asked.wfile.write(b"x" * 1000)
        silent(asked)

    server = Server(begin)
    (folder / "plc.1").write_text(f"home did:plc:a localhost:{server.server_port}\n")
    table = (folder / "plc.1").read_bytes()
    for number in (signal.SIGTERM, signal.SIGINT, signal.SIGHUP):
        server.asked.clear()
        status, err, seconds = stopped("repositories", folder, "--did", "did:plc:a", "--no-sync", "--plain", number=number,
                                       when=lambda: any((folder / "repos").glob("*.new")))
        same(status, 128 + number, f"the status of repositories at {number.name}")
        expect("repositories: stopped; each account whose line was printed is done\n" in err and "Traceback" not in err, err)
        expect(seconds < SOON, f"it took {seconds:.0f} seconds to stop")
        same(list((folder / "repos").iterdir()), [], "what is left in repos")
        for path in (folder / "web.1", folder / "web.1.sum", folder / "plc.1.sum"):
            path.unlink(missing_ok=True)
        server.asked.clear()
        status, err, seconds = stopped("vouch", folder, "--did", server.did(), "--plain", number=number, when=lambda: server.asked)
        same((status, (folder / "plc.1").read_bytes()), (128 + number, table), f"vouch at {number.name}")
        expect("vouch: stopped; each table is whole" in err and "Traceback" not in err, err)
        expect(seconds < SOON, f"it took {seconds:.0f} seconds to stop")
    same([path.name for path in folder.rglob("*.new")], [], "files that were begun")


@ROWS.row("repositories: a full disk is named, and what was begun goes")
def full_disk(folder):
    world()
    unshare = needs("unshare")
    if os.geteuid() != 0:
        raise LeftOut("only root mounts a small disk")
    server = Server(endless)
    disk = folder / "a disk"
    disk.mkdir()
    script = """mount -t tmpfs -o size=1m tmpfs "$1" || exit 77
        printf 'home did:plc:a localhost:%s\\n' "$2" > "$1/plc.1"
        "$3" "$4" "$1" --did did:plc:a --no-sync --plain
        echo "status $?"; ls -A "$1/repos"; df --output=avail "$1" | tail -n 1"""
    done = subprocess.run([unshare, "-m", "sh", "-c", script, "sh", disk, str(server.server_port), sys.executable, TOOLS / "repositories"],
                          capture_output=True, text=True, timeout=MOMENTS, check=False)
    if done.returncode == 77:
        raise LeftOut(f"no disk can be mounted here: {done.stderr.strip()}")
    lines = done.stdout.splitlines()
    same((lines[0], len(lines)), (f"status {DISK}", 2), "the status, and no file in repos")
    expect(int(lines[1]) > 900, f"{lines[1]} kB are free")
    said = (f"{disk}/repos/", "No space left on device", f"(the disk at {disk})")
    same([words for words in said if words not in done.stderr], [], f"what isn't said in {done.stderr!r}")


# Repositories and the relay.


class Missed:
    """A host, an account that the relay has lost since a commit is missing, and the tape and report of that."""

    def __init__(self, folder, stale=None):
        accounts, hosts = world()
        self.folder = folder / "relay"
        (self.folder / "repos").mkdir(parents=True)
        self.host, self.directory = hosts.Host(), hosts.Directory()
        self.account = accounts.Account("ada", accounts.SECP256K1)
        self.host.add(self.account)
        self.directory.publish(self.account, self.host.name)
        self.host.commit(self.account, creates=2)
        self.old, self.old_rev = self.account.repository(), self.account.rev
        self.account.commit(creates=1)
        self.host.commit(self.account, creates=1)
        self.tape = tape(folder / "tape", *[(self.host.name, message) for message, _ in self.host.events])
        self.words = ("--plain", "--plc", self.directory.address, "--relay", program.PROGRAM)
        same(run("vouch", self.folder, self.tape, *self.words[:3])[0], 0, "vouching")
        if stale:
            self.path().write_bytes(stale(self))
            run("vouch", self.folder, "--car", self.path(), *self.words[:3])
        status, report = program.run(self.folder, "ingest", given=self.tape.read_bytes())
        same(status, 0, "taking the tape")
        self.report = report.decode()

    def path(self):
        from jupwachay.repositories import path_of
        return path_of(self.folder, self.account.did)

    def bring_back(self):
        """What `repositories` makes of the report."""
        return run("repositories", self.folder, self.tape, *self.words, given=self.report)[:2]


@ROWS.row("repositories: a file goes once the relay took it over")
def taken_files(folder):
    missed = Missed(folder)
    did = missed.account.did
    expect(f"{missed.host.name} 2 refused 19 Gap absent\n" in missed.report, missed.report)
    same(missed.bring_back(), (0, f"{did} synced 2 records 4\nend 1 fetched 1 synced 1 failed 0\n"), "bringing it back")
    same(list((missed.folder / "repos").iterdir()), [], "what is left in repos")
    same(missed.bring_back(), (0, f"{did} passed over: it isn't lost any more\nend 0 fetched 0 synced 0 failed 0\n"), "once more")


@ROWS.row("repositories: a file that ingest took over goes, too")
def files_of_ingest(folder):
    missed = Missed(folder, stale=lambda self: self.account.repository())
    expect(f"{missed.host.name} 2 refused 19 Gap synced 2 records 4\n" in missed.report, missed.report)
    same(missed.bring_back(), (0, "end 0 fetched 0 synced 0 failed 0\n"), "there is nothing to fetch")
    same(list((missed.folder / "repos").iterdir()), [], "what is left in repos")


@ROWS.row("repositories: an account that took an old file over is fetched anew")
def old_files(folder):
    missed = Missed(folder, stale=lambda self: self.old)
    expect(f"{missed.host.name} 2 refused 19 Gap synced 2 records 2\n" in missed.report, missed.report)
    same(missed.bring_back(), (0, f"{missed.account.did} synced 3 records 4\nend 1 fetched 1 synced 1 failed 0\n"), "bringing it back")
    same(list((missed.folder / "repos").iterdir()), [], "what is left in repos")


@ROWS.row("repositories: one that is older than the commit that was refused isn't used")
def older_ones(folder):
    missed = Missed(folder)
    missed.host.repositories[missed.account.did] = missed.old
    did, rev = missed.account.did, missed.account.rev
    told = f"{did} failed its repository has revision {missed.old_rev}, and the commit that was refused {rev}\n"
    same(missed.bring_back(), (FAILED, f"{told}end 1 fetched 0 synced 0 failed 1\n"), "what is said")
    same(list((missed.folder / "repos").iterdir()), [], "what is left in repos")
    same(program.run(missed.folder, "account", did)[1].split()[4], b"lost", "what the relay knows")


# Recording.


@ROWS.row("record: a message of millions of tiny items takes no time")
def tiny_items(folder):
    accounts, hosts = world()
    host, account = hosts.Host(), accounts.Account("ada", accounts.SECP256K1)
    host.commit(account)
    count = 8_300_000
    tiny = accounts.encode({"t": "#commit", "op": 1}) + b"\xa2\x63aaa\x9a" + count.to_bytes(4, "big") + b"\x00" * count + b"\x63seq\x02"
    host.events.append((tiny, "event"))
    host.commit(account)
    begun = time.monotonic()
    from jupwachay import frames
    expect(frames.number(tiny) is None and frames.told(tiny) is None, "a number was read in it")
    expect(time.monotonic() - begun < 2, f"reading it took {time.monotonic() - begun:.1f} seconds")
    status, out, err = run("record", host.name, folder / "tape", "--plain", "--cursor", 0, "--messages", 3)
    same((status, out.split()[:2], out.split()[5]), (0, ["end", "3"], "3"), err)
    records = list(program.records((folder / "tape").read_bytes()))
    same([message for _, message in records] == [message for message, _ in host.events], True, "the tape has what was sent")
    same(run("vouch", folder, folder / "tape", "--list")[1].count("\n"), 2, "the events of the tape that can be read")


@ROWS.row("record: the folder of a tape is synced once the tape was made")
def synced_folder(folder):
    world()
    strace = needs("strace")
    told, place = folder / "told", folder / "tapes"
    place.mkdir()
    got = run("record", "127.0.0.1:1", place / "tape", "--plain", "--seconds", 1,
              python=(strace, "-f", "-o", told, "-e", "trace=openat,fsync", "-y", sys.executable))
    if got[0] != 0:
        raise LeftOut(f"strace doesn't run here: {got[2].strip()}")
    lines = told.read_text().splitlines()
    made = [i for i, line in enumerate(lines) if f'"{place}/tape"' in line and "O_CREAT" in line]
    synced = [i for i, line in enumerate(lines) if "fsync(" in line and f"<{place}>" in line]
    same((len(made), len(synced)), (1, 1), "how often the tape is made and its folder synced")
    expect(made[0] < synced[0], "the folder is synced before the tape is made")


# Scripts for each hour and each day.


@ROWS.row("each-day: an old tape goes only where its report is whole")
def old_tapes(folder):
    old = datetime.datetime(2025, 1, 1).timestamp()
    for name in ("day", "tapes", "reports"):
        (folder / name).mkdir()
    whole = "a 1 event 1\nend 1 events 1 refused 0 last 1\n"
    reports = {"taken": whole, "a blank": whole, "half": "a 1 event 1\n", "empty": "", "never": None}
    for name, report in reports.items():
        (folder / "tapes" / name).write_bytes(b"x")
        (folder / "tapes" / f".{name}.last").write_bytes(b"")
        os.utime(folder / "tapes" / name, (old, old))
        if report is not None:
            (folder / "reports" / name).write_text(report)
    (folder / "tapes" / "young").write_bytes(b"x")
    (folder / "reports" / "young").write_text(whole)
    (folder / "relay").write_text("#!/bin/sh\necho end 0 events 0 refused 0 last 5\n")
    (folder / "relay").chmod(0o755)
    got = run("each-day", folder, python=(), env={**os.environ, "RELAY": str(folder / "relay")})
    same(got[:2], (0, ""), got[2])
    stay = {*(f".{name}.last" for name in ("half", "empty", "never")), "half", "empty", "never", "young"}
    same({path.name for path in (folder / "tapes").iterdir()}, stay, "the tapes that stay")
    same(got[2].count("is older than 7 days and was not taken; it stays"), 3, "those that are named")
    same((folder / "lasts").read_text(), "5\n", "the last number")


@ROWS.row("each-hour: what can't be taken stops it by name, and stays for the next run")
def failing_hour(folder):
    world()
    for name in ("day", "tapes", "reports"):
        (folder / name).mkdir()
    (folder / "tapes/1").write_bytes(b"\0")
    (folder / "tapes/2").write_bytes(b"")
    got = run("each-hour", folder, python=(), env={**os.environ, "PATH": f"{pathlib.Path(sys.executable).parent}:{os.environ['PATH']}"})
    same(got[:2], (1, ""), got[2])
    expect(f"each-hour: tapes/1: vouch ends with {NO_TAPE}\n" in got[2], got[2])
    same(list((folder / "reports").iterdir()), [], "the reports")


# Status.


@ROWS.row("status: what the relay says of the sample, with an account down and its front cut; nothing is written")
def status_of_a_sample(folder):
    day = folder / "a day"
    shutil.copytree(program.SAMPLES / "relay", day)
    front = list(program.records((program.SAMPLES / "tape").read_bytes()))[:FIRST_LOST]
    report = program.run(day, "ingest", given=b"".join(program.record(*each) for each in front))[1].decode()
    last = next(int(line.split()[-1]) for line in report.splitlines() if line.startswith("end "))
    program.run(day, "takedown", "did:plc:fay", "2025-01-02T00:00:00Z")
    program.run(day, "cut", str(CUT))
    (day / "generation").write_text("1\n")
    before = {path.name: path.read_bytes() for path in day.iterdir() if path.is_file()}
    status, out, err = run("status", day, "--json", "--relay", program.PROGRAM)
    same((status, err), (0, ""), "the status")
    same({path.name: path.read_bytes() for path in day.iterdir() if path.is_file()}, before, "the files")
    told = json.loads(out)
    same((told["folder"], told["held"], told["generation"], told["last"]), (str(day), False, 1, last + 1), "the journal")
    expect(CUT < told["oldest"] <= last and told["events"] <= last + 1 - CUT, out)
    same(told["files"], {name: (day / name).stat().st_size for name in ("log", "log.2")}, "the sizes")
    hosts = [f"{name} {cursor}" for name, cursor in told["hosts"].items()]
    same(hosts, program.run(day, "hosts")[1].decode().splitlines()[:-1], "the hosts")
    lines = [line.split() for name in ("plc.1", "web.1") for line in (day / name).read_text().splitlines()]
    dids = dict.fromkeys(did for word, did, *_ in lines if word == "home")
    words = [program.run(day, "account", did)[1].decode().split() for did in dids]
    states = {"down": sum(each[3] == "down" for each in words), "lost": sum(each[3:5] == ["up", "lost"] for each in words)}
    same({name: told["accounts"]["states"].get(name) for name in states}, states, "the accounts")
    expect(all(states.values()), "no account of the sample is down, or none is lost")
    same((told["accounts"]["known"], told["accounts"]["asked"]), (len(dids), len(dids)), "who was asked for")


@ROWS.row("status: its lines")
def status_lines(folder):
    program_of = folder / "relay"
    program_of.write_text("""#!/bin/sh
case "$2 $3" in
"hosts ") printf 'a.example 7\\nb.example 9\\nend 2\\n' ;;
"replay 0") ;;
"account did:plc:a") echo 'did:plc:a active - up good 3lenayocqg222 bafya bafyb' ;;
"account did:plc:b") echo 'did:plc:b inactive deactivated up good 3lenayocqg222 bafya bafyb' ;;
"account did:plc:c") echo 'did:plc:c active - up none' ;;
"account did:plc:d") echo 'did:plc:d active - down lost 3lenayocqg222' ;;
*) exit 2 ;;
esac
""")
    program_of.chmod(0o755)
    (folder / "log").write_bytes(b"0123456789")
    (folder / "plc.1").write_text("".join(f"home did:plc:{name} a.example\n" for name in "abcda"))
    status, out, err = run("status", folder, "--relay", program_of)
    same((status, err), (0, ""), "the status")
    lines = [f"folder {folder}", "held no", "file log 10", "generation 0", "oldest -", "last -", "events 0", "hosts 2", "host a.example 7",
             "host b.example 9", "accounts 4 asked 4", "account down 1", "account good 1", "account inactive-deactivated 1", "account without 1"]
    same(out.splitlines()[:-1], lines, "the lines")
    expect(out.splitlines()[-1].startswith("disk free "), out)


@ROWS.row("status: a folder that another run holds, and one without a journal")
def held_folder(folder):
    same(run("status", folder, "--relay", folder / "nobody")[0], 0, "a folder without a journal")
    same(list(folder.iterdir()), [], "what stands in it then")
    (folder / "log").write_bytes(b"0123456789")
    with open(folder / "log", "rb") as log:
        fcntl.flock(log, fcntl.LOCK_EX)
        status, out, err = run("status", folder, "--relay", folder / "nobody")
        same((status, err), (0, ""), "the status")
        expect("held yes\nfile log 10\n" in out and "\nhosts -\naccounts -\n" in out, out)
        same(json.loads(run("status", folder, "--json", "--relay", folder / "nobody")[1])["hosts"], None, "the hosts")
        fcntl.flock(log, fcntl.LOCK_SH)
        same(run("status", folder, "--relay", "/bin/false")[0], NO_RELAY, "where one only reads it, the relay is asked")
