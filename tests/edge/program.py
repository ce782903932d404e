"""Rows of the program at the machine's edge: descriptors, locks, files, tables, repositories, and what a run says of its end."""
import contextlib
import fcntl
import hashlib
import os
import pathlib
import re
import shutil
import signal
import socket
import subprocess
import sys
import tempfile
import time

HERE = pathlib.Path(__file__).resolve().parent
sys.path[:0] = [str(HERE.parent), str(HERE)]
import program  # noqa: E402
from rows import LeftOut, Rows, expect, needs, same  # noqa: E402

ROWS = Rows()
TAPE = (program.SAMPLES / "tape").read_bytes()
REPORT = (program.SAMPLES / "report").read_bytes()
LAST = int(REPORT.split()[-1])
ADA = "did:plc:ada"
NOW = "2026-01-31T12:00:00Z"
NOBODY = 65534
TIMEOUT = 120
WORDS = {
    "hosts": ["hosts"],
    "account": ["account", ADA],
    "replay": ["replay", "0"],
    "lines": ["lines", "0", "-"],
    "takedown": ["takedown", ADA, NOW],
    "restore": ["restore", ADA, NOW],
    "sync": ["sync", ADA, NOW],
    "cut": ["cut", "100"],
    "ingest": ["ingest"],
}


def fresh(folder):
    """A folder as the sample has it, without a journal."""
    day = folder / "day"
    shutil.copytree(program.SAMPLES / "relay", day)
    return day


def taken(folder):
    """A folder whose journal has the sample's tape."""
    day = fresh(folder)
    done = relay(day, "ingest", given=TAPE)
    same(done.returncode, 0, "the sample's ingest")
    return day


def relay(folder, *words, given=b"", command=program.PROGRAM, **options):
    """A run with its three streams apart."""
    return subprocess.run([command, folder, *words], input=given, stdout=subprocess.PIPE, stderr=subprocess.PIPE,
                          timeout=TIMEOUT, check=False, **options)


def content(folder):
    """The bytes of all regular files below a folder, by their paths."""
    return {str(path.relative_to(folder)): path.read_bytes() for path in sorted(folder.rglob("*")) if path.is_file()}


def with_closed(folder, words, descriptors, given=b""):
    """The status of a run some of whose standard descriptors are closed."""
    def close():
        for descriptor in descriptors:
            os.close(descriptor)
    streams = {"stdin": subprocess.PIPE, "stdout": subprocess.PIPE, "stderr": subprocess.PIPE}
    child = subprocess.Popen([program.PROGRAM, folder, *words], preexec_fn=close, close_fds=True, **streams)
    with contextlib.suppress(BrokenPipeError):
        child.stdin.write(given)
    with contextlib.suppress(BrokenPipeError):
        child.stdin.close()
    out, err = child.stdout.read(), child.stderr.read()
    return child.wait(TIMEOUT), out, err


def one_line(done, status, *parts):
    """Sees that a run ended with a status, and reported it in one line that has these parts."""
    lines = done.stderr.decode().splitlines()
    same(done.returncode, status, f"the status, with {lines}")
    same(len(lines), 1, f"lines on standard error: {lines}")
    expect(lines[0].startswith("relay"), f"no name of the program: {lines[0]!r}")
    for part in parts:
        expect(part in lines[0], f"{part!r} is missing in {lines[0]!r}")


# Standard descriptors

@ROWS.row("closed output")
def closed_output(folder):
    day = taken(folder)
    before = content(day)
    for name, words in WORDS.items():
        status, _, err = with_closed(day, words, [1], TAPE if name == "ingest" else b"")
        same(status, 4, f"the status of {name}")
        expect(b"standard output: it is closed" in err, f"{name} says {err!r}")
        expect(content(day) == before, f"{name} changed a file")
    for words in (["check"], ["mirror"], ["trial", "1", "10"]):
        same(with_closed(day, words, [1])[0], 4, f"the status of {words}")


@ROWS.row("closed input")
def closed_input(folder):
    day = taken(folder)
    before = content(day)
    for words in (["ingest"], ["check"], ["mirror"]):
        status, out, err = with_closed(day, words, [0])
        same((status, out), (3, b""), f"{words}")
        expect(b"standard input: it is closed" in err, f"{words} says {err!r}")
    same(with_closed(day, ["hosts"], [0])[0], 0, "the status of hosts, which reads no input")
    for words in (["ingest", "now"], ["check", "1"], ["mirror", day], ["nonsense"]):
        status, out, err = with_closed(day, words, [0])
        same((status, out), (2, b""), f"{words}, which are no command")
        expect(b"usage" in err, f"{words} says {err!r}")
    expect(content(day) == before, "a file changed")


@ROWS.row("closed error output")
def closed_error(folder):
    day = taken(folder)
    before = content(day)
    for words in (["hosts"], ["takedown"], ["nonsense"]):
        with_closed(day, words, [2])
        with_closed(day, words, [0, 2])
    expect(content(day) == before, "a file changed")


@ROWS.row("closed input and output after a cut")
def closed_both_after_cut(folder):
    day = taken(folder)
    same(relay(day, "cut", "100").returncode, 0, "cut")
    same(relay(day, "takedown", ADA, NOW).stdout, b"event %d\n" % (LAST + 1), "takedown")
    same(with_closed(day, ["hosts"], [0, 1])[0], 4, "hosts without input and output")
    same(relay(day, "restore", ADA, NOW).stdout, b"event %d\n" % (LAST + 2), "the number after that")


# Two runs

class Waiting:
    """An `ingest` that waits for its tape, and holds the folder."""

    def __init__(self, day):
        self.child = subprocess.Popen([program.PROGRAM, day, "ingest"], stdin=subprocess.PIPE, stdout=subprocess.PIPE,
                                      stderr=subprocess.PIPE)
        deadline = time.monotonic() + TIMEOUT
        while not self.is_locked(day / "log"):
            expect(time.monotonic() < deadline, "the waiting run took no lock")
            time.sleep(0.05)

    @staticmethod
    def is_locked(path):
        try:
            with open(path, "rb") as file:
                fcntl.flock(file, fcntl.LOCK_SH | fcntl.LOCK_NB)
        except (BlockingIOError, FileNotFoundError):
            return path.exists()
        return False

    def end(self, given):
        out, err = self.child.communicate(given, TIMEOUT)
        return self.child.returncode, out, err


@ROWS.row("two runs on a folder")
def two_runs(folder):
    day = fresh(folder)
    waiting = Waiting(day)
    for name in ("takedown", "hosts", "replay", "cut", "ingest"):
        one_line(relay(day, *WORDS[name]), 5, "log", "another run is working on this folder")
    status, out, _ = waiting.end(TAPE)
    same((status, out), (0, REPORT), "the run that came first")
    same(relay(day, "takedown", ADA, NOW).stdout, b"event %d\n" % (LAST + 1), "takedown after that")


@ROWS.row("runs that read share a folder")
def readers_share(folder):
    day = taken(folder)
    with open(day / "log", "rb") as log:
        fcntl.flock(log, fcntl.LOCK_SH)
        same(relay(day, "hosts").returncode, 0, "hosts beside another reader")
        one_line(relay(day, "takedown", ADA, NOW), 5, "another run is working on this folder")


@ROWS.row("one file for log and log.2")
def same_file(folder):
    for make in (os.link, os.symlink):
        day = taken(folder / make.__name__)
        (day / "log.2").unlink()
        make(day / "log", day / "log.2")
        before = content(day)
        for words in (["hosts"], ["cut", "100"], ["ingest"]):
            one_line(relay(day, *words), 5, "log.2", "the same file")
        expect(content(day) == before, "a file changed")


# The folder and its files

@ROWS.row("the folder's name")
def folder_names(folder):
    one_line(relay("", "hosts"), 2, "the name of the folder is empty")
    one_line(relay(folder / "none", "hosts"), 5, "none", "there is no such folder")
    (folder / "file").write_text("")
    one_line(relay(folder / "file", "ingest"), 5, "file", "no folder")
    one_line(relay(b"D\xe9", "hosts"), 2, "UTF-8")
    expect(not (folder / "none").exists(), "a folder was made")


@ROWS.row("where there is no journal")
def no_journal(folder):
    for name in ("hosts", "account", "replay", "lines", "takedown"):
        day = fresh(folder / name)
        done = relay(day, *WORDS[name])
        same(done.returncode, 0, f"the status of {name}")
        expect(b"there is no journal here: this run begins one" in done.stderr, f"{name} says {done.stderr!r}")
        same(relay(day, "hosts").stderr, b"", f"hosts on the journal that {name} began")
    day = fresh(folder / "emptied")
    (day / "log").write_bytes(b"")
    expect(b"this run begins one" in relay(day, "ingest").stderr, "an emptied log was begun anew without a word")


@ROWS.row("a log that is a link to nothing")
def dangling_log(folder):
    day = fresh(folder)
    (day / "log").symlink_to(folder / "volume" / "log")
    for words in (["hosts"], ["ingest"]):
        one_line(relay(day, *words), 5, "log", "a link to a file that is not there")
    expect(not (folder / "volume").exists() and not (day / "log.2").exists(), "a file was made")


@ROWS.row("odd files as a log")
def odd_logs(folder):
    day = fresh(folder)
    log = day / "log"
    os.mkfifo(log)
    one_line(relay(day, "hosts"), 5, "log", "no regular file")
    log.unlink()
    log.mkdir()
    one_line(relay(day, "ingest"), 5, "log", "no regular file")


def as_nobody():
    os.setgid(NOBODY)
    os.setuid(NOBODY)


@contextlib.contextmanager
def readable():
    """A folder that anybody may reach, but only its owner may write, and a copy of the program there."""
    if os.getuid() != 0:
        raise LeftOut("rights are tried as root only")
    with contextlib.ExitStack() as stack:
        made = pathlib.Path(stack.enter_context(tempfile.TemporaryDirectory(dir="/tmp")))
        made.chmod(0o755)
        copy = made / "relay"
        shutil.copy(program.PROGRAM, copy)
        copy.chmod(0o755)
        yield made, copy


@ROWS.row("a folder that may only be read")
def read_only_folder(folder):
    with readable() as (made, copy):
        day = taken(made)
        day.chmod(0o555)
        for path in day.rglob("*"):
            path.chmod(0o555 if path.is_dir() else 0o444)
        for name in ("hosts", "account", "replay", "lines"):
            here, there = relay(day, *WORDS[name]), relay(day, *WORDS[name], command=copy, preexec_fn=as_nobody)
            same((there.returncode, there.stdout, there.stderr), (0, here.stdout, b""), f"{name} as nobody")
        for name in ("ingest", "takedown", "cut"):
            one_line(relay(day, *WORDS[name], command=copy, preexec_fn=as_nobody), 5, "log", "Permission denied")
        (day / "log").chmod(0)
        one_line(relay(day, "hosts", command=copy, preexec_fn=as_nobody), 5, "log", "Permission denied")
        (day / "log").chmod(0o444)
        for content_of_log in (None, b"", b"\x01atrel"):
            (day / "log").unlink(missing_ok=True)
            (day / "log.2").unlink(missing_ok=True)
            if content_of_log is not None:
                (day / "log").write_bytes(content_of_log)
            before = content(day)
            done = relay(day, "hosts", command=copy, preexec_fn=as_nobody)
            same((done.returncode, done.stdout), (0, b"end 0\n"), f"hosts on a log of {content_of_log}")
            expect(b"it is read as an empty one, and nothing is written" in done.stderr, f"it says {done.stderr!r}")
            expect(content(day) == before, "a file changed")


@ROWS.row("a journal that is replaced while a run works")
def replaced_journal(folder):
    for how in ("replace", "remove"):
        day = fresh(folder / how)
        waiting = Waiting(day)
        if how == "replace":
            shutil.copy(day / "log", day / "copy")
            os.replace(day / "copy", day / "log")
        else:
            (day / "log").unlink()
        status, out, err = waiting.end(TAPE)
        same(status, 5, f"the status after {how}")
        expect(b"removed or replaced while this run worked" in err, f"the run says {err!r}")
        expect(b" event " not in out, "a row was acknowledged in a file without a name")


@ROWS.row("a folder that is removed while a run works")
def removed_folder(folder):
    day = fresh(folder)
    waiting = Waiting(day)
    shutil.rmtree(day)
    status, out, err = waiting.end(TAPE)
    expect(status in (5, 6), f"the status: {status}")  # the log or the tables are missed first
    expect(err != b"" and b" event " not in out, f"it says {err!r} and prints {out!r}")


@ROWS.row("the generation that a cut reached")
def generation(folder):
    day = taken(folder)
    older = content(day)
    same(relay(day, "cut", "100").returncode, 0, "cut")
    same((day / "generation").read_text(), "1\n", "the generation on record")
    expect(not (day / "generation.new").exists(), "a temporary file was left")
    newest = content(day)
    for name in ("log", "log.2"):
        if newest[name] == older.get(name):
            kept, lost = name, {"log": "log.2", "log.2": "log"}[name]
    (day / lost).unlink()
    before = content(day)
    for words in (["hosts"], ["ingest"], ["takedown", ADA, NOW]):
        one_line(relay(day, *words), 10, "generation 0", "reached 1", "put the newer log back")
    expect((day / kept).read_bytes() == before[kept], "the older log changed")
    (day / lost).write_bytes(newest[lost])
    same(relay(day, "hosts").returncode, 0, "hosts with the newer log put back")
    (day / "generation").write_text("one\n")
    one_line(relay(day, "hosts"), 5, "generation", "no number")


@ROWS.row("a full disk")
def full_disk(folder):
    if os.getuid() != 0:
        raise LeftOut("a file system is mounted as root only")
    disk = folder / "disk"
    disk.mkdir()
    if subprocess.run(["mount", "-t", "tmpfs", "-o", "size=64k", "none", disk], check=False).returncode != 0:
        raise LeftOut("no file system can be mounted here")
    try:
        day = disk / "day"
        shutil.copytree(program.SAMPLES / "relay", day, ignore=shutil.ignore_patterns("repos"))
        done = relay(day, "ingest", given=TAPE)
        same(done.returncode, 5, "the status")
        expect(b"log: No space left on device" in done.stderr, f"the run says {done.stderr!r}")
        subprocess.run(["mount", "-o", "remount,ro", disk], check=True)
        one_line(relay(day, "takedown", ADA, NOW), 5, "Read-only file system")
        same(relay(day, "hosts").returncode, 0, "hosts on a file system that is read-only")
    finally:
        subprocess.run(["umount", disk], check=False)


# Tables and repositories

@ROWS.row("a table's line that is wrong")
def bad_line(folder):
    day = fresh(folder)
    with open(day / "plc.1", "a", encoding="utf-8") as table:
        table.write("home did:plc:ada\n")
    number = len((day / "plc.1").read_text().splitlines())
    (day / "plc.2").unlink(missing_ok=True)
    done = relay(day, "ingest", given=TAPE)
    same(done.returncode, 6, "the status")
    expect(f"plc.1: line {number} is not a line of a table".encode() in done.stderr, f"the run says {done.stderr!r}")
    expect(b"plc.2: No such file" in done.stderr, f"the run says {done.stderr!r}")


@ROWS.row("a table with its sum")
def table_sum(folder):
    day = fresh(folder)
    table = day / "plc.1"
    whole = table.read_bytes()
    (day / "plc.1.sum").write_text(f"{len(whole)} {hashlib.sha256(whole).hexdigest()}\n")
    same(relay(day, "ingest", given=TAPE).stdout, REPORT, "a table that is as its sum says")
    for part in (b"", b"".join(whole.splitlines(keepends=True)[:-1])):
        table.write_bytes(part)
        (day / "plc.2").write_bytes(part)
        (day / "plc.2.sum").write_bytes((day / "plc.1.sum").read_bytes())
        shutil.rmtree(day / "again", ignore_errors=True)
        shutil.copytree(day, day / "again", ignore=shutil.ignore_patterns("log*", "again"))
        done = relay(day / "again", "ingest", given=TAPE)
        same(done.returncode, 6, "the status with a table that was cut")
        expect(b"plc.1: its length and digest are not those of its .sum file" in done.stderr, f"the run says {done.stderr!r}")


def opened(strace_log, name):
    """How often a file of this name was opened."""
    return len(re.findall(rf'openat\([^\n]*{re.escape(name)}"[^\n]*= \d+', strace_log.read_text()))


@ROWS.row("a table is read again only where it changed")
def table_read_once(folder):
    strace = needs("strace")
    day = fresh(folder)
    old = time.time() - 60
    for table in day.glob("*.?"):
        os.utime(table, (old, old))
    log = folder / "calls"
    done = subprocess.run([strace, "-f", "-e", "trace=openat", "-o", log, program.PROGRAM, day, "ingest"], input=TAPE,
                          stdout=subprocess.PIPE, stderr=subprocess.PIPE, timeout=TIMEOUT, check=False)
    same(done.stdout, REPORT, "the report")
    same(opened(log, "plc.1"), 1, "how often plc.1 was read, with 23 messages of #identity")


@ROWS.row("odd files as tables")
def odd_tables(folder):
    for make in (os.mkfifo, os.mkdir):
        day = fresh(folder / make.__name__)
        for name in ("plc.1", "plc.2"):
            (day / name).unlink(missing_ok=True)
            make(day / name)
        done = relay(day, "ingest", given=TAPE)
        same(done.returncode, 6, "the status")
        expect(b"plc.1: this is no regular file" in done.stderr, f"the run says {done.stderr!r}")


@ROWS.row("odd files as repositories")
def odd_repositories(folder):
    plain = fresh(folder / "plain")
    shutil.rmtree(plain / "repos")
    (plain / "repos").mkdir()
    wanted = relay(plain, "ingest", given=TAPE)
    same(wanted.returncode, 0, "the status without repositories")
    names = [path.name for path in (program.SAMPLES / "relay" / "repos").iterdir()]

    def bind(path):
        with socket.socket(socket.AF_UNIX) as made:
            made.bind(str(path))
    makes = {"fifo": os.mkfifo, "folder": os.mkdir, "socket": bind, "loop": lambda path: os.symlink(path, path)}
    for kind, make in makes.items():
        day = fresh(folder / kind)
        shutil.rmtree(day / "repos")
        (day / "repos").mkdir()
        here = os.getcwd()
        os.chdir(day / "repos")
        for name in names:
            make(name)
        os.chdir(here)
        done = relay(day, "ingest", given=TAPE)
        same((done.returncode, done.stdout), (0, wanted.stdout), f"a {kind} in place of each repository")
        expect(b"counts as no repository" in done.stderr, f"a {kind}: {done.stderr!r}")


# Streams

@ROWS.row("streams that don't wait")
def non_blocking(folder):
    day = taken(folder)
    wanted = relay(day, "replay", "0").stdout
    reader, writer = os.pipe()
    os.set_blocking(writer, False)
    with open(reader, "rb") as source:
        child = subprocess.Popen([program.PROGRAM, day, "replay", "0"], stdout=writer, stderr=subprocess.PIPE)
        os.close(writer)
        time.sleep(0.5)
        same(source.read(), wanted, "the replay into a pipe that doesn't wait")
    same((child.wait(TIMEOUT), child.stderr.read()), (0, b""), "its end")
    day = fresh(folder / "second")
    reader, writer = os.pipe()
    os.set_blocking(reader, False)
    child = subprocess.Popen([program.PROGRAM, day, "ingest"], stdin=reader, stdout=subprocess.PIPE)
    os.close(reader)
    time.sleep(0.5)
    with open(writer, "wb") as sink:
        sink.write(TAPE)
    same(child.communicate(timeout=TIMEOUT)[0], REPORT, "the report of a tape from a pipe that doesn't wait")


@ROWS.row("output and input that fail")
def failing_streams(folder):
    day = taken(folder)
    with open("/dev/full", "wb") as full:
        done = subprocess.run([program.PROGRAM, day, "hosts"], stdout=full, stderr=subprocess.PIPE, check=False)
    one_line(done, 4, "standard output", "No space left on device")
    source = os.open(folder, os.O_RDONLY)
    done = subprocess.run([program.PROGRAM, day, "ingest"], stdin=source, stdout=subprocess.PIPE, stderr=subprocess.PIPE, check=False)
    os.close(source)
    one_line(done, 3, "standard input", "Is a directory")
    one_line(relay(day, "ingest", given=b"rubbish on a tape"), 1, "standard input", "byte 0")


# Words

@ROWS.row("words that are no command")
def wrong_words(folder):
    day = fresh(folder)
    rows = {
        ("nonsense",): "'nonsense' is no command",
        ("ingest", "x"): "ingest",
        ("replay",): "replay CURSOR",
        ("replay", "01"): "'01' is not a number from 0 to 9007199254740991",
        ("serve", "0"): "'0' is not a number from 1 to 1000000",
        ("account", "notadid"): "'notadid' is not a DID",
        ("follow", "localhost:2583"): "follow HOST N",
        ("takedown", ADA, ""): "'' is not a time",
        ("lines", "0", "notannsid x"): "is not a collection",
    }
    for words, part in rows.items():
        done = relay(day, *words)
        one_line(done, 2, part)
        same(done.stdout, b"", f"the output of {words}")
    same(sorted(content(day)), sorted(content(program.SAMPLES / "relay")), "the files")


@ROWS.row("help and version")
def texts(folder):
    for word in ("-h", "help", "--help"):
        done = subprocess.run([program.PROGRAM, word], capture_output=True, check=False)
        same((done.returncode, done.stderr), (0, b""), f"{word}")
        expect(done.stdout.startswith(b"usage: relay DIR WORDS\n"), f"{word} prints {done.stdout[:40]!r}")
    for word in ("version", "--version"):
        done = subprocess.run([program.PROGRAM, word], capture_output=True, check=False)
        expect(done.returncode == 0 and re.fullmatch(rb"Jupwachay relay \d+\.\d+\.\d+\n", done.stdout), f"{word}: {done}")
    done = subprocess.run([program.PROGRAM], capture_output=True, check=False)
    same((done.returncode, done.stdout), (2, b""), "no words")
    expect(done.stderr.startswith(b"usage: relay DIR WORDS\n"), f"no words: {done.stderr[:40]!r}")


@ROWS.row("a time that consumers can't read")
def odd_time(folder):
    day = taken(folder)
    done = relay(day, "takedown", ADA, "yesterday")
    same((done.returncode, done.stdout), (0, b"event %d\n" % (LAST + 1)), "takedown")
    expect(b"yesterday: this is no time" in done.stderr, f"it says {done.stderr!r}")
    same(relay(day, "restore", ADA, "2026-01-31T12:00:00.123+01:00").stderr, b"", "a time with an offset")


@ROWS.row("follow without a table that names the host")
def follow_stranger(folder):
    day = fresh(folder)
    with socket.socket() as free:
        free.bind(("127.0.0.1", 0))
        host = f"localhost:{free.getsockname()[1]}"
    done = relay(day, "follow", host, "1")
    same(done.returncode, 8, "the status")
    expect(f"{host}: no table names this host as a home".encode() in done.stderr, f"it says {done.stderr!r}")


# The order of calls

CALL = re.compile(r"^(?:\d+ )?(\w+)\((.*?)\)\s+= (-?\d+)", re.S)


def calls_of(folder, day, words, given):
    """The calls of a run that open, write, sync and close, as pairs of a verb and a file of the folder, in their order."""
    strace = needs("strace")
    log = folder / "calls"
    traced = "trace=openat,open,pwrite64,write,fsync,ftruncate,close,rename"
    done = subprocess.run([strace, "-f", "-e", traced, "-s", "40", "-o", log, program.PROGRAM, day, *words], input=given,
                          stdout=subprocess.PIPE, stderr=subprocess.PIPE, timeout=TIMEOUT, check=False)
    same(done.returncode, 0, f"{words} under strace")
    files, found = {1: "report"}, []
    for line in log.read_text().splitlines():
        match = CALL.match(re.sub(r"^\d+ +", "", line))
        if not match:
            continue
        verb, args, answer = match[1], match[2], int(match[3])
        if verb in ("openat", "open") and answer >= 0:
            path = re.search(r'"([^"]*)"', args)[1]
            if pathlib.Path(path) == day or pathlib.Path(path).parent == day:
                files[answer] = "folder" if pathlib.Path(path) == day else pathlib.Path(path).name
                found.append(("create" if "O_CREAT" in args else "open", files[answer]))
        elif verb == "close":
            files.pop(int(args), None) if args.isdigit() and int(args) > 2 else None
        elif verb == "rename":
            found.append(("rename", re.findall(r'"([^"]*)"', args)[1].rsplit("/", 1)[-1]))
        else:
            descriptor = args.split(",")[0]
            if descriptor.isdigit() and int(descriptor) in files:
                found.append((verb, files[int(descriptor)]))
    return found


@ROWS.row("the order of calls of an ingest")
def order_of_ingest(folder):
    day = fresh(folder)
    calls = calls_of(folder, day, ["ingest"], TAPE)
    made = [place for place, call in enumerate(calls) if call[0] == "create"]
    same(len(made), 2, "files that were made")
    synced = calls.index(("fsync", "folder"))
    first = next(place for place, call in enumerate(calls) if call[0] == "pwrite64")
    expect(max(made) < synced < first, "the folder is not synced between the making of the files and the first write")
    dirty = False
    for verb, file in calls:
        if (verb, file) == ("pwrite64", "log"):
            dirty = True
        elif (verb, file) == ("fsync", "log"):
            dirty = False
        elif (verb, file) == ("write", "report"):
            expect(not dirty, "a line was written while a write of the log was not synced")
    expect(not dirty, "the last write was not synced")


@ROWS.row("the order of calls of a cut")
def order_of_cut(folder):
    day = taken(folder)
    calls = calls_of(folder, day, ["cut", "100"], b"")
    writes = [place for place, call in enumerate(calls) if call == ("pwrite64", "log.2")]
    line = next(place for place, call in enumerate(calls) if call == ("write", "report"))
    expect(writes and all(place < line for place in writes), "the line was written before the new log")
    expect(("fsync", "log.2") in calls[max(writes):line], "the new log was not synced before the line")
    renamed = calls.index(("rename", "generation"))
    expect(renamed > line, "the generation was put on record before the cut was done")
    expect(("fsync", "folder") in calls[renamed:], "the folder was not synced after the generation was put on record")
    expect(not any(call[0] in ("pwrite64", "ftruncate") and call[1] == "log" for call in calls), "the older log was written")


@ROWS.row("the order of calls of an opening")
def order_of_opening(folder):
    day = taken(folder)
    calls = calls_of(folder, day, ["hosts"], b"")
    expect(not any(call[0] in ("pwrite64", "ftruncate", "create", "rename") for call in calls), f"hosts wrote: {calls}")
    expect(calls.index(("fsync", "log")) < calls.index(("write", "report")), "hosts printed before the log was synced")


# Calls that fail

@ROWS.row("what was written before a sync that failed")
def failed_sync(folder):
    strace = needs("strace")
    plain = REPORT.splitlines(keepends=True)
    day = fresh(folder)
    inject = "inject=fsync:error=EIO:when=7"
    done = subprocess.run([strace, "-f", "-o", os.devnull, "-e", "trace=fsync", "-e", inject, program.PROGRAM, day, "ingest"],
                          input=TAPE, stdout=subprocess.PIPE, stderr=subprocess.PIPE, timeout=TIMEOUT, check=False)
    same(done.returncode, 5, "the status of the run whose sync failed")
    same(done.stdout.splitlines(keepends=True), plain[: done.stdout.count(b"\n")], "what it printed")
    expect((day / "log.unsynced").exists(), "the failed sync left no mark")
    before = (day / "log").read_bytes()
    calls = calls_of(folder, day, ["hosts"], b"")
    writes = [place for place, call in enumerate(calls) if call == ("pwrite64", "log")]
    line = calls.index(("write", "report"))
    expect(writes and max(writes) < line, "the log was not written again before the report")
    expect(("fsync", "log") in calls[max(writes):line], "the log was not synced after it was written again")
    expect(not (day / "log.unsynced").exists(), "the mark stays")
    same((day / "log").read_bytes(), before, "the content of the log")
    same(int(relay(day, "ingest", given=TAPE).stdout.split()[-1]), LAST, "the last number after another run")


@ROWS.row("calls that fail on the way")
def failing_calls(folder):
    strace = needs("strace")
    plain = REPORT.splitlines(keepends=True)
    for call, error in (("fsync", "EIO"), ("pwrite64", "ENOSPC"), ("pwrite64", "EIO"), ("flock", "ENOLCK")):
        for when in (1, 2, 5):
            day = fresh(folder / f"{call}-{error}-{when}")
            inject = f"inject={call}:error={error}:when={when}"
            done = subprocess.run([strace, "-f", "-o", os.devnull, "-e", f"trace={call}", "-e", inject, program.PROGRAM, day, "ingest"],
                                  input=TAPE, stdout=subprocess.PIPE, stderr=subprocess.PIPE, timeout=TIMEOUT, check=False)
            if done.returncode == 0:
                same(done.stdout, REPORT, f"{inject}, which came after the last call")
                continue
            same(done.returncode, 5, f"the status of {inject}")
            lines = done.stdout.splitlines(keepends=True)
            same(lines, plain[: len(lines)], f"what {inject} printed")
            expect(day.name.encode() in done.stderr and b"os error" in done.stderr, f"{inject} says {done.stderr!r}")
            last = relay(day, "ingest", given=TAPE).stdout.split()[-1]
            same(int(last), LAST, f"the last number after {inject} and another run")


# Signals

@ROWS.row("a run that a signal ends")
def ended_by_signal(folder):
    for number in (signal.SIGTERM, signal.SIGINT):
        day = fresh(folder / number.name)
        child = subprocess.Popen([program.PROGRAM, day, "ingest"], stdin=subprocess.PIPE, stdout=subprocess.PIPE,
                                 stderr=subprocess.PIPE)
        child.stdin.write(TAPE)
        child.stdin.flush()
        first = child.stdout.readline()
        child.send_signal(number)
        lines = [first, *child.stdout.read().splitlines(keepends=True)]
        same(child.wait(TIMEOUT), -number, "the status")
        same(lines, REPORT.splitlines(keepends=True)[: len(lines)], "the lines before the end")
        again = relay(day, "ingest", given=TAPE).stdout.splitlines(keepends=True)
        for line, once_more in zip(lines, again):
            if b" event " in line:
                expect(once_more.endswith(b" old\n"), f"{line!r} was printed, and its message is taken again: {once_more!r}")
        same(int(again[-1].split()[-1]), LAST, "the last number after another run")


# A relay that follows another one

def chain(first, second, *words, **options):
    """A run of relay_chain."""
    path = pathlib.Path(os.environ.get("CHAIN_PROGRAM", program.TOP / "crates/relay_chain/out/relay_chain"))
    if not path.exists():
        raise LeftOut("relay_chain is not built")
    return subprocess.run([path, first, second, *words], stdin=subprocess.DEVNULL, stdout=subprocess.PIPE, stderr=subprocess.PIPE,
                          timeout=TIMEOUT, check=False, **options)


@ROWS.row("a second relay on the first one's folder")
def chain_on_itself(folder):
    day = taken(folder)
    before = content(day)
    one_line(chain(day, day, "relay.example"), 5, "journal")
    (folder / "link").symlink_to(day)
    one_line(chain(day, folder / "link", "relay.example"), 5, "journal")
    other = folder / "other"
    other.mkdir()
    os.link(day / "log", other / "log.2")
    one_line(chain(day, other, "relay.example"), 5, "log.2")
    expect(content(day) == before and not (other / "log").exists(), "a file changed")


@ROWS.row("a second relay at the edge")
def chain_at_the_edge(folder):
    day = taken(folder)
    second = folder / "second"
    second.mkdir()
    before = content(day)
    done = chain(day, second, "relay.example", preexec_fn=lambda: os.close(1))
    same(done.returncode, 4, "the status without an output")
    same(list(second.iterdir()), [], "files of the second folder")
    one_line(chain(day, folder / "none", "relay.example"), 5, "there is no such folder")
    one_line(chain(day, second, "no host"), 2, "HOST")
    waiting = Waiting(second)
    one_line(chain(day, second, "relay.example"), 5, "another run is working on this folder")
    waiting.end(b"")
    done = chain(day, second, "relay.example")
    same(done.returncode, 0, f"the status, with {done.stderr!r}")
    expect(content(day) == before, "the first journal changed")
