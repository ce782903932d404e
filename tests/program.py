"""What scripts of tests and of bench share: the program `relay`, tapes, tables, and what a run takes.

As a program of its own (`program.py TOLD COMMAND..`) it runs a command and writes to the file TOLD the seconds of processor
time and the peak of memory in bytes: the system counts to a child the memory of whoever started it, which is little here.
Programs are those of the sources as they stand: the proved ones where they stand, else compiled ones (tools/compile). The
variables RELAY_PROGRAM, CHAIN_PROGRAM, MEASURES_PROGRAM and EDGE_RUN_PROGRAM of the environment name others.
"""
import functools
import os
import pathlib
import re
import resource
import shutil
import socket
import subprocess
import sys
import tempfile
import time
from collections import namedtuple

TOP = pathlib.Path(__file__).resolve().parent.parent
VARIABLES = {"relay_cli": "RELAY_PROGRAM", "relay_chain": "CHAIN_PROGRAM", "measures": "MEASURES_PROGRAM", "edge_run": "EDGE_RUN_PROGRAM"}
TIME, VALGRIND = map(shutil.which, ("time", "valgrind"))
Spent = namedtuple("Spent", "passed seconds peak")  # by the wall, of processor time, and bytes of memory
SAMPLES = TOP / "samples"
HEADS = ("file", "without", "run", "input", "prints", "ends", "left")  # of the parts of a history


@functools.cache
def built(name):
    """The program of a crate."""
    if VARIABLES[name] in os.environ:
        return pathlib.Path(os.environ[VARIABLES[name]])
    found = subprocess.run([TOP / "tools/compile", name], stdin=subprocess.DEVNULL, stdout=subprocess.PIPE, text=True, check=False)
    if found.returncode:
        sys.exit(125)
    return pathlib.Path(found.stdout.strip())


def __getattr__(name):
    """`PROGRAM` is the relay's program, which is looked for once a script asks."""
    if name == "PROGRAM":
        return built("relay_cli")
    raise AttributeError(name)


def stop_unless_proved():
    """Ends the script where the relay's program isn't proved, unless one was named: what is measured is what is proved."""
    found = subprocess.run([TOP / "relay", "--which"], stdout=subprocess.PIPE, text=True, check=False).stdout
    if "RELAY_PROGRAM" not in os.environ and not {"proved yes", "sources as they stand"} <= {*found.splitlines()}:
        sys.exit("no proved program of these sources stands: ./relay --prove makes it")


def run(*words, given=b"", command=None, **options):
    """The status of a run, and what it wrote to standard output."""
    return told(*words, given=given, command=command, **options)[:2]


def told(*words, given=b"", command=None, **options):
    """The status of a run, and what it wrote to standard output and to standard error."""
    done = subprocess.run([command or built("relay_cli"), *words], input=given, capture_output=True, check=False, **options)
    return done.returncode, done.stdout, done.stderr


def is_reported(status, said):
    """Whether standard error has what a run says that ends so: lines of the program, and one at least unless it ended with 0."""
    lines = said.decode().splitlines()
    return all(re.match("relay(_chain)?: .", line) for line in lines) and (status == 0 or bool(lines))


def measured(folder, *words, given=b"", command=None):
    """The status and the output of a run, the seconds of processor time that it took, and its peak of memory in bytes."""
    with tempfile.NamedTemporaryFile("r") as told:
        launcher = [sys.executable, "-I", "-S", __file__, told.name]
        done = subprocess.run([*launcher, command or built("relay_cli"), folder, *words], input=given, capture_output=True, check=False)
        if done.returncode:
            sys.stderr.buffer.write(done.stderr)
        seconds, peak = told.read().split()
    return done.returncode, done.stdout, float(seconds), int(peak)


def is_free(port):
    """Whether nobody listens at the port on this machine."""
    with socket.socket() as listener:
        listener.setsockopt(socket.SOL_SOCKET, socket.SO_REUSEADDR, 1)
        try:
            listener.bind(("127.0.0.1", port))
        except OSError:
            return False
    return True


def spent(command, given=os.devnull, out=os.devnull, ends=0):
    """What a command takes, over files, which has to end with this status, if one is named. The peak is that of a child of `time`, and 0 where that
    isn't there: a child of this process would begin with this one's peak."""
    with open(given, "rb") as source, open(out, "wb") as sink, tempfile.NamedTemporaryFile("r") as told, tempfile.TemporaryFile("w+") as said:
        timed = [TIME, "-f", "%M", "-o", told.name] if TIME else []
        began = time.monotonic()
        child = subprocess.Popen([*timed, *command], stdin=source, stdout=sink, stderr=said)
        _, status, used = os.wait4(child.pid, 0)
        passed = time.monotonic() - began
        child.returncode = status
        if ends is not None and status != ends << 8:
            said.seek(0)
            sys.exit(f"{' '.join(map(str, command))}: status {status >> 8}\n{said.read()}")
        return Spent(passed, used.ru_utime + used.ru_stime, 1024 * int(told.read().split()[-1]) if TIME else 0)


def instructions(command, given=os.devnull):
    """The instructions of a run, by callgrind, and what it prints; none where valgrind isn't there."""
    if VALGRIND is None:
        return None, b""
    with open(given, "rb") as source, tempfile.NamedTemporaryFile() as counts:
        counted = [VALGRIND, "--tool=callgrind", f"--callgrind-out-file={counts.name}", *command]
        done = subprocess.run(counted, stdin=source, stdout=subprocess.PIPE, stderr=subprocess.PIPE, check=False)
    return int(re.search(rb"Collected : (\d+)", done.stderr).group(1)), done.stdout


def record(host, message):
    """A record of a tape."""
    return bytes([len(host)]) + host.encode() + len(message).to_bytes(4, "big") + message


def records(tape):
    """The messages of a tape, each with its host."""
    at = 0
    while at < len(tape):
        host = tape[at + 1:at + 1 + tape[at]]
        at += 1 + len(host)
        message = tape[at + 4:at + 4 + int.from_bytes(tape[at:at + 4], "big")]
        at += 4 + len(message)
        yield host.decode(), message


def to_bytes(lines):
    """Lines of a history as bytes: text behind `| `, else hexadecimal digits, `<XX x N>` standing for N bytes XX."""
    content = bytearray()
    for line in lines:
        if line.startswith("|"):
            content += line[2:].encode() + b"\n"
            continue
        for run, count, plain in re.findall(r"<(..) x (\d+)>|([0-9a-f]+)", line):
            content += bytes.fromhex(run) * int(count) if run else bytes.fromhex(plain)
    return bytes(content)


def history(path):
    """The head, the words behind it and the content of each part of a history (tests/histories/run says which there are)."""
    found = []
    for line in path.read_text().splitlines():
        head, _, words = line.partition(" ")
        if line.startswith("#"):
            continue
        if head in HEADS:
            found.append((head, words, []))
        else:
            found[-1][2].append(line)
    return [(head, words, to_bytes(lines)) for head, words, lines in found]


def known(folder):
    """The homes and the trusted accounts of a folder's first tables."""
    homes, trusted = {}, set()
    for name in ("plc.1", "web.1"):
        for line in (folder / name).read_text().splitlines():
            verb, did, *host = line.split(" ")
            if verb == "home":
                homes[did] = host[0]
            else:
                trusted.add(did)
    return homes, trusted


def main():
    told, *command = sys.argv[1:]
    status = subprocess.run(command, check=False).returncode
    used = resource.getrusage(resource.RUSAGE_CHILDREN)
    pathlib.Path(told).write_text(f"{used.ru_utime + used.ru_stime} {used.ru_maxrss * 1024}")
    return status


if __name__ == "__main__":
    sys.exit(main())
