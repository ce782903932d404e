"""Rows of the sockets: what a stop of the program, a peer without end, a system that fails and a host that can't be followed do to
`follow`, `serve` and `query`.

Where the system allows it, each row has a network of its own, in which the ports of `serve` and `query` are free.
"""
import contextlib
import ctypes
import fcntl
import functools
import os
import pathlib
import resource
import shutil
import signal
import socket
import struct
import subprocess
import sys
import tempfile
import threading
import time

from rows import LeftOut, Rows, expect, needs, same

sys.path.insert(1, str(pathlib.Path(__file__).resolve().parent.parent / "clients"))
import guests  # noqa: E402
import hosts  # noqa: E402
import http_clients  # noqa: E402
import program  # noqa: E402
from frames import BINARY, CONTINUE, connect, frame, read_head, read_rest  # noqa: E402

DOOR, WIRE = 2470, 2471
STREAM = "/xrpc/com.atproto.sync.subscribeRepos?cursor=0"
LAST = 193  # the number of the sample's last event
NO_FEED, NO_DOOR, NO_WIRE = 8, 9, 19
WAIT = 180
SLACK = 20  # seconds that a busy machine adds
NEW_NETWORK = 0x40000000  # CLONE_NEWNET (unshare(2))
SET_FLAGS, UP = 0x8914, 1  # SIOCSIFFLAGS, IFF_UP (netdevice(7))

ROWS = Rows()


def has_own_network():
    """Gives this thread, and what it starts, a network of its own with the loopback interface alone, where the system allows it."""
    if ctypes.CDLL(None, use_errno=True).unshare(NEW_NETWORK):
        return False
    with socket.socket() as any_socket:
        fcntl.ioctl(any_socket, SET_FLAGS, struct.pack("16sh", b"lo", UP))
    return True


def row(name):
    """A row in a network of its own, or in that of the machine where the ports are free. The program is built before."""
    def add(function):
        @functools.wraps(function)
        def apart(folder):
            program.built("relay_cli")
            raised = []

            def run():
                try:
                    if not has_own_network() and not (program.is_free(DOOR) and program.is_free(WIRE)):
                        raise LeftOut(f"port {DOOR} or {WIRE} is taken")
                    function(folder)
                except BaseException as error:  # raised again below, where the driver sees it
                    raised.append(error)

            thread = threading.Thread(target=run)
            thread.start()
            thread.join()
            for error in raised:
                raise error

        return ROWS.row(name)(apart)
    return add


class Run:
    """A run of the program or of another one, maybe under a command that runs it. At its end `status`, `out` and `err` are there."""

    def __init__(self, *words, under=(), command=program.PROGRAM):
        command = [*under, command, *words]
        self.begun = time.monotonic()
        self.child = subprocess.Popen(command, stdin=subprocess.DEVNULL, stdout=subprocess.PIPE, stderr=subprocess.PIPE)

    def __enter__(self):
        return self

    def __exit__(self, *_):
        self.child.kill()
        self.child.wait()

    def stop(self, seconds=1):
        """Stops the program for a while, once it waits for its peer, and has it go on."""
        time.sleep(0.5)
        self.child.send_signal(signal.SIGSTOP)
        time.sleep(seconds)
        self.child.send_signal(signal.SIGCONT)
        time.sleep(0.5)

    def end(self):
        out, err = self.child.communicate(timeout=WAIT)
        self.seconds = time.monotonic() - self.begun
        self.status, self.out, self.err = self.child.returncode, out.decode(), err.decode()
        return self


def ended(run, status, last):
    """Checks the status and the last line of a run's output."""
    run.end()
    found = run.out.splitlines()[-1:]
    same((run.status, found), (status, [last]), f"the end of the run, which said {run.err!r}")


def failed(run, status, sentence):
    """Checks the status of a run that failed, and what it said."""
    run.end()
    same(run.status, status, f"the status of a run that said {run.err!r}")
    expect(sentence in run.err.splitlines(), f"{sentence!r} isn't among what was said: {run.err!r}")


@functools.cache
def sample():
    """A folder with the sample's journal, which is made once and goes with this process."""
    kept = tempfile.TemporaryDirectory()
    shutil.copytree(program.SAMPLES / "relay", kept.name, dirs_exist_ok=True)
    given = (program.SAMPLES / "tape").read_bytes()
    done = subprocess.run([program.PROGRAM, kept.name, "ingest"], input=given, stdout=subprocess.PIPE, stderr=subprocess.PIPE, check=False)
    same(done.returncode, 0, "the status of taking the sample's tape")
    return kept


def day(folder):
    """This folder with the sample's journal in it."""
    shutil.copytree(sample().name, folder, dirs_exist_ok=True)
    return folder


def info():
    """A message that a relay passes over: the first one of the sample's tape."""
    return next(message for _, message in program.records((program.SAMPLES / "tape").read_bytes()))


@contextlib.contextmanager
def host(play):
    """A host that plays this on its one connection, from the request's head on. Hands over its name."""
    with socket.create_server(("127.0.0.1", 0)) as listener:
        listener.settimeout(WAIT)

        def accept():
            with contextlib.suppress(OSError):
                peer, _ = listener.accept()
                with peer:
                    peer.settimeout(WAIT)
                    play(peer, read_head(peer))

        thread = threading.Thread(target=accept)
        thread.start()
        try:
            yield f"localhost:{listener.getsockname()[1]}"
        finally:
            with contextlib.suppress(OSError):
                listener.shutdown(socket.SHUT_RDWR)
            thread.join()


def guest():
    """A guest who takes everything from the first event on, and closes: how many messages came."""
    with connect(DOOR) as peer:
        taken, ending = guests.polite(peer, STREAM)
    same(ending, "end", "the end of the session")
    return len([name for name, _ in hosts.split(taken.partition(b"\r\n\r\n")[2]) if name == "message"])


def asked():
    """The status of a reply to a request."""
    taken, ending = http_clients.play("polite", WIRE)
    same(ending, "end", "the end of the connection")
    return int(taken.split()[1])


# A stop of the program.


@row("a stop doesn't end follow: before the host's answer, and before its next message")
def follow_is_stopped(folder):
    may_answer, may_speak = threading.Event(), threading.Event()

    def play(peer, head):
        may_answer.wait(WAIT)
        peer.sendall(hosts.answer(head))
        may_speak.wait(WAIT)
        peer.sendall(frame(BINARY, info()) + hosts.FAREWELL)
        read_rest(peer, 5)

    with host(play) as name, Run(folder, "follow", name, "5") as run:
        run.stop()
        may_answer.set()
        run.stop()
        may_speak.set()
        ended(run, 0, "end 1 events 0 refused 0 last 0")


@row("a stop that is longer than every limit of time doesn't end follow")
def follow_is_stopped_for_long(folder):
    may_speak = threading.Event()

    def play(peer, head):
        peer.sendall(hosts.answer(head))
        may_speak.wait(WAIT)
        peer.sendall(frame(BINARY, info()) + hosts.FAREWELL)
        read_rest(peer, 5)

    with host(play) as name, Run(folder, "follow", name, "5") as run:
        run.stop(35)
        may_speak.set()
        ended(run, 0, "end 1 events 0 refused 0 last 0")


@row("a stop doesn't end a session of serve: before the guest's request, and before its close")
def serve_is_stopped(folder):
    with Run(day(folder), "serve", "1") as run, connect(DOOR) as peer:
        run.stop()
        peer.sendall(guests.request(target=STREAM))
        guests.take_all(peer, read_head(peer))
        run.stop()
        peer.sendall(guests.GOODBYE)
        ended(run, 0, "end 1 sessions")
        same(run.out.splitlines()[0], f"session 1 cursor 0 sent {LAST}", "the session's line")


@row("a stop doesn't end a session whose guest takes nothing for a while")
def door_is_stopped_in_a_write(_folder):
    """By the edge alone, which sends more than the system's buffers hold."""
    edge = pathlib.Path(os.environ.get("EDGE_RUN_PROGRAM", program.TOP / "crates" / "edge_run" / "out" / "edge_run"))
    if not edge.exists():
        raise LeftOut("edge_run is not built")
    count, size = 2000, 5000
    with Run("door", "1", str(count), str(size), str(DOOR), command=edge) as run, connect(DOOR) as peer:
        guests.enter(peer)
        guests.take(peer, 100 * size)
        time.sleep(5)
        run.stop(2)
        last = b""
        while not last.endswith(guests.FAREWELL):
            piece = peer.recv(1 << 17)
            expect(piece, "the door's close didn't come")
            last = (last + piece)[-len(guests.FAREWELL):]
        peer.sendall(guests.GOODBYE)
        ended(run, 0, f"{guests.TARGET} sent {count} closed")


@row("a stop doesn't end serve while it waits for a guest")
def serve_is_stopped_without_a_guest(folder):
    with Run(day(folder), "serve", "1") as run:
        run.stop()
        same(guest(), LAST, "how many messages came")
        ended(run, 0, "end 1 sessions")


@row("a stop doesn't end a request of query: in its head, and before the client closes")
def query_is_stopped(folder):
    with Run(day(folder), "query", "1") as run, connect(WIRE) as peer:
        request = http_clients.request()
        peer.sendall(request[:40])
        run.stop()
        peer.sendall(request[40:])
        taken, _ = read_rest(peer, 15)
        run.stop()
        same(taken.split()[1:2], [b"200"], "the reply's status")
        ended(run, 0, "end 1")


def injected(folder, calls, error, when):
    """A command that has calls of the system fail in what it runs, by strace, which writes them to a file of the folder."""
    traced = folder / "trace"
    return [needs("strace"), "-f", "-qq", "-o", traced, "-e", f"trace={calls}", "-e", f"inject={calls}:error={error}:when={when}"]


def was_injected(folder, count):
    """Checks that this many calls were had to fail, or more."""
    found = (folder / "trace").read_text().count("(INJECTED)")
    expect(found >= count, f"{found} calls were had to fail in place of {count}")


@row("calls that a signal interrupts go on")
def calls_are_interrupted(folder):
    """Each second call of a kind ends as one that was interrupted."""
    under = injected(folder, "recvfrom,sendto", "EINTR", "1+2")
    day(folder)
    with Run(folder, "serve", "1", under=under) as run:
        same(guest(), LAST, "how many messages came")
        ended(run, 0, "end 1 sessions")
        was_injected(folder, 3)
    with Run(folder, "query", "1", under=under) as run:
        same(asked(), 200, "the reply's status")
        ended(run, 0, "end 1")
        was_injected(folder, 2)
    with host(hosts.gives(frame(BINARY, info()), hosts.FAREWELL)) as name, Run(folder, "follow", name, "5", under=under) as run:
        ended(run, 0, f"end 1 events 0 refused 0 last {LAST}")
        was_injected(folder, 3)


# A peer without end.


def frames_without_end(piece):
    """A host that begins a message, and sends this piece of it without end."""
    def play(peer, head):
        peer.sendall(hosts.answer(head) + frame(BINARY, final=False))
        while True:
            peer.sendall(piece)
    return play


@row("a host that sends fragments without end, or of a message that never ends, ends follow with 8 and why")
def follow_has_frames_without_end(folder):
    sentence = "a message has more than 65536 frames, or more than 1000 empty ones"
    for piece in (frame(CONTINUE, final=False) * 100, frame(CONTINUE, b"x", final=False) * 100):
        with host(frames_without_end(piece)) as name, Run(folder, "follow", name, "5") as run:
            failed(run, NO_FEED, f"relay: {name}: {sentence}")
            expect(run.seconds < 10 + SLACK, f"it took {run.seconds:.0f} seconds")


@row("a host that sends pings without end ends follow with 8 and why")
def follow_has_pings_without_end(folder):
    def play(peer, head):
        peer.sendall(hosts.answer(head))
        while True:
            peer.sendall(frame(9, b"p") * 100)
            peer.setblocking(False)
            with contextlib.suppress(BlockingIOError):
                while peer.recv(1 << 16):
                    pass
            peer.settimeout(WAIT)

    with host(play) as name, Run(folder, "follow", name, "5") as run:
        failed(run, NO_FEED, f"relay: {name}: more than 1000 pings and pongs came without a message")
        expect(run.seconds < 10 + SLACK, f"it took {run.seconds:.0f} seconds")


@row("a guest who sends fragments without end, at once or one each half second, is over with the time of the close")
def serve_has_frames_without_end(folder):
    day(folder)
    for name, seconds in (("fragments-without-end", 0), ("slow-fragments", 10)):
        with Run(folder, "serve", "2") as run:
            guests.play(name, DOOR)
            same(guest(), LAST, "how many messages came to the next guest")
            ended(run, 0, "end 2 sessions")
            expect(run.out.startswith("session 1 failed after "), f"the first session isn't one that failed: {run.out!r}")
            expect(run.seconds < seconds + SLACK, f"it took {run.seconds:.0f} seconds")


@row("a client of query who sends without end holds it for seconds alone")
def query_has_bytes_without_end(folder):
    with Run(day(folder), "query", "3") as run:
        http_clients.play("talks-on", WIRE)
        http_clients.play("byte-a-second", WIRE)
        same(asked(), 200, "the status of the next reply")
        ended(run, 0, "end 3")
        expect(run.seconds < 10 + SLACK, f"it took {run.seconds:.0f} seconds")


# A system that fails.

PASSING = ("EPROTO", "ENETDOWN", "ENOBUFS", "ENOMEM", "EMFILE", "ENFILE", "EPERM", "EAGAIN", "ECONNABORTED", "EINTR", "EHOSTUNREACH")


def accepts_again(folder, command, comes):
    """Has accept fail for each passing reason, three times in a row, before somebody comes."""
    day(folder)
    for error in PASSING:
        aborted = error == "ECONNABORTED"  # such a connection counts as one without a handshake, or as a request of no bytes
        under = injected(folder, "accept4", error, "1" if aborted else "1..3")
        with Run(folder, command, "2" if aborted else "1", under=under) as run:
            comes(error)
            run.end()
            same((error, run.status), (error, 0), f"the end of a run that said {run.err!r}")
            was_injected(folder, 1 if aborted else 3)


@row("a guest comes in after accept has failed, whatever passing reason it had")
def serve_accepts_again(folder):
    accepts_again(folder, "serve", lambda error: same(guest(), LAST, f"how many messages came after {error}"))


@row("a request comes in after accept has failed, whatever passing reason it had")
def query_accepts_again(folder):
    accepts_again(folder, "query", lambda error: same(asked(), 200, f"the reply's status after {error}"))


@row("an accept that fails again and again ends serve with 9 and query with 19 after half a minute, and why")
def accept_fails_for_ever(folder):
    day(folder)
    under = injected(folder, "accept4", "EMFILE", "1+")
    with Run(folder, "serve", "1", under=under) as door, Run(folder, "query", "1", under=under) as wire:
        with connect(DOOR), connect(WIRE):
            failed(door, NO_DOOR, f"relay: 127.0.0.1:{DOOR}: Too many open files (os error 24)")
            failed(wire, NO_WIRE, f"relay: 127.0.0.1:{WIRE}: Too many open files (os error 24)")
            expect(30 <= door.seconds < 30 + SLACK, f"it took {door.seconds:.0f} seconds")


@row("serve without a descriptor to spare takes its guest once there is one")
def serve_wants_descriptors(folder):
    with Run(day(folder), "serve", "2") as run:
        with connect(DOOR):  # the next call of accept finds that only the standard streams may be open
            time.sleep(1)
            resource.prlimit(run.child.pid, resource.RLIMIT_NOFILE, (3, 4096))
        came = []
        thread = threading.Thread(target=lambda: came.append(guest()))
        thread.start()
        time.sleep(2)
        expect(run.child.poll() is None, "it ended")
        resource.prlimit(run.child.pid, resource.RLIMIT_NOFILE, (4096, 4096))
        thread.join()
        same(came, [LAST], "how many messages came")
        ended(run, 0, "end 2 sessions")


@row("a port in use ends serve with 9 and query with 19, and is named")
def port_is_taken(folder):
    day(folder)
    for command, port, status in (("serve", DOOR, NO_DOOR), ("query", WIRE, NO_WIRE)):
        with socket.create_server(("127.0.0.1", port)), Run(folder, command, "1") as run:
            failed(run, status, f"relay: 127.0.0.1:{port}: Address already in use (os error 98)")


@row("a port is free again at once after a session")
def port_is_free_again(folder):
    day(folder)
    for _ in range(3):
        with Run(folder, "serve", "1") as run:
            same(guest(), LAST, "how many messages came")
            ended(run, 0, "end 1 sessions")


# A host that can't be followed.


@row("a host that isn't on this machine can't be followed, and the run says which can")
def host_is_elsewhere(folder):
    for name in ("pds.example.com", "example.com:80", "localhost"):
        with Run(folder, "follow", name, "5") as run:
            failed(run, NO_FEED, f"relay: {name}: only hosts on this machine can be followed, as localhost:PORT or 127.0.0.1:PORT")


@row("a port that is none is said to be none")
def port_is_none(folder):
    for name in ("localhost:0", "localhost:99999", "localhost:080"):
        with Run(folder, "follow", name, "5") as run:
            failed(run, NO_FEED, f"relay: {name}: the port has to be a number from 1 to 65535")


@row("a host that answers 404 is said to")
def host_answers_404(folder):
    with host(hosts.not_found) as name, Run(folder, "follow", name, "5") as run:
        failed(run, NO_FEED, f"relay: {name}: the host answered 404")


@row("where nobody listens, the system's words say so")
def nobody_listens(folder):
    with socket.create_server(("127.0.0.1", 0)) as listener:
        name = f"localhost:{listener.getsockname()[1]}"
    with Run(folder, "follow", name, "5") as run:
        failed(run, NO_FEED, f"relay: {name}: Connection refused (os error 111)")


@row("a host that ends without a close is said to")
def host_ends(folder):
    def play(peer, head):
        peer.sendall(hosts.answer(head) + frame(BINARY, info()))
        time.sleep(0.5)

    with host(play) as name, Run(folder, "follow", name, "5") as run:
        failed(run, NO_FEED, f"relay: {name}: the connection ended without a close")
