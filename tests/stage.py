"""A stage: bots and a server over loopback, beside the program, in one thread.

A scene is a list of acts and an expected end: the program's lines, its status, and that every end of a connection
received the bytes of the acts, and no more. If an act can't go on, the scene waits for bytes or for a deadline.
"""

import contextlib
import errno
import os
import pathlib
import re
import selectors
import socket
import subprocess
import tempfile
import time
from dataclasses import dataclass, field

from acts import Bot, HearsEnd, Listens, Peer, Rests, Server, fill_queue
from held import Wrong, same, same_but_counts

# The time limit of a scene, in seconds.
SECONDS = 30

# The CPU time limit, in seconds, of a run that mostly waits. One that spins for half a second uses more.
WAITING = 0.3

# The size of the queue of a listener.
QUEUE = 128

HOST = "127.0.0.1"


# The first line of a run that logs its sessions, with its port and the server's address.
BEGINNING = f"daide-gate: listening on {HOST}:{{0}}, server {{1}}, * sessions, version *.*.*\n"


# The line of a session whose server is reached. When it comes among the lines of other sessions depends on the system.
REACHED = re.compile(rf"daide-gate: session (\d+) reached the server from {re.escape(HOST)}:\d+\n")


def without_reached(told):
    """Returns the lines without those of reached servers, each of which is of another session."""
    numbers = [found[1] for found in REACHED.finditer(told)]
    same(len(set(numbers)), len(numbers), "sessions that reached the server")
    return REACHED.sub("", told)


class ErrorsFile:
    """A file as standard error."""

    def __init__(self):
        self.file = tempfile.TemporaryFile()

    def fileno(self):
        """Returns the descriptor for the program."""
        return self.file.fileno()

    def told(self):
        """Returns the text that the program wrote. The position of its next write, which the file has too, stays."""
        return os.pread(self.fileno(), os.fstat(self.fileno()).st_size, 0).decode(errors="replace")

    def close(self):
        """Closes the file."""
        self.file.close()


@dataclass(frozen=True)
class Conditions:
    """The conditions of a run."""

    # The lines of settings that follow both addresses.
    settings: str = ""
    # Returns the socket at the server's address.
    server: object = None
    # The arguments before the settings, and the words before the program, of a watcher.
    words: tuple = ()
    watcher: tuple = ()
    # The folder of records below that of the run, and the empty files in it.
    folder: str = "."
    files: tuple = ()
    # Returns the standard error.
    errors: object = ErrorsFile


class Run:
    """A run of the program in this folder, at a free port, under these conditions, with a server at this address."""

    def __init__(self, program, room, conditions, address):
        self.program, self.port, self.room, self.address = program, free_port(), pathlib.Path(room), address
        self.folder = self.room / conditions.folder
        self.printed, self.status, self.seconds = b"", None, 0.0
        file = self.room / "settings.toml"
        addresses = f"listen = '{HOST}:{self.port}'\nserver = '{address}'\n"
        file.write_text(f"{addresses}{conditions.settings}\n", encoding="utf-8")
        self.errors = conditions.errors()
        self.process = subprocess.Popen(
            [*conditions.watcher, str(program), "run", *conditions.words, str(file)], cwd=room,
            stdin=subprocess.DEVNULL, stdout=subprocess.PIPE, stderr=self.errors.fileno(), bufsize=0,
        )
        os.set_blocking(self.process.stdout.fileno(), False)

    def listen(self):
        """Reads the printed bytes, and returns whether more may follow."""
        piece = self.process.stdout.read(4096)
        self.printed += piece or b""
        return piece != b""

    def has_ended(self):
        """Returns whether the run has ended. Its CPU time is known then."""
        if self.status is None:
            pid, status, usage = os.wait4(self.process.pid, os.WNOHANG)
            if pid:
                is_killed = os.WIFSIGNALED(status)
                self.status = -os.WTERMSIG(status) if is_killed else os.WEXITSTATUS(status)
                self.process.returncode = self.status
                self.seconds = usage.ru_utime + usage.ru_stime
                self.listen()
        return self.status is not None

    def records(self):
        """Returns the names of the files with its records."""
        return sorted(path.name for path in self.folder.glob("*.log"))

    def size(self, name):
        """Returns the size of this file, in bytes."""
        return (self.folder / name).stat().st_size

    def told(self):
        """Returns its text on standard error."""
        return self.errors.told()

    def status_words(self):
        """Returns the words of `/proc/PID/stat` from the third on: the state, and the times in ticks."""
        text = pathlib.Path(f"/proc/{self.process.pid}/stat").read_text(encoding="utf-8")
        return text.rpartition(")")[2].split()

    def is_stopped(self):
        """Returns whether it is stopped by a signal."""
        return self.status_words()[0] == "T"

    def work(self):
        """Returns the CPU time that it used so far, and the time for which it waited for a processor, in seconds. The
        second is 0 if the system doesn't know it."""
        words = self.status_words()
        used = (int(words[11]) + int(words[12])) / os.sysconf("SC_CLK_TCK")
        times = pathlib.Path(f"/proc/{self.process.pid}/schedstat")
        queued = int(times.read_text(encoding="utf-8").split()[1]) / 1e9 if times.exists() else 0.0
        return used, queued

    def close(self):
        """Ends the run, if it has not ended yet."""
        if not self.has_ended():
            self.process.kill()
            self.process.wait()
        self.process.stdout.close()
        self.errors.close()


class Stage:
    """The bots and the server, and their acts."""

    def __init__(self, run, listener):
        listener.setblocking(False)
        self.run, self.listener = run, listener
        self.bots, self.servers, self.flows, self.ports = [], [], [], []
        self.hoard, self.flood_began, self.client = None, 0.0, None
        self.over = time.monotonic() + SECONDS
        self.awaited, self.moment, self.act_began = {}, None, 0.0
        self.longest, self.may_print = 0.0, True
        self.work_before, self.sent_before, self.sent_last, self.next_sip = None, None, 0.0, 0.0

    def peer(self, who):
        """Returns the end with this number."""
        return (self.bots if isinstance(who, Bot) else self.servers)[who.number]

    def add_bot(self, host=HOST):
        """A bot connects, from this address."""
        stream = socket.socket()
        if host != HOST:
            stream.bind((host, 0))
        self.bots.append(Peer(stream))
        stream.connect_ex((HOST, self.run.port))
        self.ports.append(stream.getsockname()[1])

    def is_refused(self):
        """Returns whether the program refuses a connection."""
        with socket.socket() as stream:
            return stream.connect_ex((HOST, self.run.port)) == errno.ECONNREFUSED

    def meets(self):
        """Returns whether the server accepted a connection."""
        try:
            self.servers.append(Peer(self.listener.accept()[0]))
        except BlockingIOError:
            return False
        return True

    def awaits(self, stream, to_write=False):
        """Returns false: the act is not done, and goes on once this stream is readable, or writable."""
        self.awaited = {stream: selectors.EVENT_WRITE if to_write else selectors.EVENT_READ}
        return False

    def awaits_moment(self, moment):
        """Returns whether this deadline is past. The act is done then."""
        self.moment = moment
        return time.monotonic() >= moment

    def wait(self):
        """Waits until the act can go on, a flow can go on, or the program printed something or ended."""
        now = time.monotonic()
        events = dict(self.awaited)
        for flow in self.flows:
            events[flow.peer.stream] = events.get(flow.peer.stream, 0) | flow.events()
        if self.may_print:
            events[self.run.process.stdout] = selectors.EVENT_READ
        until = min(self.over, self.moment or self.over, self.over if self.may_print else now + 0.01)
        with selectors.DefaultSelector() as selector:
            for stream, event in events.items():
                selector.register(stream, event)
            selector.select(max(until - now, 0))

    def go_on(self):
        """Reads what the program prints, and advances the flows."""
        if self.may_print:
            self.may_print = self.run.listen()
        for flow in self.flows:
            flow.go_on()
        self.flows = [flow for flow in self.flows if not flow.is_done()]

    def finish(self, act):
        """Plays an act until it is done."""
        self.act_began = time.monotonic()
        while True:
            self.awaited, self.moment = {}, None
            self.go_on()
            has_ended = self.run.has_ended()
            if act.play(self):
                break
            if has_ended and self.moment is None:
                ended = f"the program has ended, with status {self.run.status}, and told {self.run.told()!r}"
                raise Wrong(f"{self.seen(act)}{ended}")
            if time.monotonic() >= self.over:
                raise Wrong(f"{self.seen(act)}it is not done within {SECONDS} s")
            self.wait()
        self.longest = max(self.longest, time.monotonic() - self.act_began)

    def seen(self, act):
        """Describes the bytes received by the end that acts, for the message of a failed test."""
        who = getattr(act, "who", None)
        return f"saw {self.peer(who).told()}, and " if who else ""

    def play(self, acts):
        """Plays these acts, one after another, and records the time of the longest one."""
        self.longest = 0.0
        for number, act in enumerate(acts):
            try:
                self.finish(act)
            except Wrong as wrong:
                raise Wrong(f"act {number}, {act}: {wrong}") from None

    def leave(self):
        """All ends that are left end their streams, and receive only the peer's end."""
        everyone = [(Bot(number), peer) for number, peer in enumerate(self.bots)]
        everyone += [(Server(number), peer) for number, peer in enumerate(self.servers)]
        left = [(who, peer) for who, peer in everyone if not peer.is_gone]
        for _, peer in left:
            # A stream that was reset has ended.
            with contextlib.suppress(OSError):
                peer.stream.shutdown(socket.SHUT_WR)
        for who, _ in left:
            self.play_beside(HearsEnd(who), "behind all acts")

    def play_beside(self, act, place):
        """Plays an act that is not one of the scene's."""
        try:
            self.finish(act)
        except Wrong as wrong:
            raise Wrong(f"{place}, {act}: {wrong}") from None

    def close(self):
        """Closes all sockets."""
        for peer in self.bots + self.servers:
            peer.stream.close()
        if self.client:
            self.client.close()
        self.listener.close()


def free_port():
    """Returns a port without a listener."""
    with socket.socket() as taken:
        taken.bind((HOST, 0))
        return taken.getsockname()[1]


def record_names(count, first=1):
    """Returns the names of this many records, from the first one on."""
    return [f"session-{number:06}.log" for number in range(first, first + count)]


def open_listener():
    """Returns the listener of a server."""
    return socket.create_server((HOST, 0), backlog=QUEUE)


def full_listener():
    """The same with a queue full of connections that were closed by their peers."""
    listener = open_listener()
    fill_queue(listener)
    return listener


def silent_door():
    """Returns a socket that keeps a port without listening, so that each connect is refused."""
    door = socket.socket()
    door.bind((HOST, 0))
    return door


@contextlib.contextmanager
def begun(program, conditions):
    """Creates a stage beside a run that listens, under these conditions. Releases all of them afterwards."""
    listener = conditions.server()
    address = f"{HOST}:{listener.getsockname()[1]}"
    with tempfile.TemporaryDirectory() as room:
        folder = pathlib.Path(room) / conditions.folder
        if conditions.files:
            folder.mkdir(parents=True, exist_ok=True)
        for name in conditions.files:
            (folder / name).touch()
        run = Run(program, room, conditions, address)
        stage = Stage(run, listener)
        try:
            stage.play_beside(Listens(), "before all acts")
            yield stage
        finally:
            stage.close()
            run.close()


@dataclass
class Scene:
    """Acts beside a run, and the expected results."""

    name: str
    acts: list
    settings: str = ""
    # The expected text on standard error, with `{0}` for the port of the first bot, and `{server}` for the server's address.
    told: str = ""
    # The socket at the server's address.
    server: object = field(default=open_listener)
    # The standard error of the program.
    errors: object = field(default=ErrorsFile)
    # Whether the run uses almost no CPU time, because it waits.
    waits: bool = False
    # Whether the run logs its beginning, and the beginning and the end of sessions. Whether its first line is taken.
    verbose: bool = False
    begins: bool = True
    # Whether the lines come in this order.
    in_order: bool = True
    # The number of records after the run, or none if the run is not recorded; of these the number before the run, which
    # are empty, and the number in the name of the first.
    recorded: int | None = None
    there: int = 0
    first: int = 1
    # The folder of the records, below that of the run.
    folder: str = "."

    def words(self):
        """Returns the arguments before the settings."""
        recorded = ("--record", self.folder) if self.recorded is not None else ()
        return (("--verbose",) if self.verbose else ()) + recorded

    def conditions(self, watcher=()):
        """Returns the conditions of the run, with the words of a watcher."""
        return Conditions(
            self.settings, self.server, self.words(), tuple(watcher), self.folder,
            tuple(record_names(self.there, self.first)), self.errors,
        )

    def play(self, program):
        """Plays the scene."""
        with begun(program, self.conditions()) as stage:
            stage.play(self.acts)
            self.end(stage)

    def end(self, stage):
        """Checks that the run ends by itself after all bots were served, with the expected outputs."""
        stage.leave()
        stage.play_beside(Rests(), "behind all acts")
        run = stage.run
        same(run.status, 0, f"status, told {run.told()!r}")
        same(run.printed, b"listening\n", "printed")
        beginning = BEGINNING.format(run.port, run.address) if self.verbose and self.begins else ""
        told, wanted = without_reached(run.told()), beginning + self.told.format(*stage.ports, server=run.address)
        if not self.in_order:
            told, wanted = ("".join(sorted(text.splitlines(True))) for text in (told, wanted))
        same_but_counts(told, wanted, "told")
        same(run.records(), record_names(self.recorded or 0, self.first), "records")
        there = [run.size(name) for name in record_names(self.there, self.first)]
        same(there, [0] * self.there, "records that were there")
        if self.waits and run.seconds >= WAITING:
            raise Wrong(f"saw {run.seconds:.2f} s of a processor, wanted less than {WAITING} s")
