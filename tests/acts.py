"""The acts of a scene: what the bots and the server do, played one after another on a stage.

An act is played repeatedly until it is done. It fails once it can no longer succeed.
"""

import contextlib
import math
import os
import resource
import select
import selectors
import shutil
import signal
import socket
import time
from dataclasses import dataclass, fields

from frames import UNCLOSED
from held import Wrong, brief


# The most of a processor that a program uses while it waits. One that spins uses all of it.
MOST_WORK = 0.2

# The number of connections that fill the queue of a listener.
MORE_THAN_WAIT = 160


def fill_queue(listener):
    """Fills the queue of a listener with connections that were closed by their peers."""
    queue = [socket.socket() for _ in range(MORE_THAN_WAIT)]
    for stream in queue:
        stream.setblocking(False)
        stream.connect_ex(listener.getsockname())
    for stream in queue:
        stream.close()


def shut(listener):
    """Closes a listener. Returns a socket that keeps its port without listening, so that each connect is refused."""
    address = listener.getsockname()
    listener.close()
    door = socket.socket()
    door.setsockopt(socket.SOL_SOCKET, socket.SO_REUSEADDR, 1)
    door.bind(address)
    return door


def leave_descriptors(pid, left):
    """Has a process open at most this many more descriptors. Returns its limits before."""
    taken, limit = {int(name) for name in os.listdir(f"/proc/{pid}/fd")}, 0
    for _ in range(left):
        while limit in taken:
            limit += 1
        limit += 1
    before = resource.prlimit(pid, resource.RLIMIT_NOFILE)
    resource.prlimit(pid, resource.RLIMIT_NOFILE, (limit, before[1]))
    return before


@dataclass(frozen=True)
class Bot:
    """A bot, numbered in the order of connecting."""

    number: int

    def __str__(self):
        return f"bot {self.number}"


@dataclass(frozen=True)
class Server:
    """The server's end of a connection, numbered in the order of accepting."""

    number: int

    def __str__(self):
        return f"server {self.number}"


class Act:
    """An action, or an event to wait for."""

    def play(self, stage):
        """Returns whether the act is done. If not, the stage knows what it waits for."""
        raise NotImplementedError

    def __str__(self):
        words = ", ".join(brief(getattr(self, field.name)) for field in fields(self))
        return f"{type(self).__name__}({words})"


@dataclass(frozen=True)
class Listens(Act):
    """The program prints that bots may connect."""

    def play(self, stage):
        printed, wanted = stage.run.printed, b"listening\n"
        if not wanted.startswith(printed):
            raise Wrong(f"printed {brief(printed.decode(errors='replace'))}, wanted {brief(wanted.decode())}")
        return printed == wanted


@dataclass(frozen=True)
class Comes(Act):
    """A bot connects."""

    def play(self, stage):
        stage.add_bot()
        return True


@dataclass(frozen=True)
class ComesFrom(Act):
    """A bot connects from this address."""

    host: str

    def play(self, stage):
        stage.add_bot(self.host)
        return True


@dataclass(frozen=True)
class IsRefused(Act):
    """A bot's connect is refused, since the program listens no more. Tried until it is."""

    def play(self, stage):
        if stage.is_refused():
            return True
        stage.awaits_moment(time.monotonic() + 0.01)
        return False


@dataclass(frozen=True)
class FinishesConnect(Act):
    """The server accepts a connection."""

    def play(self, stage):
        return stage.meets() or stage.awaits(stage.listener)


@dataclass(frozen=True)
class MeetsNobody(Act):
    """Nobody connects to the server within a twentieth of a second."""

    def play(self, stage):
        came, _, _ = select.select([stage.listener], [], [], 0.05)
        if came:
            raise Wrong("somebody came, and nobody should")
        return True


@dataclass(frozen=True)
class Fills(Act):
    """Others connect to the server and leave at once, until its queue is full. It accepts none of them."""

    def play(self, stage):
        fill_queue(stage.listener)
        return True


@dataclass(frozen=True)
class Empties(Act):
    """The server accepts all waiting connections, and closes them."""

    def play(self, stage):
        try:
            while True:
                stage.listener.accept()[0].close()
        except BlockingIOError:
            return True


@dataclass(frozen=True)
class ServerLeaves(Act):
    """The server's port is closed, so that each connect is refused."""

    def play(self, stage):
        stage.listener = shut(stage.listener)
        stage.listener.setblocking(False)
        return True


@dataclass(frozen=True)
class ServerReturns(Act):
    """The server listens at its port."""

    def play(self, stage):
        stage.listener.listen()
        return True


@dataclass(frozen=True)
class Hoards(Act):
    """The program may open this many more descriptors."""

    left: int

    def play(self, stage):
        stage.hoard = leave_descriptors(stage.run.process.pid, self.left)
        return True


@dataclass(frozen=True)
class Frees(Act):
    """The program may open as many descriptors as before."""

    def play(self, stage):
        resource.prlimit(stage.run.process.pid, resource.RLIMIT_NOFILE, stage.hoard)
        return True


@dataclass(frozen=True)
class Stops(Act):
    """The program is stopped, so that all that is sent from now on is there when it goes on."""

    def play(self, stage):
        if stage.run.is_stopped():
            return True
        stage.run.process.send_signal(signal.SIGSTOP)
        stage.awaits_moment(time.monotonic() + 0.001)
        return False


@dataclass(frozen=True)
class GoesOn(Act):
    """The program goes on."""

    def play(self, stage):
        stage.run.process.send_signal(signal.SIGCONT)
        return True


@dataclass(frozen=True)
class Waits(Act):
    """For this many milliseconds the program uses at most a fifth of a processor. The time for which it waits for a
    processor that others use doesn't count."""

    millis: int

    def play(self, stage):
        if stage.work_before is None:
            stage.work_before = stage.run.work()
        if not stage.awaits_moment(stage.act_began + self.millis / 1000):
            return False
        work, queued = (now - before for now, before in zip(stage.run.work(), stage.work_before))
        stage.work_before, seconds = None, time.monotonic() - stage.act_began - queued
        if work > seconds * MOST_WORK:
            raise Wrong(f"saw {work:.2f} s of a processor in {seconds:.2f} s, wanted {MOST_WORK} of it at most")
        return True


@dataclass(frozen=True)
class Within(Act):
    """This act is done within this many milliseconds."""

    millis: int
    act: Act

    @property
    def who(self):
        """Returns the end that acts, if there is one."""
        return getattr(self.act, "who", None)

    def play(self, stage):
        if self.act.play(stage):
            return True
        if stage.awaits_moment(stage.act_began + self.millis / 1000):
            raise Wrong(f"{stage.seen(self)}it is not done within {self.millis} ms")
        return False


@dataclass(frozen=True)
class Vanishes(Act):
    """The folder of the records is removed."""

    def play(self, stage):
        shutil.rmtree(stage.run.folder)
        return True


@dataclass(frozen=True)
class Appears(Act):
    """Somebody makes an empty file with the name of the next record."""

    name: str = "session-000001.log"

    def play(self, stage):
        (stage.run.folder / self.name).touch()
        return True


@dataclass(frozen=True)
class FillsTheDisk(Act):
    """The record of session 1 may grow no more, as on a full disk, nor any other file beyond its size."""

    def play(self, stage):
        size = stage.run.size("session-000001.log")
        resource.prlimit(stage.run.process.pid, resource.RLIMIT_FSIZE, (size, size))
        return True


@dataclass(frozen=True)
class Logs(Act):
    """The program has written this line on standard error, as many times."""

    line: str
    times: int = 1

    def play(self, stage):
        if stage.run.told().count(self.line) == self.times:
            return True
        # No stream reports a write to a file.
        stage.awaits_moment(time.monotonic() + 0.01)
        return False


@dataclass(frozen=True)
class CallsControl(Act):
    """A client of the control socket, at this path, connects and sends nothing. The run has its connection for two
    seconds."""

    path: str

    def play(self, stage):
        stage.client = socket.socket(socket.AF_UNIX)
        stage.client.connect(str(stage.run.room / self.path))
        return True


@dataclass(frozen=True)
class ReadsErrors(Act):
    """Somebody reads standard error, a pipe, until it is empty."""

    def play(self, stage):
        stage.run.errors.read()
        return True


@dataclass(frozen=True)
class Says(Act):
    """Sends these bytes."""

    who: object
    data: bytes

    def play(self, stage):
        stream = stage.peer(self.who).stream
        try:
            count = stream.send(self.data)
        except BlockingIOError:
            return stage.awaits(stream, to_write=True)
        except OSError as fault:
            raise Wrong(f"its connection failed: {fault}") from None
        if count != len(self.data):
            raise Wrong(f"{count} bytes had room, of {len(self.data)}")
        return True


@dataclass(frozen=True)
class SaysUrgently(Act):
    """Sends a byte as urgent data, which is no part of the stream."""

    who: object

    def play(self, stage):
        stage.peer(self.who).stream.send(b"!", socket.MSG_OOB)
        return True


@dataclass(frozen=True)
class Hears(Act):
    """Received these bytes, and no more, since the last such act."""

    who: object
    wanted: bytes

    def play(self, stage):
        peer = stage.peer(self.who)
        peer.listen()
        if peer.heard == self.wanted:
            peer.heard.clear()
            return True
        if peer.has_ended or not self.wanted.startswith(peer.heard):
            raise Wrong(f"saw {peer.told()}, wanted {brief(self.wanted)}")
        return stage.awaits(peer.stream)


@dataclass(frozen=True)
class HearsEnd(Act):
    """Receives the end of the peer's stream, and nothing before it."""

    who: object

    def play(self, stage):
        peer = stage.peer(self.who)
        peer.listen()
        if peer.heard:
            raise Wrong(f"saw {peer.told()}, wanted the end")
        return peer.has_ended or stage.awaits(peer.stream)


@dataclass(frozen=True)
class HearsEndAlone(Act):
    """The same, and no reset instead of it."""

    who: object

    def play(self, stage):
        peer = stage.peer(self.who)
        peer.listen()
        error = peer.stream.getsockopt(socket.SOL_SOCKET, socket.SO_ERROR)
        if peer.fault or error:
            raise Wrong(f"saw {peer.fault or os.strerror(error)}, wanted the end alone")
        return HearsEnd(self.who).play(stage)


@dataclass(frozen=True)
class Ends(Act):
    """Ends its stream, and still receives."""

    who: object

    def play(self, stage):
        try:
            stage.peer(self.who).stream.shutdown(socket.SHUT_WR)
        except OSError as fault:
            raise Wrong(f"its connection failed: {fault}") from None
        return True


@dataclass(frozen=True)
class FindsOpen(Act):
    """Sends, and finds that the peer's socket is still open."""

    who: object

    def play(self, stage):
        if not stage.peer(self.who).finds_open():
            raise Wrong("saw a closed socket, wanted an open one")
        return True


@dataclass(frozen=True)
class FindsClosed(Act):
    """Sends, and finds that the peer's socket is closed."""

    who: object

    def play(self, stage):
        if stage.peer(self.who).finds_open():
            raise Wrong("saw an open socket, wanted a closed one")
        return True


@dataclass(frozen=True)
class Passes(Act):
    """This many milliseconds pass."""

    millis: int

    def play(self, stage):
        return stage.awaits_moment(stage.act_began + self.millis / 1000)


@dataclass(frozen=True)
class Pours(Act):
    """Starts to send these bytes this many times, as fast as they are accepted, during the acts that follow."""

    who: object
    data: bytes
    times: int

    def play(self, stage):
        stage.flows.append(Flow(stage.peer(self.who), self.data, self.times))
        return True


@dataclass(frozen=True)
class Narrows(Act):
    """Its socket has room for few bytes that it has not read."""

    who: object

    def play(self, stage):
        stage.peer(self.who).stream.setsockopt(socket.SOL_SOCKET, socket.SO_RCVBUF, 4_096)
        return True


@dataclass(frozen=True)
class Sips(Act):
    """For this many milliseconds it reads at most 4,096 bytes each hundredth of a second, and discards them. Its peer's
    stream does not end."""

    who: object
    millis: int

    def play(self, stage):
        now = time.monotonic()
        if now >= stage.next_sip:
            stage.peer(self.who).sip()
            stage.next_sip = now + 0.01
        over = stage.act_began + self.millis / 1000
        stage.awaits_moment(min(stage.next_sip, over))
        return now >= over


@dataclass(frozen=True)
class Settles(Act):
    """For this many milliseconds nobody could send a byte of what was started."""

    millis: int

    def play(self, stage):
        sent = sum(flow.sent for flow in stage.flows)
        if sent != stage.sent_before:
            stage.sent_before, stage.sent_last = sent, time.monotonic()
        return stage.awaits_moment(stage.sent_last + self.millis / 1000)


@dataclass(frozen=True)
class Floods(Act):
    """A bot starts to send an endless sequence of messages with an unclosed bracket, and discards what it receives."""

    number: int

    def play(self, stage):
        stage.flows.append(Flow(stage.peer(Bot(self.number)), UNCLOSED))
        stage.flood_began = time.monotonic()
        return True


@dataclass(frozen=True)
class Flooded(Act):
    """The bot has done so for this many seconds."""

    seconds: float = 1

    def play(self, stage):
        return stage.awaits_moment(stage.flood_began + self.seconds)


@dataclass(frozen=True)
class Leave(Act):
    """All bots close their connections, with unread bytes."""

    def play(self, stage):
        stage.flows.clear()
        for bot in stage.bots:
            bot.stream.close()
        stage.bots.clear()
        return True


@dataclass(frozen=True)
class Goes(Act):
    """Closes its connection, with unread bytes."""

    who: object

    def play(self, stage):
        peer = stage.peer(self.who)
        peer.stream.close()
        peer.is_gone = True
        return True


@dataclass(frozen=True)
class Rests(Act):
    """The run is left alone until it ends."""

    def play(self, stage):
        return stage.run.has_ended()


class Peer:
    """One end of a connection."""

    def __init__(self, stream):
        stream.setblocking(False)
        self.stream, self.heard = stream, bytearray()
        self.has_ended, self.fault, self.is_gone = False, None, False

    def listen(self):
        """Reads the available bytes."""
        try:
            while not self.has_ended:
                piece = self.stream.recv(65_536)
                self.heard += piece
                self.has_ended = not piece
        except BlockingIOError:
            pass
        except OSError as fault:
            self.has_ended, self.fault = True, fault

    def sip(self):
        """Reads at most 4,096 of the available bytes, and discards them."""
        with contextlib.suppress(BlockingIOError):
            if not self.stream.recv(4_096):
                raise Wrong("saw the end of its peer's stream")

    def told(self):
        """Describes the bytes received, for the message of a failed test."""
        end = f", then {self.fault or 'the end'}" if self.has_ended else ""
        return brief(self.heard) + end

    def finds_open(self):
        """Sends a byte three times, and returns whether the peer's socket is open. If it is closed, a reset follows the
        first byte."""
        try:
            for _ in range(3):
                self.stream.send(b"\0")
                time.sleep(0.001)
        except OSError:
            self.is_gone = True
        return not self.is_gone


class Flow:
    """Bytes that an end sends this many times during the acts, as its socket accepts them. Without a number it repeats
    them without end, and discards what the end receives."""

    # The least size of the block that is sent from, in bytes. To make many megabytes takes a loaded machine so long that
    # the end falls silent before it sends any.
    BLOCK = 32_768

    def __init__(self, peer, data, times=None):
        self.peer, self.block = peer, memoryview(data * math.ceil(self.BLOCK / len(data)))
        self.is_endless = times is None
        self.sent, self.size = 0, math.inf if self.is_endless else len(data) * times
        self.is_lost = False

    def is_done(self):
        """Returns whether all bytes were sent, or the connection is lost."""
        return self.is_lost or self.sent == self.size

    def events(self):
        """Returns the events that the flow waits for."""
        return selectors.EVENT_WRITE | selectors.EVENT_READ if self.is_endless else selectors.EVENT_WRITE

    def go_on(self):
        """Sends the bytes that the socket accepts, of an endless flow at most a block."""
        if self.is_endless:
            self.peer.listen()
            self.peer.heard.clear()
        goal = self.sent + len(self.block) if self.is_endless else self.size
        try:
            while self.sent < goal:
                place = self.sent % len(self.block)
                self.sent += self.peer.stream.send(self.block[place : place + goal - self.sent])
        except BlockingIOError:
            pass
        except OSError as fault:
            self.is_lost, self.peer.fault = True, fault
