"""Scenes in which standard error does not take each line. Nothing of that ends a run, as docs/OPERATING.md says."""

import contextlib
import fcntl
import os

from acts import Bot, Comes, FinishesConnect, Hears, HearsEnd, MeetsNobody, ReadsErrors, Says, Server, Waits
from frames import FM, IM_FM
from gateway import joins, opens
from stage import BEGINNING, HOST, Scene

# The size of the smallest pipe, and the call that sets it (F_SETPIPE_SZ).
PIPE, SET_PIPE_SIZE = 4_096, 1031


class NarrowPipe:
    """A pipe as standard error that has room for few lines. A write waits until all of it has room."""

    def __init__(self):
        self.reader, self.writer = os.pipe()
        fcntl.fcntl(self.writer, SET_PIPE_SIZE, PIPE)
        os.set_blocking(self.reader, False)
        self.text = b""

    def fileno(self):
        """Returns the descriptor for the program."""
        return self.writer

    def read(self):
        """Reads all bytes that are in the pipe."""
        with contextlib.suppress(BlockingIOError):
            while True:
                self.text += os.read(self.reader, 65_536)

    def told(self):
        """Returns the text that the program wrote, after the spaces that filled the pipe."""
        self.read()
        return self.text.decode(errors="replace").lstrip(" ")

    def close(self):
        """Closes both ends."""
        os.close(self.reader)
        os.close(self.writer)


class FullPipe(NarrowPipe):
    """The same pipe. It is full at first, and a write to it fails instead of waiting."""

    def __init__(self):
        super().__init__()
        os.set_blocking(self.writer, False)
        with contextlib.suppress(BlockingIOError):
            while True:
                os.write(self.writer, b" ")


class Untaken:
    """A standard error that takes nothing: `/dev/full`."""

    def __init__(self):
        self.writer = os.open("/dev/full", os.O_WRONLY)

    def fileno(self):
        """Returns the descriptor for the program."""
        return self.writer

    def told(self):
        """Returns no text."""
        return ""

    def close(self):
        """Closes it."""
        os.close(self.writer)


class ClosedPipe(Untaken):
    """A pipe whose reader is closed."""

    def __init__(self):
        reader, self.writer = os.pipe()
        os.close(reader)


def ends(number):
    """A bot ends its session, which is over once its server receives the end."""
    return [Says(Bot(number), FM), Hears(Server(number), FM), HearsEnd(Server(number))]


TWO_SESSIONS = [*joins(), *opens(0), *joins(), *opens(1), *ends(1), *ends(0)]

# The first line finds no room. Each later one does, and is there.
HAS_ROOM_LATER = [*joins(), *opens(0), ReadsErrors(), *joins(), *opens(1), *ends(1), *ends(0)]

LATER_LINES = """\
daide-gate: session 2 began: bot at 127.0.0.1:{1}
daide-gate: session 2 ended after *.* s: FM of bot; bot 2 relayed 0 prn 0 huh; server 1 relayed 0 prn 0 huh; 0 faults; level 0
daide-gate: session 1 ended after *.* s: FM of bot; bot 2 relayed 0 prn 0 huh; server 1 relayed 0 prn 0 huh; 0 faults; level 0
"""

# The number of bots, one after another, whose lines don't fit into the pipe.
MANY = 30


def lines_of(number, port="50000"):
    """Returns the lines of a session whose bot ends it at once. Its port has five digits."""
    return (
        f"daide-gate: session {number} began: bot at 127.0.0.1:{port}\n"
        f"daide-gate: session {number} ended after *.* s: FM of bot; bot 2 relayed 0 prn 0 huh; "
        "server 0 relayed 0 prn 0 huh; 0 faults; level 0\n"
    )


# The line of a run whose one place is taken. It is written once, since a bot waits whenever the place is free.
IS_FULL = "daide-gate: full: 1 of 1 sessions; further bots wait\n"


def all_lines():
    """Returns the lines of all sessions, with the line of a full run after the first one."""
    first, *others = (line for number in range(MANY) for line in lines_of(number + 1, f"{{{number}}}").splitlines(True))
    return "".join((first, IS_FULL, *others))


# The line of a reached server, which has no place of its own among the others. Its port has five digits.
REACHES = "daide-gate: session {} reached the server from 127.0.0.1:50000\n"

# The number of the first session whose lines find no room.
FIRST_HELD = next(
    number
    for number in range(1, MANY)
    if len(BEGINNING.format(50_000, f"{HOST}:50000").replace("*", "1") + IS_FULL)
    + sum(len(lines_of(n + 1) + REACHES.format(n + 1)) for n in range(number)) > PIPE
)

# If nobody reads standard error, the run is held up in the first line without room, as docs/OPERATING.md says: it accepts
# no further bot, and uses no processor time. It goes on once the lines are read, and none is lost.
# All bots are there before the first one speaks, so that the one place is never free without a bot that waits for it.
NOBODY_READS = [
    Comes(),
    *(act for number in range(1, MANY) for act in (Comes(), Says(Bot(number), IM_FM))),
    Says(Bot(0), IM_FM),
    *(FinishesConnect() for _ in range(FIRST_HELD)),
    Waits(300),
    MeetsNobody(),
    ReadsErrors(),
    *(FinishesConnect() for _ in range(FIRST_HELD, MANY)),
    *(Hears(Server(number), IM_FM) for number in range(MANY)),
]

SCENES = [
    Scene(
        "lost_error_line_silences_no_later_one", HAS_ROOM_LATER, "sessions = 2", LATER_LINES, errors=FullPipe,
        verbose=True, begins=False,
    ),
    Scene(
        "unread_error_lines_hold_up_the_run", NOBODY_READS, f"max_sessions = 1\nsessions = {MANY}",
        all_lines(), errors=NarrowPipe, verbose=True,
    ),
    Scene("closed_standard_error_ends_no_run", TWO_SESSIONS, "sessions = 2", errors=ClosedPipe, verbose=True, begins=False),
    Scene("full_standard_error_ends_no_run", TWO_SESSIONS, "sessions = 2", errors=Untaken, verbose=True, begins=False),
]
