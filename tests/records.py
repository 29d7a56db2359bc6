"""Scenes of a recorded run, which behaves as one that is not recorded and has a file for each session; and of a run
that logs the beginning and the end of its sessions, with the texts of docs/FORMATS.md."""

import re
import subprocess
import time
from dataclasses import dataclass
from datetime import datetime, timezone

from acts import (
    Act, Appears, Bot, Comes, Empties, Ends, FillsTheDisk, FinishesConnect, Hears, HearsEnd, Logs, MeetsNobody, Passes,
    Pours, Says, Server, Vanishes,
)
from frames import (
    EM_01, EM_08, EM_09, EM_0C, EM_0E, FM, IM, ITS_ERR, ITS_PRN, OBS, OBS_FM, OBS_GOF, RM, UNCLOSED, UNKNOWN, YES,
)
from gateway import (
    GETS_PRN, HEARS_THE_END, IS_NOT_RESET, NOBODY_SERVES, REFUSES, STAYS_SILENT, joins, one_floods, opens,
)
from held import Wrong, same
from stage import SECONDS, Scene, full_listener, record_names, silent_door

# The first lines of a record with the default limits and without words.
HEAD = ["daide-log 2", "config 60 65526 62 1 0"]

# The most lines of a record.
MOST_LINES = 1_000_000

# The comments of a record: the one behind its head, and the time of the line that follows.
TIME = r"(\d{4}-\d\d-\d\dT\d\d:\d\d:\d\d\.\d{3}Z)"
BEGUN = re.compile(rf"# session (\d+), bot at (\S+), {TIME}")
TIMED = re.compile(rf"# {TIME}")

# The least number of seconds between two times of a record.
STEP = 0.01

COUNTS = r"bot (\d+) relayed (\d+) prn (\d+) huh; server (\d+) relayed (\d+) prn (\d+) huh; (\d+) faults; level \d+(?:; (?:NME|IAM) .*)?(?:; power \S+)?"
ENDED = re.compile(rf"^daide-gate: session (\d+) ended after [\d.]+ s: .*; {COUNTS}$", re.MULTILINE)


def last_line(counts):
    """Returns the last line of a report with the counts of both sides together: three of the bot, three of the server,
    and the faults."""
    *sides, faults = map(int, counts)
    relayed, prn, huh = (bot + server for bot, server in zip(sides[:3], sides[3:]))
    return f"relayed {relayed} prn {prn} huh {huh} faults {faults}"


def said_in(record):
    """Returns the bytes of the bot and of the server in the lines of a record."""
    said = {"bot": b"", "server": b""}
    for side in said:
        pieces = (line.rpartition(" ")[2] for line in record if line.startswith(f"1 {side} "))
        said[side] = bytes.fromhex("".join(pieces))
    return said["bot"], said["server"]


def seconds_of(text):
    """Returns the moment of a time of a record, in seconds."""
    return datetime.strptime(text, "%Y-%m-%dT%H:%M:%S.%fZ").replace(tzinfo=timezone.utc).timestamp()


def check_times(lines, number, port, began):
    """Checks the comments of a record: behind the head the session, its bot's address and a time, and later times, each
    before the line of an event, all of them since `began` and in their order."""
    first = BEGUN.fullmatch(lines[len(HEAD)])
    if first is None:
        raise Wrong(f"behind the head of record {number} stands {lines[len(HEAD)]!r}")
    same(first.groups()[:2], (str(number), f"127.0.0.1:{port}"), f"the session of record {number}")
    times = [seconds_of(first[3])]
    later = lines[len(HEAD) + 1 :]
    for line, follower in zip(later, [*later[1:], ""]):
        if line.startswith("#"):
            timed = TIMED.fullmatch(line)
            if timed is None or not follower.startswith("1 "):
                raise Wrong(f"record {number} has {line!r} before {follower!r}")
            times.append(seconds_of(timed[1]))
    moments = [began, *times, time.time()]
    # A time is cut to the millisecond.
    if any(one - 0.001 > other for one, other in zip(moments, moments[1:])):
        raise Wrong(f"the times of record {number} are {moments}")
    if any(other - one < STEP - 0.0001 for one, other in zip(times, times[1:])):
        raise Wrong(f"times of record {number} are less than {STEP} s apart: {times}")


@dataclass
class Recorded(Scene):
    """A recorded scene, with the bytes of the bot and of the server in the record of each session."""

    kept: tuple = ()

    def play(self, program):
        """Plays the scene, and notes when it began."""
        self.began = time.time()
        super().play(program)

    def end(self, stage):
        """Checks also each record, and that its report has the counts of the session's line, if there are lines."""
        super().end(stage)
        counts = {number: last_line(counts) for number, *counts in ENDED.findall(stage.run.told())}
        same(len(self.kept), self.recorded, "sessions with a record")
        for number, (name, said) in enumerate(zip(record_names(self.recorded), self.kept), 1):
            file = stage.run.folder / name
            lines = file.read_text(encoding="utf-8").splitlines()
            same(lines[:2], HEAD, f"the head of {name}")
            check_times(lines, number, stage.ports[number - 1], self.began)
            self.check(lines, said, name)
            if self.verbose:
                same(report_of(stage.run.program, file)[-1:], [counts.get(str(number))], f"the counts of {name}")

    def check(self, lines, said, name):
        """Checks that a record has these bytes."""
        for side, seen, wanted in zip(("bot", "server"), said_in(lines), said):
            same(seen, wanted, f"the {side}'s bytes in {name}")


class Full(Recorded):
    """A scene with a record that has as many lines as a record may have, and not all bytes."""

    def check(self, lines, said, name):
        """Checks the number of lines, and that their bytes are the first ones."""
        same(len(lines), MOST_LINES, f"lines of {name}")
        for side, seen, wanted in zip(("bot", "server"), said_in(lines), said):
            if not wanted.startswith(seen):
                raise Wrong(f"the {side}'s bytes in {name} are not the first {len(seen)} that it sent")


class OnADisk(Recorded):
    """A recorded scene whose files may be refused, which then is an error and no signal."""

    def conditions(self, watcher=()):
        """Returns the conditions of a run that ignores the signal."""
        return super().conditions(("sh", "-c", "trap '' XFSZ && exec \"$@\"", "sh", *watcher))


class Stopped(Recorded):
    """A scene with a record whose last line is a stop."""

    def check(self, lines, said, name):
        """Checks the bytes, and the last line."""
        super().check(lines, said, name)
        same(lines[-1], "1 stop", f"the last line of {name}")


class Left(Scene):
    """A scene beside a file that somebody made, which is left as it is."""

    def end(self, stage):
        """Checks also that the file is still empty."""
        super().end(stage)
        same(stage.run.size("session-000001.log"), 0, "the file that was there")


@dataclass(frozen=True)
class IsWritten(Act):
    """The record of this session has all that both sides said so far, although the session goes on."""

    number: int
    said: tuple

    def play(self, stage):
        file = stage.run.folder / f"session-{self.number:06}.log"
        text = file.read_text(encoding="utf-8")
        if text.endswith("\n") and said_in(text.splitlines()) == self.said:
            return True
        # No stream reports a write to a file.
        stage.awaits_moment(time.monotonic() + 0.01)
        return False


def report_of(program, file):
    """Returns the lines of the report of a record."""
    words = [str(program), "check", str(file)]
    return subprocess.run(words, capture_output=True, timeout=SECONDS, check=False).stdout.decode().splitlines()


# The log of a run of `GETS_PRN`: an IM, an RM and an OBS were relayed, and a message got a PRN.
TELLS_BOTH = """\
daide-gate: session 1 began: bot at 127.0.0.1:{0}
daide-gate: session 1 ended after *.* s: bot ended; bot 2 relayed 1 prn 0 huh; server 1 relayed 0 prn 0 huh; 0 faults; level 0
"""

IS_THERE = "daide-gate: session 1 is not recorded: its file is there already\n"

# Three sessions, which end in another order than they begin, each for another reason and with other counts.
END_IN_ANOTHER_ORDER = [
    *joins(),
    *joins(),
    *joins(),
    *opens(0),
    *opens(1),
    *opens(2),
    Says(Bot(1), UNCLOSED),
    Hears(Bot(1), ITS_PRN),
    Says(Server(1), FM),
    Hears(Bot(1), FM),
    HearsEnd(Bot(1)),
    HearsEnd(Server(1)),
    Says(Bot(2), OBS_GOF),
    Hears(Bot(2), ITS_ERR),
    Says(Bot(2), FM),
    Hears(Server(2), FM),
    HearsEnd(Server(2)),
    Says(Bot(0), OBS),
    Ends(Bot(0)),
    Hears(Server(0), OBS_FM),
    HearsEnd(Server(0)),
]

TELLS_EACH = """\
daide-gate: session 1 began: bot at 127.0.0.1:{0}
daide-gate: session 2 began: bot at 127.0.0.1:{1}
daide-gate: session 3 began: bot at 127.0.0.1:{2}
daide-gate: session 2 ended after *.* s: FM of server; bot 1 relayed 1 prn 0 huh; server 2 relayed 0 prn 0 huh; 0 faults; level 0
daide-gate: session 3 ended after *.* s: FM of bot; bot 2 relayed 0 prn 1 huh; server 1 relayed 0 prn 0 huh; 0 faults; level 0
daide-gate: session 1 ended after *.* s: bot ended; bot 2 relayed 0 prn 0 huh; server 1 relayed 0 prn 0 huh; 0 faults; level 0
"""

KEEPS_EACH = ((IM + OBS, RM), (IM + UNCLOSED, RM + FM), (IM + OBS_GOF + FM, RM))

# While the connect of the first of two bots is pending, because the server's queue was full, the second is joined and
# speaks. The server's first connection is then that of the second bot.
ARE_JOINED_IN_ANOTHER_ORDER = [
    Comes(),
    Passes(1_100),
    Empties(),
    Comes(),
    FinishesConnect(),
    Says(Bot(1), IM),
    Hears(Server(0), IM),
    Says(Server(0), RM),
    Hears(Bot(1), RM),
    Says(Bot(1), UNCLOSED),
    Hears(Bot(1), ITS_PRN),
    MeetsNobody(),
    FinishesConnect(),
    Says(Bot(0), IM),
    Hears(Server(1), IM),
    Says(Server(1), RM),
    Hears(Bot(0), RM),
    Says(Bot(0), OBS),
    Hears(Server(1), OBS),
    Says(Server(1), YES),
    Hears(Bot(0), YES),
    Says(Bot(1), FM),
    Hears(Server(0), FM),
    HearsEnd(Server(0)),
    Says(Server(1), FM),
    Hears(Bot(0), FM),
    HearsEnd(Bot(0)),
]

TELLS_AS_THEY_CAME = """\
daide-gate: session 1 began: bot at 127.0.0.1:{0}
daide-gate: session 2 began: bot at 127.0.0.1:{1}
daide-gate: session 2 ended after *.* s: FM of bot; bot 2 relayed 1 prn 0 huh; server 1 relayed 0 prn 0 huh; 0 faults; level 0
daide-gate: session 1 ended after *.* s: FM of server; bot 2 relayed 0 prn 0 huh; server 3 relayed 0 prn 0 huh; 0 faults; level 0
"""

KEEPS_AS_THEY_CAME = ((IM + OBS, RM + YES + FM), (IM + UNCLOSED + FM, RM))

# The frame that ends a session or is its fault, who sends it, what both sides receive, and the line's cause and counts.
ENDINGS = [
    (Bot, FM, b"", FM, "FM of bot; bot 2 relayed 0 prn 0 huh; server 1 relayed 0 prn 0 huh; 0 faults; level 0"),
    (Server, FM, FM, b"", "FM of server; bot 1 relayed 0 prn 0 huh; server 2 relayed 0 prn 0 huh; 0 faults; level 0"),
    (Bot, EM_08, b"", EM_08, "EM of bot; bot 2 relayed 0 prn 0 huh; server 1 relayed 0 prn 0 huh; 0 faults; level 0"),
    (Server, EM_08, EM_08, b"",
     "EM of server; bot 1 relayed 0 prn 0 huh; server 2 relayed 0 prn 0 huh; 0 faults; level 0"),
    (Bot, UNKNOWN[:4], EM_08, FM,
     "fault 08 of bot: unknown message, type 05 at byte 0; bot 1 relayed 0 prn 0 huh; server 1 relayed 0 prn 0 huh; 1 faults; level 0"),
    (Server, RM, FM, EM_0C,
     "fault 0C of server: second RM, type 01 at byte 0; bot 1 relayed 0 prn 0 huh; server 1 relayed 0 prn 0 huh; 1 faults; level 0"),
    (Bot, b"\x02\x00\x00\x03", EM_09, FM,
     "fault 09 of bot: wrong length 0003 at byte 2; bot 1 relayed 0 prn 0 huh; server 1 relayed 0 prn 0 huh; 1 faults; level 0"),
    (Bot, b"\x02\x00\x00\x06\x48\x03\x60\x00", EM_0E, FM,
     "fault 0E of bot: invalid token 6000 at byte 6; bot 1 relayed 0 prn 0 huh; server 1 relayed 0 prn 0 huh; 1 faults; level 0"),
    (Server, b"\x02\x00\x00\x02\x58\x01", FM, EM_0E,
     "fault 0E of server: invalid token 5801 at byte 4; bot 1 relayed 0 prn 0 huh; server 1 relayed 0 prn 0 huh; 1 faults; level 0"),
]

# The session after them, whose bot sends no IM.
LAST = len(ENDINGS)

# One session after another, each with another end.
END_IN_EACH_WAY = [
    *(
        act
        for number, (who, said, bot, server, _) in enumerate(ENDINGS)
        for act in (
            *joins(),
            *opens(number),
            Says(who(number), said),
            Hears(Bot(number), bot),
            Hears(Server(number), server),
            HearsEnd(Bot(number)),
            HearsEnd(Server(number)),
        )
    ),
    *joins(),
    Hears(Bot(LAST), EM_01),
    HearsEnd(Bot(LAST)),
    HearsEnd(Server(LAST)),
]

ENDS = [*(row[-1] for row in ENDINGS), "no IM in time; bot 0 relayed 0 prn 0 huh; server 0 relayed 0 prn 0 huh; 1 faults; level 0"]

TELLS_EACH_END = "".join(
    f"daide-gate: session {number} began: bot at 127.0.0.1:{{{number - 1}}}\n"
    f"daide-gate: session {number} ended after *.* s: {end}\n"
    for number, end in enumerate(ENDS, 1)
)

KEEPS_EACH_END = (
    *((IM + said, RM) if who is Bot else (IM, RM + said) for who, said, *_ in ENDINGS),
    (b"", b""),
)

TELLS_SPENT = """\
daide-gate: session 1 began: bot at 127.0.0.1:{0}
daide-gate: turns spent
daide-gate: session 1 ended after *.* s: turns spent; bot 0 relayed 0 prn 0 huh; server 0 relayed 0 prn 0 huh; 0 faults; level 0
"""

TELLS_UNREACHED = f"""\
daide-gate: session 1 began: bot at 127.0.0.1:{{0}}
{REFUSES}\
daide-gate: session 1 ended after *.* s: no server; bot 0 relayed 0 prn 0 huh; server 0 relayed 0 prn 0 huh; 0 faults; level 0
daide-gate: session 2 began: bot at 127.0.0.1:{{1}}
daide-gate: session 2 ended after *.* s: no server; bot 0 relayed 0 prn 0 huh; server 0 relayed 0 prn 0 huh; 0 faults; level 0
"""

UNMADE = "daide-gate: session 1 is not recorded: its file could not be made (entity not found)\n"

FULL = f"daide-gate: record of session 1 broke off: it has {MOST_LINES} lines\n"


def says_many(count):
    """A bot says OBS this many times, which has two lines each in a record."""
    return [
        *joins(),
        *opens(0),
        Pours(Bot(0), OBS, count),
        Hears(Server(0), OBS * count),
        Says(Bot(0), FM),
        Hears(Server(0), FM),
        HearsEnd(Server(0)),
    ]


CUT = "daide-gate: record of session 1 broke off: it could not be written (file too large)\n"

# The disk is full in the middle of a session, which goes on without its record.
DISK_IS_FULL = [
    *joins(),
    *opens(0),
    IsWritten(1, (IM, RM)),
    FillsTheDisk(),
    Says(Bot(0), OBS),
    Hears(Server(0), OBS),
    Logs(CUT),
    Says(Server(0), YES),
    Hears(Bot(0), YES),
    Says(Bot(0), FM),
    Hears(Server(0), FM),
    HearsEnd(Server(0)),
]

# The disk is full before the last turn of a session.
DISK_IS_FULL_AT_LAST = [
    *joins(),
    *opens(0),
    IsWritten(1, (IM, RM)),
    FillsTheDisk(),
    Says(Bot(0), FM),
    Hears(Server(0), FM),
    HearsEnd(Server(0)),
]

IS_FULL = "daide-gate: full: 2 of 2 sessions; further bots wait\n"
HAS_ROOM = "daide-gate: no longer full\n"

# Both places are taken, one becomes free and is taken again, and both become free.
BECOMES_FREE = [
    *joins(),
    *joins(),
    *opens(0),
    *opens(1),
    Says(Bot(0), FM),
    Hears(Server(0), FM),
    HearsEnd(Server(0)),
    Logs(HAS_ROOM),
    *joins(),
    *opens(2),
    Says(Bot(1), FM),
    Hears(Server(1), FM),
    HearsEnd(Server(1)),
    Logs(HAS_ROOM, 2),
    Says(Bot(2), FM),
    Hears(Server(2), FM),
    HearsEnd(Server(2)),
]

TELLS_OF_ROOM = f"""\
daide-gate: session 1 began: bot at 127.0.0.1:{{0}}
daide-gate: session 2 began: bot at 127.0.0.1:{{1}}
{IS_FULL}\
daide-gate: session 1 ended after *.* s: FM of bot; bot 2 relayed 0 prn 0 huh; server 1 relayed 0 prn 0 huh; 0 faults; level 0
{HAS_ROOM}\
daide-gate: session 3 began: bot at 127.0.0.1:{{2}}
{IS_FULL}\
daide-gate: session 2 ended after *.* s: FM of bot; bot 2 relayed 0 prn 0 huh; server 1 relayed 0 prn 0 huh; 0 faults; level 0
{HAS_ROOM}\
daide-gate: session 3 ended after *.* s: FM of bot; bot 2 relayed 0 prn 0 huh; server 1 relayed 0 prn 0 huh; 0 faults; level 0
"""

# Half a second passes before a bot speaks.
SPEAKS_LATE = [
    *joins(),
    Passes(500),
    *opens(0),
    Says(Bot(0), FM),
    Hears(Server(0), FM),
    HearsEnd(Server(0)),
]


class Later(Recorded):
    """A scene in which the first line of the record has a time half a second after the beginning of its session."""

    def check(self, lines, said, name):
        """Checks also the distance of the first two times."""
        super().check(lines, said, name)
        times = [seconds_of(line.split()[-1]) for line in lines if line.startswith("#")]
        if not 0.4 <= times[1] - times[0] < SECONDS:
            raise Wrong(f"the times of {name} are {times}")


# Whenever nothing moves, the record has all that was said.
IS_READ_BESIDE = [
    *joins(),
    *opens(0),
    IsWritten(1, (IM, RM)),
    Says(Bot(0), OBS),
    Hears(Server(0), OBS),
    IsWritten(1, (IM + OBS, RM)),
    Says(Server(0), YES),
    Hears(Bot(0), YES),
    IsWritten(1, (IM + OBS, RM + YES)),
    Says(Bot(0), UNCLOSED),
    Hears(Bot(0), ITS_PRN),
    IsWritten(1, (IM + OBS + UNCLOSED, RM + YES)),
    Says(Bot(0), FM),
    Hears(Server(0), FM),
    HearsEnd(Server(0)),
]

# The number of messages that have more than 65,536 lines, and the number that have more than a record may have.
LONG, TOO_LONG = 40_000, 500_010

SCENES = [
    Scene("recorded_bot_gets_prn", GETS_PRN, recorded=1),
    Scene(
        "recorded_run_tells_that_nobody_listens", NOBODY_SERVES, "sessions = 2", REFUSES, server=silent_door, recorded=0,
    ),
    Scene("recorded_run_waits", STAYS_SILENT, "im_seconds = 1", waits=True, recorded=1),
    # A flood of a second may have more lines than a record.
    Scene("recorded_messages_pass_beside_a_flood", one_floods(0.2), "sessions = 2", recorded=2),
    Scene("recorded_run_ends_without_a_reset", IS_NOT_RESET, recorded=1),
    Scene("verbose_run_tells_both_ends_of_a_session", GETS_PRN, told=TELLS_BOTH, verbose=True),
    Scene("verbose_run_is_recorded", GETS_PRN, told=TELLS_BOTH, verbose=True, recorded=1),
    Scene("records_follow_those_of_an_earlier_run", GETS_PRN, recorded=2, there=1),
    Scene("records_follow_the_millionth", GETS_PRN, recorded=2, there=1, first=1_000_000),
    Left("record_that_appears_is_left_as_it_is", [Appears(), *GETS_PRN], told=IS_THERE, recorded=1),
    Scene("folder_of_records_is_made", GETS_PRN, recorded=1, folder="records/of-today"),
    Recorded("record_is_read_beside_its_session", IS_READ_BESIDE, recorded=1, kept=((IM + OBS + UNCLOSED + FM, RM + YES),)),
    Later("record_has_times", SPEAKS_LATE, recorded=1, kept=((IM + FM, RM),)),
    Scene("each_line_names_its_own_session", END_IN_ANOTHER_ORDER, "sessions = 3", TELLS_EACH, verbose=True),
    Recorded(
        "each_record_is_of_its_own_session", END_IN_ANOTHER_ORDER, "sessions = 3", TELLS_EACH, verbose=True,
        recorded=3, kept=KEEPS_EACH,
    ),
    Recorded(
        "records_are_numbered_as_bots_came", ARE_JOINED_IN_ANOTHER_ORDER, "sessions = 2", TELLS_AS_THEY_CAME,
        server=full_listener, verbose=True, recorded=2, kept=KEEPS_AS_THEY_CAME,
    ),
    Recorded(
        "each_cause_of_an_end_is_told", END_IN_EACH_WAY, f"sessions = {LAST + 1}\nim_seconds = 1", TELLS_EACH_END,
        verbose=True, recorded=LAST + 1, kept=KEEPS_EACH_END,
    ),
    Stopped(
        "spent_turns_of_a_recorded_session_are_told", HEARS_THE_END, "turns = 1", TELLS_SPENT, verbose=True, recorded=1,
        kept=((b"", b""),),
    ),
    Scene("verbose_run_tells_of_spent_turns", HEARS_THE_END, "turns = 1", TELLS_SPENT, verbose=True),
    Scene(
        "verbose_run_tells_of_bots_without_a_server", NOBODY_SERVES, "sessions = 2", TELLS_UNREACHED,
        server=silent_door, verbose=True,
    ),
    Scene(
        "verbose_run_tells_of_a_place_that_becomes_free", BECOMES_FREE, "max_sessions = 2\nsessions = 3", TELLS_OF_ROOM,
        verbose=True,
    ),
    OnADisk("record_that_a_full_disk_cuts_is_told", DISK_IS_FULL, told=CUT, recorded=1, kept=((IM, RM),)),
    OnADisk("record_that_is_cut_in_its_last_turn_is_told", DISK_IS_FULL_AT_LAST, told=CUT, recorded=1, kept=((IM, RM),)),
    Scene("record_that_cannot_be_made_is_told", [Vanishes(), *GETS_PRN], told=UNMADE, recorded=0, folder="records"),
    Recorded("long_record_is_whole", says_many(LONG), recorded=1, kept=((IM + OBS * LONG + FM, RM),)),
    Full("full_record_is_told", says_many(TOO_LONG), told=FULL, recorded=1, kept=((IM + OBS * TOO_LONG + FM, RM),)),
]
