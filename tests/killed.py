"""A run that is killed, with its records.

The expected lines are worked out from docs/FORMATS.md and from the bytes that the peers sent.
"""

import os
import signal
import subprocess

from control import SECONDS, Match, speaks
from frames import OBS
from held import Wrong, same

# The number of sessions in conversation.
SESSIONS = 20

# What was said in each session before a wait of the program, and so is in its record: lines of the report, without their
# numbers.
SPOKEN = [
    "1 bot IM 4 relay", "1 server RM 0 relay", "1 bot DM 2 relay", "1 server DM 8 relay", "1 bot DM 4 prn",
]

# What may follow: the frames that were under way when the run was killed.
UNDER_WAY = "1 bot DM 2 relay"

# The statuses of `check --explain`: a message got PRN, and the last line is cut as well.
REFUSED, CUT = 1, 3


def checked(match, record):
    """Returns the lines of a record's report that are of frames, without their numbers, and the status."""
    done = subprocess.run([*match.program, "check", "--explain", str(record)], capture_output=True, check=False,
                          timeout=SECONDS, text=True)
    same(done.stderr, "", f"told of {record.name}")
    lines = [line.partition(" ")[2] for line in done.stdout.splitlines() if line[:1].isdigit()]
    return lines, done.returncode


def killed_run_leaves_whole_records(program):
    """A run is killed with SIGKILL while twenty recorded sessions are in conversation: each record has all but what moved
    in the last moment, and `check --explain` reads each."""
    with Match(program, f"max_sessions = {SESSIONS}\nsessions = {SESSIONS}", ("--record", "records")) as match:
        ends = [match.opens() for _ in range(SESSIONS)]
        for bot, server in ends:
            speaks(bot, server)
        # A status is answered in a round, so all that was spoken was written before a wait.
        match.status()
        for bot, _ in ends:
            bot.sendall(OBS)
        os.kill(match.process.pid, signal.SIGKILL)
        match.process.wait(SECONDS)
        records = sorted((match.room / "records").glob("*.log"))
        same(len(records), SESSIONS, "records")
        for record in records:
            lines, status = checked(match, record)
            same(lines[:len(SPOKEN)], SPOKEN, f"the report of {record.name}")
            if lines[len(SPOKEN):] not in ([], [UNDER_WAY]):
                raise Wrong(f"{record.name} ends with {lines[len(SPOKEN):]}")
            if status not in (REFUSED, CUT):
                raise Wrong(f"the status of {record.name} is {status}")


TESTS = [killed_run_leaves_whole_records]
