"""A scene under strace: each answer of the gateway that fits into 16,384 bytes is one system call, as docs/OPERATING.md
says.

The calls are those that write to a socket. A call that accepted nothing counts as well.
"""

import os
import pathlib
import re
import shutil
import subprocess
import tempfile
import time
from dataclasses import dataclass

from acts import Bot, Hears, HearsEnd, Says, Server
from frames import FM, IM, ITS_ERR, ITS_PRN, OBS_GOF, RM, UNCLOSED, misnamed, unclosed_name
from gateway import joins, opens
from held import NotPlayed, Wrong, same
from stage import Scene, begun

# The capacity of a socket's write buffer.
MOST_IN_ONE = 16_384

# The messages of a bot and their answers: short ones, the longest that fit, the shortest that do not fit, and one that
# is far longer.
ANSWERS = [
    (UNCLOSED, ITS_PRN),
    (OBS_GOF, ITS_ERR),
    unclosed_name(8_185),
    misnamed(8_179),
    unclosed_name(8_186),
    misnamed(8_180),
    misnamed(30_000),
]

ACTS = [
    *joins(),
    *opens(0),
    *(act for said, answer in ANSWERS for act in (Says(Bot(0), said), Hears(Bot(0), answer))),
    Says(Bot(0), FM),
    Hears(Server(0), FM),
    HearsEnd(Server(0)),
    HearsEnd(Bot(0)),
]

# The time in seconds within which strace writes the end of a program that has ended.
SECONDS = 5

# A call: its name, its descriptor, its bytes, and its result.
CALL = re.compile(r"(?:\d+ +)?(?:write|writev|sendto|sendmsg)\((\d+), (.*)\) += (-?\d+)")


@dataclass(frozen=True)
class Call:
    """A call that writes: its descriptor, and the bytes that it accepted."""

    descriptor: int
    taken: bytes


def watcher(trace):
    """Returns the words before those of a program whose calls are written to this file. The program stays the child of
    its parent, and strace ends with it."""
    calls = "trace=write,writev,sendto,sendmsg"
    return ["strace", "-D", "-f", "-xx", "-s", "100000", "-e", "signal=none", "-e", calls, "-o", str(trace)]


def ended(trace):
    """Returns the lines of the trace of a program that has ended."""
    until = time.monotonic() + SECONDS
    while time.monotonic() < until:
        text = trace.read_text(encoding="ascii") if trace.exists() else ""
        if re.search(r"\+\+\+ (exited|killed) .*\+\+\+\n$", text):
            return text.splitlines()
        time.sleep(0.01)
    return []


def need_strace(room):
    """Tries strace on a program that does nothing."""
    if not shutil.which("strace"):
        raise NotPlayed("there is no strace")
    trace = pathlib.Path(room) / "trial"
    tried = subprocess.run(
        [*watcher(trace), "true"], stdin=subprocess.DEVNULL, stdout=subprocess.DEVNULL, stderr=subprocess.PIPE,
        timeout=SECONDS, check=False,
    )
    if tried.returncode or not ended(trace):
        raise NotPlayed(f"strace can't trace here, and says {tried.stderr.decode(errors='replace')!r}")


def calls_in(lines):
    """Returns the calls of these lines, in order."""
    calls = []
    for line in lines:
        if found := CALL.fullmatch(line):
            handed = "".join(re.findall(r'"((?:\\x[0-9a-f]{2})*)"', found[2])).replace("\\x", "")
            calls.append(Call(int(found[1]), bytes.fromhex(handed)[: max(int(found[3]), 0)]))
    return calls


def same_writes(calls, wanted):
    """Checks that the calls wrote these frames: each that fits into one call by one, and each other one by more."""
    for number, frame in enumerate(wanted):
        where = f"frame {number} of the bot, {len(frame)} bytes"
        if len(frame) <= MOST_IN_ONE:
            same(calls[0].taken if calls else b"", frame, f"{where}: its one call")
            calls = calls[1:]
            continue
        taken, count = b"", 0
        while len(taken) < len(frame) and count < len(calls):
            taken, count = taken + calls[count].taken, count + 1
        same(taken, frame, f"{where}: its calls")
        if count < 2:
            raise Wrong(f"{where}: saw one call, wanted more")
        calls = calls[count:]
    same([call.taken for call in calls], [], "calls after all frames")


class Traced(Scene):
    """A scene with a traced program."""

    def play(self, program):
        """Plays the scene, and checks the calls that wrote to the bot. Its descriptor is the one that accepted the
        RM."""
        with tempfile.TemporaryDirectory() as room:
            need_strace(room)
            trace = pathlib.Path(room) / "trace"
            with begun(program, self.conditions(watcher(trace))) as stage:
                stage.play(self.acts)
                self.end(stage)
            calls = calls_in(ended(trace))
        bots = {call.descriptor for call in calls if call.taken == RM}
        same(len(bots), 1, "descriptors that took the RM")
        same_writes([call for call in calls if call.descriptor in bots], [RM, *(answer for _, answer in ANSWERS)])
        others = [call.taken for call in calls if call.descriptor not in bots]
        same(others, [b"listening\n", IM, FM], "calls that wrote to others")


SCENES = [Traced("answers_go_out_in_one_write_each", ACTS)]
