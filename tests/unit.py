"""The unit for systemd with settings of examples/: its commands are played as systemd would play them.

The files of settings and the folder that systemd makes are below a folder of the test.
"""

import contextlib
import os
import pathlib
import re
import shlex
import socket
import subprocess
import tempfile
import time

from control import COLUMNS, received, rest
from frames import FM, IM, OBS, RM
from held import Wrong, same
from runs import SECONDS, TOP
from stage import HOST, free_port

UNIT = TOP / "examples" / "daide-gate@.service"

# A program that takes a second until it begins a run.
SLOW = """\
#!/bin/sh
[ "$1" != run ] || sleep 1
exec PROGRAM "$@"
"""

# The most that the command of a start may take, in seconds, if the run does not begin or takes no request.
BRIEF = 5

# The bots of a match.
BOTS = 7

# The least that a stop waits for the games, in seconds.
GAMES = 600


def unit_lines():
    """Returns the keys of the unit with their values, in their order. Lines that end in a backslash go on."""
    text = re.sub(r"\\\n\s*", " ", UNIT.read_text(encoding="utf-8"))
    return re.findall(r"^([A-Za-z]+)=(.*)$", text, re.M)


def values(key):
    """Returns the values of a key of the unit."""
    return [value for name, value in unit_lines() if name == key]


def example(name):
    """Returns a file of settings of examples/, with what the package changes in it."""
    text = (TOP / "examples" / f"{name}.toml").read_text(encoding="utf-8")
    return text.replace("endless = false", "endless = true").replace("\n# control = ", "\ncontrol = ")


class Unit:
    """A service of the unit, beside a server."""

    def __init__(self, program, name, text, edited=lambda command: command):
        self.program, self.name, self.edited = program, name, edited
        self.room = tempfile.TemporaryDirectory()
        self.top = pathlib.Path(self.room.name)
        # The folder that systemd makes, and the one in which the commands run.
        self.folder = self.top / "run" / values("RuntimeDirectory")[0].replace("%i", name)
        self.folder.mkdir(parents=True)
        inside = [value.replace("%i", name).replace("%t", f"{self.top}/run") for value in values("WorkingDirectory")]
        self.inside = inside[0] if inside else self.top
        self.listener = socket.create_server((HOST, 0))
        self.listener.settimeout(SECONDS)
        self.port = free_port()
        text = text.replace("16713", str(self.port)).replace("16714", str(self.listener.getsockname()[1]))
        self.settings = self.top / f"{name}.toml"
        self.settings.write_text(text.replace("/run/", f"{self.top}/run/"), encoding="utf-8")
        self.main = None

    def __enter__(self):
        self.main = self.begin(*self.commands("ExecStart"))
        return self

    def __exit__(self, *fault):
        if self.main.poll() is None:
            self.main.kill()
        self.main.communicate()
        self.listener.close()
        self.room.cleanup()

    def commands(self, key):
        """Returns the words of the commands of a key, without the mark of those that may fail."""
        replaced = (("%i", self.name), ("/usr/bin/daide-gate", str(self.program)), ("/etc/daide-gate", str(self.top)))
        found = []
        for command in values(key):
            for old, new in replaced:
                command = command.replace(old, new)
            found.append(shlex.split(self.edited(command.removeprefix("-")).replace("$$", "$")))
        return found

    def begin(self, words):
        """Begins a command."""
        more = {"MAINPID": str(self.main.pid)} if self.main else {}
        return subprocess.Popen(words, cwd=self.inside, env={**os.environ, **more}, stdin=subprocess.DEVNULL,
                                stdout=subprocess.PIPE, stderr=subprocess.PIPE, text=True)

    def ended(self, process):
        """Waits until a command has ended. Returns its status. The system forgets a run that has ended meanwhile."""
        over = time.monotonic() + SECONDS
        while process.poll() is None:
            self.main.poll()
            if time.monotonic() > over:
                process.kill()
                raise Wrong(f"a command does not end within {SECONDS} s")
            time.sleep(0.01)
        process.communicate()
        return process.returncode

    def starts(self):
        """Plays the commands of the start that follow the run. Returns their statuses."""
        return [self.ended(self.begin(words)) for words in self.commands("ExecStartPost")]

    def status(self):
        """Returns the lines of `status`."""
        return self.begin([self.program, "status", self.settings]).communicate(timeout=SECONDS)[0].splitlines()

    def opens(self):
        """A session opens. Returns both ends."""
        bot = socket.create_connection((HOST, self.port), SECONDS)
        server, _ = self.listener.accept()
        server.settimeout(SECONDS)
        bot.sendall(IM)
        same(received(server, len(IM)), IM, "received by the server")
        server.sendall(RM)
        same(received(bot, len(RM)), RM, "received by the bot")
        return bot, server


def unit_has_started_once_status_answers(program):
    """For the settings of a match and those of the package. The socket of the run is in the folder of the unit."""
    for name in ("settings", "tournament"):
        with tempfile.TemporaryDirectory() as room:
            slow = pathlib.Path(room) / "slow"
            slow.write_text(SLOW.replace("PROGRAM", shlex.quote(str(program))), encoding="utf-8")
            slow.chmod(0o755)
            with Unit(slow, name, example(name)) as unit:
                same(unit.starts(), [0], f"the statuses of the start with {name}.toml")
                same(unit.status()[3:], COLUMNS.splitlines(), f"the status with {name}.toml")
                same(len(list(unit.folder.iterdir())), 1, f"the sockets with {name}.toml")


def bots_that_come_back_find_places(program):
    """In a match of seven bots each one comes back while its old session, of which no end came, still holds a place."""
    with Unit(program, "tournament", example("tournament")) as unit:
        unit.starts()
        ends = [stream for _ in range(2 * BOTS) for stream in unit.opens()]
        same(unit.status()[0].partition(",")[0], f"{2 * BOTS} open", "the first line of the status")
        for stream in ends:
            stream.close()


def unit_waits_for_no_run_that_takes_no_request(program):
    """A run that can't listen, and one without `control`, are not waited for."""
    cannot = example("settings").replace('"127.0.0.1:16713"', '"192.0.2.1:1"')
    without = example("settings").replace("\ncontrol = ", "\n# control = ")
    for text, kind in ((cannot, "that can't listen"), (without, "without control")):
        begun = time.monotonic()
        with Unit(program, "settings", text) as unit:
            same(unit.starts(), [0], f"the statuses of the start of a run {kind}")
        if time.monotonic() - begun > BRIEF:
            raise Wrong(f"the start of a run {kind} took more than {BRIEF} s")


def unit_stop_leaves_games_time(program):
    """A stop lets an open session end by itself, and accepts no further bot."""
    with Unit(program, "settings", example("settings")) as unit:
        unit.starts()
        bot, server = unit.opens()
        with contextlib.closing(bot), contextlib.closing(server):
            stop = unit.begin(unit.commands("ExecStop")[0])
            while socket.socket().connect_ex((HOST, unit.port)) == 0:
                time.sleep(0.01)
            bot.sendall(OBS)
            same(received(server, len(OBS)), OBS, "received by the server during a stop")
            bot.sendall(FM)
            same(rest(server), FM, "received by the server at the end")
            same(rest(bot), b"", "received by the bot at the end")
        same((unit.ended(stop), unit.ended(unit.main)), (0, 0), "the statuses of the stop and of the run")


def unit_stop_ends_games_by_the_protocol(program):
    """A session that goes on after the time that a stop leaves it is ended with an FM to both sides."""
    with Unit(program, "settings", example("settings"), lambda command: command.replace(str(GAMES), "1")) as unit:
        unit.starts()
        bot, server = unit.opens()
        with contextlib.closing(bot), contextlib.closing(server):
            first, second = unit.commands("ExecStop")
            same(unit.ended(unit.begin(first)), 1, "the status of a stop whose time is over")
            stop = unit.begin(second)
            same((rest(bot), rest(server)), (FM, FM), "received by both sides")
        same((unit.ended(stop), unit.ended(unit.main)), (0, 0), "the statuses of the stop and of the run")


def unit_stop_has_time_for_its_commands(_):
    """systemd waits longer for each command than that does, and the last one waits as long as a run may take: two stall
    timeouts and a second."""
    timeouts = [int(re.search(r"--timeout (\d+) ", command)[1]) for command in values("ExecStop")]
    stall = int(re.search(r"^stall_seconds = (\d+)$", example("settings"), re.M)[1])
    same(timeouts[0], GAMES, "the time for the games")
    if not max(timeouts) < int(values("TimeoutStopSec")[0]):
        raise Wrong(f"systemd waits for {values('TimeoutStopSec')} s, and the commands for {timeouts}")
    if not 2 * stall + 1 < timeouts[-1]:
        raise Wrong(f"the last command waits for {timeouts[-1]} s, and a run may take {2 * stall + 1} s")


TESTS = [
    unit_has_started_once_status_answers,
    bots_that_come_back_find_places,
    unit_waits_for_no_run_that_takes_no_request,
    unit_stop_leaves_games_time,
    unit_stop_ends_games_by_the_protocol,
    unit_stop_has_time_for_its_commands,
]
