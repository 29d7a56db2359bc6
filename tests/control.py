"""The control socket of a run, and the commands `status` and `stop`, over real sockets.

The expected texts are worked out from docs/FORMATS.md. Each wait is bounded.
"""

import contextlib
import json
import os
import pathlib
import re
import shutil
import signal
import socket
import stat
import subprocess
import tempfile
import time

from frames import (
    FM, HLO_AUS, HUH_OF_GOF, IAM_AUS, IAM_ENG, IM, IM_FM, ITS_PRN, NAMED, OBS, RM, UNCLOSED, WILD_NAME, YES, YES_AUS,
)
from held import NotPlayed, Wrong, same, take_signals
from runs import TOP
from stage import HOST, free_port

# The time limit of each wait, in seconds.
SECONDS = 20

# The number of sessions of the larger matches.
SESSIONS = 20

# The number of hostile clients at the control socket.
HOSTILE = 300

# The answer of a run that carries out a stop, before the end of the stream.
STOPPING = b"stopping\n"

COLUMNS = """\
                   from bot   from server     bytes for  bot
   no phase   relay PRN HUH relay PRN HUH    bot server idle bot, its name and its power"""


class Match:
    """A run with a control socket, and a server, in a folder that only this user may enter."""

    def __init__(self, program, settings="", words=(), control=None):
        self.program = [str(program)] if isinstance(program, pathlib.Path) else program
        self.room = pathlib.Path(tempfile.mkdtemp(prefix="control-"))
        self.control = str(self.room / "control") if control is None else control
        self.words, self.port = words, free_port()
        self.listener = socket.create_server((HOST, 0), backlog=512)
        self.listener.settimeout(SECONDS)
        server = self.listener.getsockname()[1]
        self.settings = self.room / "settings.toml"
        self.settings.write_text(
            f"listen = '{HOST}:{self.port}'\nserver = '{HOST}:{server}'\ncontrol = '{self.control}'\n{settings}\n",
            encoding="utf-8",
        )
        self.process, self.bots, self.servers = None, [], []

    def __enter__(self):
        self.process = subprocess.Popen(
            [*self.program, "run", *self.words, str(self.settings)], stdin=subprocess.DEVNULL, cwd=self.room,
            stdout=subprocess.PIPE, stderr=subprocess.PIPE, bufsize=0, start_new_session=True,
            preexec_fn=take_signals,
        )
        same(self.process.stdout.read(len(b"listening\n")), b"listening\n", "printed by the run")
        return self

    def __exit__(self, *fault):
        for stream in (*self.bots, *self.servers, self.listener):
            stream.close()
        # The script at the top may have left the program behind, which is in its process group.
        with contextlib.suppress(ProcessLookupError):
            os.killpg(self.process.pid, signal.SIGKILL)
        self.process.communicate()
        shutil.rmtree(self.room, ignore_errors=True)

    def connects(self):
        """A bot connects. Returns its end."""
        bot = socket.create_connection((HOST, self.port), SECONDS)
        self.bots.append(bot)
        return bot

    def comes(self):
        """A bot connects, and the server accepts the connection to it. Returns both ends."""
        bot = self.connects()
        server, _ = self.listener.accept()
        server.settimeout(SECONDS)
        self.servers.append(server)
        return bot, server

    def opens(self):
        """A session opens. Returns both ends."""
        bot, server = self.comes()
        bot.sendall(IM)
        same(received(server, len(IM)), IM, "received by the server")
        server.sendall(RM)
        same(received(bot, len(RM)), RM, "received by the bot")
        return bot, server

    def asks(self, line):
        """Sends these bytes to the control socket. Returns what comes until the end of the stream."""
        with self.client() as client:
            client.sendall(line)
            return rest(client)

    def client(self):
        """Returns a connection to the control socket."""
        client = socket.socket(socket.AF_UNIX)
        client.settimeout(SECONDS)
        client.connect(self.control)
        return client

    def command(self, *words):
        """Returns the output, the errors and the status of a command of the program, and its seconds."""
        begun = time.monotonic()
        done = subprocess.run([*self.program, *words], capture_output=True, timeout=SECONDS, check=False, text=True)
        return done.stdout, done.stderr, done.returncode, time.monotonic() - begun

    def status(self, form="table"):
        """Returns the status in this form."""
        printed, told, status, _ = self.command("status", "--format", form, str(self.settings))
        same((told, status), ("", 0), f"status as {form}")
        return printed

    def ended(self):
        """Waits until the run has ended. Returns its status, and its lines on standard error."""
        told = self.process.communicate(timeout=SECONDS)[1].decode()
        return self.process.returncode, told


def received(stream, count):
    """Returns this many bytes of a stream, or fewer up to its end."""
    found = b""
    while len(found) < count and (piece := stream.recv(count - len(found))):
        found += piece
    return found


def rest(stream):
    """Returns the bytes of a stream up to its end."""
    found = b""
    with contextlib.suppress(ConnectionResetError):
        while piece := stream.recv(65536):
            found += piece
    return found


def address(bot):
    """Returns the address of a bot as texts have it."""
    return "{}:{}".format(*bot.getsockname())


def port(server):
    """Returns the gateway's port of a connection to the server."""
    return server.getpeername()[1]


def settled(match, form, is_settled):
    """Returns the first status of which this is true."""
    over = time.monotonic() + SECONDS
    while not is_settled(text := match.status(form)):
        if time.monotonic() > over:
            raise Wrong(f"the status stays {text!r}")
        time.sleep(0.05)
    return text


def speaks(bot, server):
    """A bot sends OBS, which the server answers, and then a bracket that never closes, which gets PRN."""
    bot.sendall(OBS)
    same(received(server, len(OBS)), OBS, "received by the server")
    server.sendall(YES)
    same(received(bot, len(YES)), YES, "received by the bot")
    bot.sendall(UNCLOSED)
    same(received(bot, len(ITS_PRN)), ITS_PRN, "received by the bot")


def status_is_a_table(program):
    """Without a session, with one that waits for its RM, and with one that is open and was answered."""
    with Match(program, "max_sessions = 2\nsessions = 5") as match:
        text = re.sub(r"up \d+ s", "up", match.status())
        text = re.sub(r"for \d+ s", "for", text)
        same(text, f"0 open, 0 connecting, 0 served, 0 unreached, up\nserver untried for, 0 unreached since\n"
             f"ended: 0 declined, 0 dropped\n{COLUMNS}\n", "status without a session")
        bot, server = match.opens()
        speaks(bot, server)
        waiting, other = match.comes()
        waiting.sendall(IM)
        same(received(other, len(IM)), IM, "received by the server")
        lines = match.status().splitlines()
        # With all places taken, a bot may wait or not: the listener was not asked since.
        first = re.sub(r"up \d+ s", "up", lines[0]).removesuffix("; bots may wait for a place")
        same(first, "2 open, 0 connecting, 0 served, 0 unreached, up", "the first line")
        wanted = [
            f"    1 open 0      2   1   0     2   0   0      0      0    * {address(bot)}",
            f"    2 wait RM     1   0   0     0   0   0      0      0    * {address(waiting)}",
        ]
        same(re.sub(r"for \d+ s", "for", lines[1]), "server up for, 0 unreached since", "the line of the server")
        for line, text in zip(lines[5:], wanted, strict=True):
            pattern = re.escape(text).replace(r"\*", r"\d")
            if not re.fullmatch(pattern, line):
                same(line, text, "the line of a session")
            if len(line) > 100:
                raise Wrong(f"a line has {len(line)} bytes")
        match.connects()
        settled(match, "table", lambda text: "; bots may wait for a place\n" in text)


def status_counts_what_is_over(program):
    """A session that is over counts as served, with its frames, and a bot for which nobody listens as
    unreached alone. Each has the cause of its end."""
    with Match(program, "sessions = 5") as match:
        bot, server = match.opens()
        bot.sendall(FM)
        same(received(server, len(FM)), FM, "received by the server")
        for stream in (server, match.listener, bot):
            stream.close()
        match.connects()
        text = settled(match, "table", lambda text: text.startswith("0 open, 0 connecting") and " 1 unreached, " in text)
        head = [re.sub(r"(up|for) \d+ s", r"\1", line) for line in text.splitlines()[:3]]
        same(head, ["0 open, 0 connecting, 1 served, 1 unreached, up", "server away for, 1 unreached since",
                    "ended: 0 declined, 0 dropped, 1 FM of bot, 1 no server"], "the first lines")
        counts = json.loads(match.status("json"))["counts"]
        same(counts["frames"]["relayed"], {"bot": 2, "server": 1}, "the frames of the session that is over")
        same({cause: count for cause, count in counts["ends"].items() if count}, {"FM of bot": 1, "no server": 1}, "the causes")


def status_is_a_document(program):
    """Python's reader of JSON reads the status, and finds the values of the sessions."""
    with Match(program, "max_sessions = 3\nsessions = 5") as match:
        found = json.loads(match.status("json"))
        same(found["sessions"], [], "sessions")
        bot, server = match.opens()
        speaks(bot, server)
        waiting, _ = match.comes()
        found = json.loads(match.status("json"))
        same({name: found[name] for name in ("open", "connecting", "served", "unreached", "bots_may_wait", "stopping")},
             {"open": 2, "connecting": 0, "served": 0, "unreached": 0, "bots_may_wait": False, "stopping": False}, "the run")
        same((found["server"]["state"], found["server"]["unreached"]), ("up", 0), "the server")
        nothing = {"bot": 0, "server": 0}
        same(found["counts"]["frames"], {"faults": 0, "relayed": {"bot": 2, "server": 2}, "prn": {"bot": 1, "server": 0},
                                         "huh": nothing}, "the frames of all sessions")
        same((len(found["counts"]["ends"]), sum(found["counts"]["ends"].values())), (20, 0), "the ends of all sessions")
        first, second = found["sessions"]
        same((first["session"], first["bot"], first["phase"], first["level"]), (1, address(bot), "open", 0), "session 1")
        same([first[name] for name in ("relayed", "prn", "huh", "faults")],
             [{"bot": 2, "server": 2}, {"bot": 1, "server": 0}, {"bot": 0, "server": 0}, 0], "counts of session 1")
        same(first["port_to_server"], port(server), "the port of session 1, as the server sees it")
        same((first["queued"], first["held"]), ({"bot": 0, "server": 0},) * 2, "bytes that wait in session 1")
        same((first["received"], first["sent"]), ({"bot": 22, "server": 16}, {"bot": 30, "server": 14}), "bytes of session 1")
        same((second["bot"], second["phase"]), (address(waiting), "wait IM"), "session 2")
        same(second["idle_seconds"], {"bot": None, "server": None}, "silence of session 2")


def status_has_metrics(program):
    """Each metric has its help and its type before all its samples, which are together."""
    sample = re.compile(r'(\w+)(\{(?:\w+="[^"\\]*",?)*\})? (\d+)')
    with Match(program, "max_sessions = 3\nsessions = 5") as match:
        bot, server = match.opens()
        speaks(bot, server)
        match.comes()
        helped, typed, values, last = set(), {}, {}, None
        for line in match.status("prometheus").splitlines():
            words = line.split(" ", 3)
            if words[:2] == ["#", "HELP"]:
                helped.add(words[2])
            elif words[:2] == ["#", "TYPE"]:
                if words[2] in typed:
                    raise Wrong(f"the type of {words[2]} comes twice")
                typed[words[2]], last = words[3], words[2]
            else:
                if not (found := sample.fullmatch(line)):
                    raise Wrong(f"no sample: {line}")
                same(found[1], last, "a sample is of the metric before it")
                values[found[1] + (found[2] or "")] = int(found[3])
        same(helped, set(typed), "metrics with a help")
        labels = f'session="1",bot="{address(bot)}"'
        same(values["daide_gate_sessions"], 2, "sessions")
        same([values[f"daide_gate_{name}"] for name in ("up", "accepted_total", "server_up", "declined_total", "dropped_total")],
             [1, 2, 1, 0, 0], "the run")
        same([values[f'daide_gate_ended_total{{cause="{cause}"}}'] for cause in ("bot ended", "no server")], [0, 0], "ends")
        for side, result, count in (("bot", "relayed", 2), ("server", "relayed", 2), ("bot", "prn", 1), ("server", "prn", 0)):
            name = f'daide_gate_session_frames_total{{{labels},side="{side}",result="{result}"}}'
            same(values[name], count, f"{result} of the {side}")
            same(values[f'daide_gate_frames_total{{side="{side}",result="{result}"}}'], count, f"all {result} of the {side}")
        for side, direction, count in (("bot", "received", 22), ("server", "received", 16), ("bot", "sent", 30), ("server", "sent", 14)):
            name = f'daide_gate_session_bytes_total{{{labels},side="{side}",direction="{direction}"}}'
            same(values[name], count, f"bytes {direction}, {side}")
        same(values[f'daide_gate_session_level{{{labels},phase="open"}}'], 0, "level")


# What is kept of the name of `WILD_NAME`, as the text of a message.
WILD = "NME 'O' #4b27 'B\"\\' #4b0a #4b1b #4bff '" + "x" * 24 + "'.."


def status_has_names(program):
    """What each bot calls itself, in each form: a name, a power, a name that needs escapes, and none."""
    named = (NAMED, "NME 'Albert'"), (IAM_ENG, "IAM ENG"), (WILD_NAME, WILD), (None, None)
    with Match(program, "max_sessions = 4\nsessions = 5") as match:
        bots = []
        for frame, _ in named:
            bot, server = match.opens()
            bots.append(address(bot))
            if frame:
                bot.sendall(frame)
                same(received(server, len(frame)), frame, "received by the server")
        names = [name for _, name in named]
        ends = [" ".join([bot, *([name] if name else [])]) for bot, name in zip(bots, names)]
        same([line[-len(end):] for line, end in zip(match.status().splitlines()[5:], ends, strict=True)], ends, "the table")
        found = json.loads(match.status("json"))["sessions"]
        same([each["name"] for each in found], names, "the document")
        levels = [line for line in match.status("prometheus").splitlines() if line.startswith("daide_gate_session_level{")]
        labels = [',name="' + name.replace("\\", r"\\").replace('"', r'\"') + '"' if name else "" for name in names]
        same(levels, [f'daide_gate_session_level{{session="{number}",bot="{bot}",phase="open"{label}}} 0'
                      for number, (bot, label) in enumerate(zip(bots, labels), 1)], "the metric")


def power_is_shown(program):
    """Two bots play AUS: one by an HLO, one by the YES to its IAM. The status in each form, the line of the end, and the
    table of the two records have that."""
    said = (NAMED, HLO_AUS, 20, "NME 'Albert'"), (IAM_AUS, YES_AUS, 0, "IAM AUS")
    names = [name for *_, name in said]
    with Match(program, "max_sessions = 2\nsessions = 2", ("--verbose", "--record", "records")) as match:
        ends = [match.opens() for _ in said]
        same([row["power"] for row in json.loads(match.status("json"))["sessions"]], [None, None], "before the server says one")
        for (bot, server), (frame, answer, _, _) in zip(ends, said):
            bot.sendall(frame)
            same(received(server, len(frame)), frame, "received by the server")
            server.sendall(answer)
            same(received(bot, len(answer)), answer, "received by the bot")
        bots = [address(bot) for bot, _ in ends]
        cells = [f"{bot} {name} AUS" for bot, name in zip(bots, names)]
        same([line[61:] for line in match.status().splitlines()[5:]], cells, "the table")
        rows = json.loads(match.status("json"))["sessions"]
        same([(row["name"], row["power"]) for row in rows], [(name, "AUS") for name in names], "the document")
        levels = [line for line in match.status("prometheus").splitlines() if line.startswith("daide_gate_session_level{")]
        same(levels, [f'daide_gate_session_level{{session="{number}",bot="{bot}",phase="open",name="{name}",power="AUS"}} {level}'
                      for number, (bot, (_, _, level, name)) in enumerate(zip(bots, said), 1)], "the metric")
        for bot, server in ends:
            bot.sendall(FM)
            same(received(server, len(FM)), FM, "received by the server")
            server.close()
            bot.close()
        status, told = match.ended()
        counts = "FM of bot; bot 3 relayed 0 prn 0 huh; server 2 relayed 0 prn 0 huh; 0 faults"
        lines = [re.sub(r"after [0-9.]+ s", "after", line) for line in told.splitlines() if " ended " in line]
        same((status, sorted(lines)), (0, [f"daide-gate: session {number} ended after: {counts}; level {level}; {name}; power AUS"
                                           for number, (_, _, level, name) in enumerate(said, 1)]), "the ends")
        records = [str(match.room / "records" / f"session-00000{number}.log") for number in (1, 2)]
        printed = match.command("check", *records)[0]
        same(printed.splitlines()[-3:], [
            "session  name          power  relayed  PRN  HUH  faults  first refusal  end",
            "1        NME 'Albert'  AUS    5        0    0    0       -              FM of bot",
            "2        -             AUS    5        0    0    0       -              FM of bot",
        ], "the table of the records")


def fills(stream):
    """Sends frames until none is taken for a second."""
    stream.settimeout(1)
    with contextlib.suppress(TimeoutError):
        while True:
            stream.sendall(HUH_OF_GOF * 64)


def status_shows_what_waits(program):
    """Bytes that one side does not read wait for that side alone, and all others were sent. A side that has sent nothing
    has no silence, and the other one has."""
    waits = ("bot", "server", RM), ("server", "bot", IM)
    with Match(program, "max_sessions = 3\nsessions = 3") as match:
        for side, other, _ in waits:
            ends = dict(zip(("bot", "server"), match.opens(), strict=True))
            fills(ends[other])
        bot, server = match.comes()
        bot.sendall(IM)
        same(received(server, len(IM)), IM, "received by the server")
        found = settled(match, "json", lambda text: all(
            row["queued"][side] for row, (side, _, _) in zip(json.loads(text)["sessions"], waits)))
        *rows, last = json.loads(found)["sessions"]
        for row, (side, other, first) in zip(rows, waits, strict=True):
            relayed = len(first) + len(HUH_OF_GOF) * (row["relayed"][other] - 1)
            same(row["sent"][side] + row["queued"][side], relayed, f"bytes sent to the {side}, and queued")
            same(row["held"][side] > 0, True, f"the socket of the {side} holds some of them")
            same((row["queued"][other], row["held"][other]), (0, 0), f"bytes that wait for the {other}")
        same({side: silence is None for side, silence in last["idle_seconds"].items()}, {"bot": False, "server": True},
             "no silence")


def status_shows_twenty_sessions(program):
    """A line for each, in order, of which none is that of another session."""
    with Match(program, f"max_sessions = {SESSIONS}\nsessions = {SESSIONS}") as match:
        ends = [match.opens() for _ in range(SESSIONS)]
        for number, (bot, server) in enumerate(ends):
            for _ in range(number):
                bot.sendall(OBS)
                same(received(server, len(OBS)), OBS, "received by the server")
        rows = json.loads(match.status("json"))["sessions"]
        same([(row["session"], row["bot"], row["relayed"]) for row in rows],
             [(number + 1, address(bot), {"bot": 1 + number, "server": 1}) for number, (bot, _) in enumerate(ends)], "sessions")


def stop_waits_for_the_sessions(program):
    """No further bot may come, the open session goes on, and both commands end when it is over, with status 0."""
    with Match(program, "max_sessions = 4\nsessions = 4\nendless = true") as match:
        bot, server = match.opens()
        stopping = subprocess.Popen([*match.program, "stop", str(match.settings)], stdout=subprocess.PIPE,
                                    stderr=subprocess.PIPE)
        try:
            settled(match, "table", lambda text: "; stopping\n" in text)
            with contextlib.suppress(ConnectionRefusedError):
                socket.create_connection((HOST, match.port), SECONDS).close()
                raise Wrong("a bot may come after a stop")
            speaks(bot, server)
            same(stopping.poll(), None, "status of the stop before the end")
            bot.sendall(FM)
            same(rest(server), FM, "received by the server")
            bot.close()
            printed, told = stopping.communicate(timeout=SECONDS)
            same((printed, told, stopping.returncode), (b"", b"", 0), "the stop")
            same(match.ended(), (0, ""), "the run")
        finally:
            if stopping.poll() is None:
                stopping.kill()
                stopping.communicate()


def stop_gives_up_after_its_timeout(program):
    """The run goes on, and the command says so."""
    with Match(program, "sessions = 4") as match:
        bot, server = match.opens()
        printed, told, status, seconds = match.command("stop", "--timeout", "1", str(match.settings))
        same((printed, told, status), ("", f"daide-gate: {match.control}: still running\n", 1), "the stop")
        if not 0.9 < seconds < 5:
            raise Wrong(f"the stop took {seconds:.1f} s")
        speaks(bot, server)


def stop_now_ends_each_session(program):
    """The status of a recorded run has each session. Each bot and the server receive an FM for each session, the reports of
    the records have the stop, and both commands have status 0 within two seconds."""
    words = ("--verbose", "--record", "records")
    with Match(program, f"max_sessions = {SESSIONS}\nsessions = {SESSIONS}\nendless = true", words) as match:
        ends = [match.opens() for _ in range(SESSIONS)]
        shown = [line.split()[0] for line in match.status().splitlines()[-SESSIONS:]]
        same(shown, [str(number + 1) for number in range(SESSIONS)], "the sessions of the status")
        begun = time.monotonic()
        stopping = subprocess.Popen([*match.program, "stop", "--now", str(match.settings)], stdout=subprocess.PIPE,
                                    stderr=subprocess.PIPE)
        try:
            for bot, server in ends:
                same((rest(bot), rest(server)), (FM, FM), "received by both sides")
                bot.close()
                server.close()
            printed, told = stopping.communicate(timeout=SECONDS)
            same((printed, told, stopping.returncode), (b"", b"", 0), "the stop")
        finally:
            if stopping.poll() is None:
                stopping.kill()
                stopping.communicate()
        status, told = match.ended()
        if time.monotonic() - begun > 2:
            raise Wrong(f"the stop took {time.monotonic() - begun:.1f} s")
        same((status, told.count(": stopped by the operator; ")), (0, SESSIONS), "the run, and its lines")
        records = sorted((match.room / "records").glob("*.log"))
        same(len(records), SESSIONS, "records")
        for record in records:
            done = subprocess.run([*match.program, "check", str(record)], capture_output=True, check=False, timeout=SECONDS)
            same((done.returncode, done.stderr), (0, b""), f"check of {record.name}")
            lines = done.stdout.splitlines()
            same((lines[-2].split(b" ", 1)[1], lines[-1]), (b"1 operator stop", b"relayed 2 prn 0 huh 0 faults 0"),
                 f"the report of {record.name}")


def stop_now_ends_a_session_at_each_place(program):
    """Before the IM the bot alone receives an FM; before the RM and in the middle of a message each side receives one."""
    with Match(program, "max_sessions = 4\nsessions = 4\nendless = true") as match:
        silent, untold = match.comes()
        waiting, told = match.comes()
        waiting.sendall(IM)
        same(received(told, len(IM)), IM, "received by the server")
        bot, server = match.opens()
        bot.sendall(OBS[:-1])
        settled(match, "table", lambda text: text.count(" open 0 ") == 1)
        with match.client() as client:
            client.sendall(b"stop now\n")
            same(received(client, len(STOPPING)), STOPPING, "answer to the stop")
            for sides, texts in (((silent, untold), (FM, b"")), ((waiting, told), (FM, FM)), ((bot, server), (FM, FM))):
                same(tuple(map(rest, sides)), texts, "received by both sides")
                for side in sides:
                    side.close()
            same(rest(client), b"", "rest of the answer")
        same(match.ended(), (0, ""), "the run")


def stop_ends_one_session(program):
    """Both sides of the session receive an FM, its line has the cause, and the stop has status 0. The other session goes on,
    and the next bot has the place that is free again."""
    with Match(program, "max_sessions = 2\nsessions = 9", ["--verbose"]) as match:
        bot, server = match.opens()
        other, its_server = match.opens()
        stopping = subprocess.Popen([*match.program, "stop", "--session", "2", str(match.settings)], stdout=subprocess.PIPE,
                                    stderr=subprocess.PIPE)
        same((rest(other), rest(its_server)), (FM, FM), "received by both sides")
        other.close()
        its_server.close()
        same((*stopping.communicate(timeout=SECONDS), stopping.returncode), (b"", b"", 0), "the stop of session 2")
        speaks(bot, server)
        match.opens()
        rows = json.loads(match.status("json"))["sessions"]
        same([row["session"] for row in rows], [1, 3], "the sessions")
        match.process.terminate()
        told = match.ended()[1]
        same(re.findall(r"session (\d+) ended after [0-9.]+ s: ([^;]*)", told), [("2", "stopped by the operator")], "the lines")


def stop_of_no_session_says_so(program):
    """A session that is over, one that did not begin, and the greatest number. The run goes on, with its session."""
    with Match(program, "max_sessions = 2\nsessions = 9") as match:
        bot, server = match.opens()
        bot.sendall(FM)
        same((rest(bot), rest(server)), (b"", FM), "received by both sides")
        bot.close()
        server.close()
        bot, server = match.opens()
        for number in (1, 3, 4_294_967_295):
            same(match.asks(f"stop session {number}\n".encode()), f"no session {number}\n".encode(), "answer")
            told = f"daide-gate: {match.control}: the run has no session {number}\n"
            same(match.command("stop", "--session", str(number), str(match.settings))[:3], ("", told, 1), "the stop")
        for line in (b"stop session 0\n", b"stop session 02\n", b"stop session +2\n", b"stop session 4294967296\n",
                     b"stop session\n", b"stop session 2 \n", b"stop session  2\n"):
            same(match.asks(line), b"unknown request\n", f"answer to {line!r}")
        speaks(bot, server)


def stop_of_a_session_beside_a_hung_bot(program):
    """A bot that reads nothing keeps its session, so the stop of it goes on after its timeout, and a second one is over once
    the bot closes. The run goes on."""
    with Match(program, "max_sessions = 2\nsessions = 9\nstall_seconds = 0") as match:
        bot, server = match.opens()
        fills(server)
        settled(match, "json", lambda text: json.loads(text)["sessions"][0]["queued"]["bot"])
        told = f"daide-gate: {match.control}: still running\n"
        same(match.command("stop", "--session", "1", "--timeout", "1", str(match.settings))[:3], ("", told, 1), "the stop")
        with match.client() as client:
            client.sendall(b"stop session 1\n")
            same(received(client, len(STOPPING)), STOPPING, "answer to the stop")
            bot.close()
            server.close()
            same(rest(client), b"", "rest of the answer")
        speaks(*match.opens())


def control_refuses_what_is_no_request(program):
    """A longer line, bytes that are no text, the end without a line, and another case of letters."""
    with Match(program, "sessions = 4") as match:
        for line in (b"status\n", b"STOP\n", b" stop\n", b"stop \n", b"stop\r\n", b"\0\n", b"x" * 65 + b"\n", b"\xff" * 4096):
            same(match.asks(line), b"unknown request\n", f"answer to {line[:20]!r}")
        with match.client() as client:
            client.sendall(b"status tab")
            client.shutdown(socket.SHUT_WR)
            same(rest(client), b"unknown request\n", "answer to a line without its end")
        same(match.asks(b"status json\n").decode(), match.status("json"), "answer to a request")


def hostile_clients_delay_no_session(program):
    """Clients that send too much, nothing or no text; a session beside them is answered at once."""
    with Match(program, "sessions = 4") as match:
        bot, server = match.opens()
        clients = []
        try:
            for number in range(HOSTILE):
                client = socket.socket(socket.AF_UNIX)
                client.setblocking(False)
                clients.append(client)
                with contextlib.suppress(BlockingIOError):
                    client.connect(match.control)
                with contextlib.suppress(BlockingIOError, BrokenPipeError, OSError):
                    client.send((b"", b"x" * 65536, b"\0\xff" * 100)[number % 3])
            slowest = 0.0
            for _ in range(50):
                begun = time.monotonic()
                speaks(bot, server)
                slowest = max(slowest, time.monotonic() - begun)
            if slowest > 0.5:
                raise Wrong(f"an answer took {slowest:.2f} s")
        finally:
            for client in clients:
                client.close()
        settled(match, "table", lambda text: text.startswith("1 open"))


def silent_client_is_closed(program):
    """A client that sends nothing gets the end of its stream within a few seconds."""
    with Match(program, "sessions = 4") as match, match.client() as client:
        begun = time.monotonic()
        same(rest(client), b"", "answer to nothing")
        if not 1.5 < time.monotonic() - begun < 6:
            raise Wrong(f"the client was closed after {time.monotonic() - begun:.1f} s")


def control_is_of_its_user_alone(program):
    """The socket's file has mode 0600, and it is gone after the run."""
    with Match(program, "sessions = 1") as match:
        mode = os.stat(match.control).st_mode
        same((stat.S_ISSOCK(mode), oct(stat.S_IMODE(mode))), (True, "0o600"), "the file of the socket")
        bot, server = match.comes()
        bot.sendall(IM_FM)
        same(rest(server), IM_FM, "received by the server")
        bot.close()
        same(match.ended()[0], 0, "status of the run")
        same(os.path.exists(match.control), False, "the file is there after the run")


def socket_of_another_run_is_kept(program):
    """The socket's file was removed, and another run began at the path: the end of the first run leaves the new file."""
    with Match(program, "sessions = 1") as first:
        os.unlink(first.control)
        with Match(program, "sessions = 1", control=first.control) as second:
            bot, server = first.comes()
            bot.sendall(IM_FM)
            same(rest(server), IM_FM, "received by the server")
            bot.close()
            same(first.ended()[0], 0, "status of the first run")
            same(json.loads(second.status("json"))["open"], 0, "sessions of the second run")
            same(second.command("stop", str(second.settings))[2], 0, "status of the order")
        same(os.path.exists(first.control), False, "the file is there after the second run")


def control_refuses_another_user(program):
    """Another user can't connect, which the command says with the system's error."""
    if os.geteuid() != 0:
        raise NotPlayed("this needs to be root")
    with Match(program, "sessions = 4") as match:
        match.room.chmod(0o755)
        match.settings.chmod(0o644)
        done = subprocess.run([*match.program, "status", str(match.settings)], capture_output=True, text=True, check=False,
                              timeout=SECONDS, user=65534, group=65534, extra_groups=())
        same((done.stdout, done.returncode), ("", 1), "status for another user")
        same(done.stderr, f"daide-gate: {match.control}: cannot connect: permission denied\n", "told another user")


def stale_socket_is_replaced(program):
    """A socket on which nobody listens is replaced; a file, or one on which somebody listens, is not."""
    with tempfile.TemporaryDirectory() as room:
        path = f"{room}/control"
        with socket.socket(socket.AF_UNIX) as left:
            left.bind(path)
        with Match(program, "sessions = 1", control=path) as match:
            same(json.loads(match.status("json"))["open"], 0, "sessions")
            second = subprocess.run([*match.program, "run", str(match.settings)], capture_output=True, text=True,
                                    check=False, timeout=SECONDS)
            same((second.stdout, second.stderr, second.returncode), ("", "daide-gate: cannot listen\n", 1), "a second run")
            same(json.loads(match.status("json"))["open"], 0, "sessions after the second run")
        pathlib.Path(path).unlink(missing_ok=True)
        pathlib.Path(path).write_text("kept\n", encoding="utf-8")
        settings = pathlib.Path(room) / "settings.toml"
        settings.write_text(f"listen = '{HOST}:{free_port()}'\nserver = '{HOST}:1'\ncontrol = '{path}'\n", encoding="utf-8")
        done = subprocess.run([str(program), "run", str(settings)], capture_output=True, text=True, check=False,
                              timeout=SECONDS)
        same((done.stdout, done.stderr, done.returncode), ("", "daide-gate: cannot listen\n", 1), "a run at a file")
        same(pathlib.Path(path).read_text(encoding="utf-8"), "kept\n", "the file")


def one_of_several_runs_begins(program):
    """Three runs begin at once with one control path, at which an earlier run left its socket, eight times. One of them
    listens, and its socket answers; the others cannot listen."""
    for _ in range(8):
        with tempfile.TemporaryDirectory() as room:
            path = f"{room}/control"
            with socket.socket(socket.AF_UNIX) as left:
                left.bind(path)
            runs, files = [], [pathlib.Path(room) / f"{number}.toml" for number in range(3)]
            try:
                for file in files:
                    text = f"listen = '{HOST}:{free_port()}'\nserver = '{HOST}:1'\ncontrol = '{path}'\nendless = true\n"
                    file.write_text(text, encoding="utf-8")
                    runs.append(subprocess.Popen([str(program), "run", str(file)], stdout=subprocess.PIPE, stderr=subprocess.PIPE))
                printed = [run.stdout.readline() for run in runs]
                same(sorted(printed), [b"", b"", b"listening\n"], "printed by the three runs")
                done = subprocess.run([str(program), "stop", str(files[0])], capture_output=True, check=False, timeout=SECONDS)
                same((done.stdout, done.stderr, done.returncode), (b"", b"", 0), "the stop of the one that listens")
                ends = sorted((run.wait(SECONDS), run.stderr.read()) for run in runs)
                same(ends, [(0, b"")] + [(1, b"daide-gate: cannot listen\n")] * 2, "the ends of the three runs")
                same(os.path.exists(path), False, "the file is there after the runs")
            finally:
                for run in runs:
                    if run.poll() is None:
                        run.kill()
                    run.communicate()


# What a path of a control socket must be.
PATH = "it must be a string of 1 to 100 bytes"


def requests_without_a_run_say_why(program):
    """No `control` in the settings, nobody at its path, a file there, and a timeout or a form that there isn't."""
    with tempfile.TemporaryDirectory() as room:
        path, settings = f"{room}/control", pathlib.Path(room) / "settings.toml"
        rows = (
            ("", "status", "settings have no control", 1),
            ("", "stop --now", "settings have no control", 1),
            (f"control = '{path}'", "status", f"{path}: nobody listens", 1),
            (f"control = '{path}'", "stop", f"{path}: nobody listens", 1),
            ("control = 1", "stop", f"line 3: control = 1 is of the wrong type; {PATH}", 1),
            ("control = ''", "status", f"line 3: control = '' is out of range; {PATH}", 1),
            (f"control = '{path}'", "status --format xml", "bad format; it must be table, json or prometheus", 2),
            (f"control = '{path}'", "stop --session 12", f"{path}: nobody listens", 1),
            (f"control = '{path}'", "stop --timeout 0", "bad timeout; it must be 1 to 86400 seconds", 2),
            (f"control = '{path}'", "stop --timeout 86401", "bad timeout; it must be 1 to 86400 seconds", 2),
        )
        for text, words, told, status in rows:
            settings.write_text(f"listen = '{HOST}:1'\nserver = '{HOST}:1'\n{text}\n", encoding="utf-8")
            done = subprocess.run([str(program), *words.split(), str(settings)], capture_output=True, text=True,
                                  check=False, timeout=SECONDS)
            same((done.stdout, done.stderr, done.returncode), ("", f"daide-gate: {told}\n", status), f"'{words}' with {text!r}")


def answers_of_others_are_told(program):
    """Somebody else listens at the path, and reads the request. It closes, or answers as a run that does not know it."""
    with tempfile.TemporaryDirectory() as room:
        path, settings = f"{room}/control", pathlib.Path(room) / "settings.toml"
        settings.write_text(f"listen = '{HOST}:1'\nserver = '{HOST}:1'\ncontrol = '{path}'\n", encoding="utf-8")
        unknown, longest = b"unknown request\n", b"x" * 4_194_304
        rows = (
            ("status", b"", "", "no answer", 1),
            ("status --format json", b"", "", "no answer", 1),
            ("status", unknown, "", "the run does not know the request", 1),
            ("status", b"some status\n", "some status\n", None, 0),
            ("status", longest, longest.decode(), None, 0),
            ("status", longest + b"x", "", "answer is too long", 1),
            ("stop", unknown, "", "the run does not know the request", 1),
            ("stop", STOPPING, "", None, 0),
            ("stop --now", STOPPING, "", None, 0),
            ("stop --session 4294967295", STOPPING, "", None, 0),
            ("stop", b"", "", "no answer", 1),
            ("stop --now", b"stopping", "", "the run does not know the request", 1),
            ("stop", STOPPING + b"x", "", "the run does not know the request", 1),
            ("stop", b"no session 12\n", "", "the run does not know the request", 1),
            ("stop --session 12", b"no session 12\n", "", "the run has no session 12", 1),
            ("stop --session 12", b"too many wait\n", "", "too many wait for an end: session 12 is not stopped", 1),
            ("stop", b"too many wait\n", "", "too many wait for the end: the run stops, but its end is not awaited", 1),
            ("stop --now", b"too many wait\n", "", "too many wait for the end: the run stops, but its end is not awaited", 1),
        )
        sent = {"status": b"status table\n", "status --format json": b"status json\n", "stop": b"stop\n",
                "stop --now": b"stop now\n"}
        with socket.socket(socket.AF_UNIX) as listener:
            listener.bind(path)
            listener.listen()
            listener.settimeout(SECONDS)
            for words, answer, printed, fault, status in rows:
                asking = subprocess.Popen([str(program), *words.split(), str(settings)], stdout=subprocess.PIPE,
                                          stderr=subprocess.PIPE, text=True)
                stream, _ = listener.accept()
                with stream:
                    stream.settimeout(SECONDS)
                    line = sent.get(words, f"stop session {words.split()[-1]}\n".encode())
                    same(received(stream, len(line)), line, "the request")
                    stream.sendall(answer)
                told = "" if fault is None else f"daide-gate: {path}: {fault}\n"
                same((*asking.communicate(timeout=SECONDS), asking.returncode), (printed, told, status),
                     f"'{words}' that gets {answer!r}")


def titled(match):
    """Returns the status of a run as a table without its seconds, after the name of its file."""
    return re.sub(r"up \d+ s", "up", f"# {match.settings}\n{match.status()}")


def status_of_several_runs(program):
    """Each run's answer is printed in the order of the files, a table after the name of its file. A run without an answer
    keeps no other from its own, and its fault names its file."""
    with Match(program, "max_sessions = 2\nsessions = 5") as first, Match(program, "sessions = 3") as second:
        first.opens()
        closed = second.room / "closed.toml"
        closed.write_text(second.settings.read_text(encoding="utf-8").replace("/control'", "/closed'"), encoding="utf-8")
        files = (first.settings, closed, "no-such-file", second.settings)
        wanted = titled(first) + titled(second)
        printed, told, status, _ = first.command("status", *map(str, files))
        same((re.sub(r"up \d+ s", "up", printed), status), (wanted, 1), "the tables")
        same(told, f"daide-gate: {closed}: {second.room}/closed: nobody listens\n"
             "daide-gate: no-such-file: settings could not be read: no-such-file: entity not found\n", "the faults")
        printed, told, status, _ = first.command("status", "--format=json", str(second.settings), str(first.settings))
        same((told, status), ("", 0), "the documents")
        found, end = json.JSONDecoder().raw_decode(printed)
        other = json.loads(printed[end:])
        same(([row["phase"] for row in found["sessions"]], [row["phase"] for row in other["sessions"]]), ([], ["open"]),
             "the sessions of the second run, and of the first")


def script_ends_a_session(program, send, number, change=None):
    """Checks that the script at the top ends a session with FM at this signal, and has the run's status. Before that the run
    or the file of its settings is changed."""
    with tempfile.TemporaryDirectory() as room:
        script = pathlib.Path(room) / "daide-gate"
        shutil.copy(TOP / "daide-gate", script)
        (pathlib.Path(room) / "bin").mkdir()
        (pathlib.Path(room) / "crates").mkdir()
        (pathlib.Path(room) / "crates.txt").write_text("", encoding="utf-8")
        built = pathlib.Path(room) / "bin" / "daide-gate"
        shutil.copy(program, built)
        os.utime(built, (time.time() + 60,) * 2)
        with Match([str(script)], "sessions = 4\nendless = true") as match:
            bot, server = match.opens()
            if change:
                change(match)
            send(match.process.pid, number)
            same((rest(bot), rest(server)), (FM, FM), "received by both sides")
            bot.close()
            server.close()
            same(match.ended()[0], 0, "status of the script")


def script_stops_a_run_by_the_protocol(program):
    """At SIGTERM, SIGINT and SIGHUP. A closed terminal sends its signal to the program as well."""
    for number, send in ((signal.SIGTERM, os.kill), (signal.SIGINT, os.killpg), (signal.SIGHUP, os.killpg)):
        script_ends_a_session(program, send, number)


def script_stops_a_run_whose_settings_changed(program):
    """An organiser prepares the next run in the same file, or removes it."""
    def renames(match):
        text = match.settings.read_text(encoding="utf-8").replace("control = '", "control = '/nowhere")
        match.settings.write_text(text, encoding="utf-8")

    for change in (renames, lambda match: match.settings.unlink()):
        script_ends_a_session(program, os.kill, signal.SIGTERM, change)


def script_beside_four_stops_kills_no_run(program):
    """Four clients wait for the end of the run, so the script's own stop can't wait. Its session gets an FM all the same."""
    clients = []

    def stops(match):
        for _ in range(4):
            clients.append(match.client())
            clients[-1].sendall(b"stop\n")
            same(received(clients[-1], len(STOPPING)), STOPPING, "answer to a stop")

    script_ends_a_session(program, os.kill, signal.SIGTERM, stops)
    for client in clients:
        same(rest(client), b"", "rest of the answer")
        client.close()


TESTS = [
    status_is_a_table,
    status_counts_what_is_over,
    status_is_a_document,
    status_has_metrics,
    status_has_names,
    power_is_shown,
    status_shows_what_waits,
    status_shows_twenty_sessions,
    stop_waits_for_the_sessions,
    stop_gives_up_after_its_timeout,
    stop_now_ends_each_session,
    stop_now_ends_a_session_at_each_place,
    stop_ends_one_session,
    stop_of_no_session_says_so,
    stop_of_a_session_beside_a_hung_bot,
    control_refuses_what_is_no_request,
    hostile_clients_delay_no_session,
    silent_client_is_closed,
    control_is_of_its_user_alone,
    socket_of_another_run_is_kept,
    control_refuses_another_user,
    stale_socket_is_replaced,
    one_of_several_runs_begins,
    requests_without_a_run_say_why,
    answers_of_others_are_told,
    status_of_several_runs,
    script_stops_a_run_by_the_protocol,
    script_stops_a_run_whose_settings_changed,
    script_beside_four_stops_kills_no_run,
]
