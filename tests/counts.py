"""What a run counts outlives its sessions: their frames and the causes of their ends, and the bots that it turned away.

The expected counts are worked out from docs/PROTOCOL.md, and the texts from docs/FORMATS.md.
"""

import json
import re
import socket
import tempfile
import time

from control import SECONDS, Match, address, received, rest, settled, speaks
from frames import EM_01, FM, IM, ITS_ERR, ITS_PRN, OBS, OBS_GOF, UNCLOSED
from growths import compiled
from held import same, same_but_counts
from records import ENDINGS
from stage import BEGINNING, HOST, without_reached

# Each cause, in the order in which texts have them.
CAUSES = (
    "bot ended", "server ended", "bot lost", "server lost", "FM of bot", "FM of server", "EM of bot", "EM of server",
    "fault of bot", "fault of server", "no IM in time", "stopped by the operator", "bot silent", "server silent",
    "bot took nothing", "server took nothing",
    "too many refusals of bot", "too many refusals of server", "turns spent", "no server",
)


def frames(bot, server, faults):
    """Returns the counts of frames as a document has them: of each side those relayed, with PRN and with HUH."""
    results = zip(("relayed", "prn", "huh"), bot, server, strict=True)
    return {"faults": faults} | {result: {"bot": first, "server": second} for result, first, second in results}


def counted(match):
    """Returns the counts of a run as its document has them."""
    return json.loads(match.status("json"))["counts"]


def same_counts(match, ends, wanted, declined=0, dropped=0):
    """Checks these counts of ends, in the order of the causes, and of frames in each form of the status."""
    line = ", ".join([f"ended: {declined} declined", f"{dropped} dropped", *(f"{ends[each]} {each}" for each in CAUSES if each in ends)])
    same(match.status().splitlines()[2], line, "the table")
    document = {"declined": declined, "dropped": dropped, "frames": wanted, "ends": {each: ends.get(each, 0) for each in CAUSES}}
    found = counted(match)
    same(found, document, "the document")
    same(tuple(found["ends"]), CAUSES, "the order of its causes")
    totals = [f"declined_total {declined}", f"dropped_total {dropped}"]
    totals += [f'ended_total{{cause="{each}"}} {ends.get(each, 0)}' for each in CAUSES]
    totals += [f'frames_total{{side="{side}",result="{result}"}} {wanted[result][side]}'
               for side in ("bot", "server") for result in ("relayed", "prn", "huh")]
    totals.append(f'frames_total{{result="fault"}} {wanted["faults"]}')
    pattern = re.compile(r"^daide_gate_((?:declined|dropped|ended|frames)_total.*)$", re.MULTILINE)
    same(pattern.findall(match.status("prometheus")), totals, "the metrics")


def ends_by(match, who, said, *heard):
    """A session opens, and this side says what ends it. Both sides receive these bytes, then the end."""
    ends = match.opens()
    ends[who].sendall(said)
    same(tuple(map(rest, ends)), heard, "received by both sides")
    for stream in ends:
        stream.close()


def counts_outlive_their_sessions(program):
    """Twelve sessions, one after another, of which each counts by the cause of its end, and its frames stay counted. The
    end of a session changes no count of frames."""
    with Match(program, "endless = true\nim_seconds = 1") as match:
        for who, said, bot, server, _ in ENDINGS:
            ends_by(match, (who.__name__ == "Server"), said, bot, server)
        silent, other = match.comes()
        same((rest(silent), rest(other)), (EM_01, b""), "received by both sides")
        ends = {"FM of bot": 1, "FM of server": 1, "EM of bot": 1, "EM of server": 1, "fault of bot": 3, "fault of server": 2}
        ends["no IM in time"] = 1
        settled(match, "json", lambda text: json.loads(text)["served"] == 10)
        same_counts(match, ends, frames((11, 0, 0), (11, 0, 0), 6))
        bot, server = match.opens()
        speaks(bot, server)
        bot.sendall(OBS_GOF)
        same(received(bot, len(ITS_ERR)), ITS_ERR, "received by the bot")
        with_it = frames((13, 1, 1), (13, 0, 0), 6)
        same_counts(match, ends, with_it)
        bot.shutdown(socket.SHUT_WR)
        same((rest(bot), rest(server)), (b"", FM), "received by both sides")
        settled(match, "json", lambda text: json.loads(text)["served"] == 11)
        same_counts(match, {"bot ended": 1} | ends, with_it)
        bot, server = match.opens()
        server.shutdown(socket.SHUT_WR)
        same((rest(bot), rest(server)), (FM, b""), "received by both sides")
        settled(match, "json", lambda text: json.loads(text)["served"] == 12)
        same_counts(match, {"bot ended": 1, "server ended": 1} | ends, frames((14, 1, 1), (14, 0, 0), 6))


def silent_server_is_counted(program):
    """The server sends its RM alone, and its bot one message more, half a second later."""
    with Match(program, "endless = true\nidle_seconds = 1") as match:
        bot, server = match.opens()
        time.sleep(0.5)
        bot.sendall(OBS)
        same((rest(bot), rest(server)), (FM, OBS), "received by both sides")
        settled(match, "json", lambda text: json.loads(text)["served"] == 1)
        same_counts(match, {"server silent": 1}, frames((2, 0, 0), (1, 0, 0), 0))


def session_without_turns_is_counted(program):
    """Its only turn finds nothing, so the next one stops it before its IM is read."""
    with Match(program, "endless = true\nturns = 1") as match:
        bot, server = match.comes()
        settled(match, "json", lambda text: json.loads(text)["open"] == 1)
        bot.sendall(IM)
        same((rest(bot), rest(server)), (FM, b""), "received by both sides")
        settled(match, "json", lambda text: json.loads(text)["served"] == 1)
        same_counts(match, {"turns spent": 1}, frames((0, 0, 0), (0, 0, 0), 0))


def declined_bots_are_counted_alone(program):
    """Bots from an address that may not come, and a second one from an address that has its session. They are closed at
    once, and count as nothing else."""
    with Match(program, 'endless = true\nallow = ["127.0.0.2"]\nmax_per_address = 1') as match:
        same(rest(match.connects()), b"", "received by a bot that may not come")
        first = socket.create_connection((HOST, match.port), SECONDS, ("127.0.0.2", 0))
        match.bots.append(first)
        server, _ = match.listener.accept()
        match.servers.append(server)
        for host in ("127.0.0.2", "127.0.0.1"):
            with socket.create_connection((HOST, match.port), SECONDS, (host, 0)) as bot:
                same(rest(bot), b"", f"received by a further bot from {host}")
        same_counts(match, {}, frames((0, 0, 0), (0, 0, 0), 0), declined=3)
        found = json.loads(match.status("json"))
        same([found[name] for name in ("open", "connecting", "served", "unreached")], [1, 0, 0, 0], "the other counts")
        same(re.findall(r"^daide_gate_accepted_total (.*)$", match.status("prometheus"), re.MULTILINE), ["1"], "bots accepted")


# The lines of a run that dropped a bot, and then began the session of another one.
TELLS_OF_A_DROPPED_BOT = """\
daide-gate: bot at {} is dropped: the system cannot follow its connection
daide-gate: bots wait: the system has no descriptor or no memory for another one
daide-gate: session 1 began: bot at {}
daide-gate: bots are accepted again
"""


def bot_that_is_not_followed_is_counted_as_dropped(program):
    """The system refuses the third connection that the program follows. The first two are its listeners, so this is that of
    a bot, which receives the end alone. The next bot has its session."""
    with tempfile.TemporaryDirectory() as room:
        library = compiled(room, "refusing_follow.c", "-DREFUSED=3")
        preloaded = ["env", f"LD_PRELOAD={library}", str(program)]
        with Match(preloaded, "endless = true", ["--verbose"]) as match:
            first = match.connects()
            same(rest(first), b"", "received by the bot")
            bots = [address(first), address(match.opens()[0])]
            same_counts(match, {}, frames((1, 0, 0), (1, 0, 0), 0), dropped=1)
            same(match.status().split(", up ")[0], "1 open, 0 connecting, 0 served, 0 unreached", "the first line")
            beginning = BEGINNING.format(match.port, address(match.listener))
            match.process.kill()
            told = without_reached(match.ended()[1])
        same_but_counts(told, beginning + TELLS_OF_A_DROPPED_BOT.format(*bots), "told")


# The lines of a run that stopped a session for the bot's third refused message.
TELLS_OF_REFUSALS = """\
daide-gate: session 1 began: bot at {}
daide-gate: session 1 ended after *.* s: too many refusals of bot; bot 3 relayed 2 prn 1 huh; server 2 relayed 0 prn 0 huh; 0 faults; level 0
"""


def bot_is_stopped_at_its_last_refusal(program):
    """The third refused message of a bot, with PRN or with HUH, ends its session by the protocol, and no earlier one. What is
    relayed between them does not count."""
    with Match(program, "endless = true\nmax_refused = 3", ["--verbose"]) as match:
        bot, server = match.opens()
        speaks(bot, server)
        bot.sendall(OBS_GOF)
        same(received(bot, len(ITS_ERR)), ITS_ERR, "received by the bot")
        bot.sendall(OBS)
        same(received(server, len(OBS)), OBS, "received by the server")
        same_counts(match, {}, frames((3, 1, 1), (2, 0, 0), 0))
        bot.sendall(UNCLOSED)
        same((rest(bot), rest(server)), (ITS_PRN + FM, FM), "received by both sides")
        settled(match, "json", lambda text: json.loads(text)["served"] == 1)
        same_counts(match, {"too many refusals of bot": 1}, frames((3, 2, 1), (2, 0, 0), 0))
        beginning = BEGINNING.format(match.port, address(match.listener))
        match.process.kill()
        told = without_reached(match.ended()[1])
        same_but_counts(told, beginning + TELLS_OF_REFUSALS.format(address(bot)), "told")


def each_session_has_its_own_refusals(program):
    """A server is stopped at its first refused message, and the bot of the next session at its own first one."""
    with Match(program, "endless = true\nmax_refused = 1") as match:
        bot, server = match.opens()
        server.sendall(UNCLOSED)
        same((rest(bot), rest(server)), (FM, ITS_PRN + FM), "received by both sides")
        bot, server = match.opens()
        bot.sendall(UNCLOSED)
        same((rest(bot), rest(server)), (ITS_PRN + FM, FM), "received by both sides")
        settled(match, "json", lambda text: json.loads(text)["served"] == 2)
        ends = {"too many refusals of bot": 1, "too many refusals of server": 1}
        same_counts(match, ends, frames((2, 1, 0), (2, 1, 0), 0))


TESTS = [
    counts_outlive_their_sessions,
    silent_server_is_counted,
    session_without_turns_is_counted,
    bot_is_stopped_at_its_last_refusal,
    each_session_has_its_own_refusals,
    declined_bots_are_counted_alone,
    bot_that_is_not_followed_is_counted_as_dropped,
]
