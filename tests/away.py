"""The server of a run goes away and comes back: what is logged of that, also without `--verbose`, and what `status` says.

The expected texts are worked out from docs/FORMATS.md.
"""

import json
import re
import time

from acts import Bot, Comes, Hears, HearsEnd, Says, Server, ServerLeaves, ServerReturns, shut
from control import SECONDS, STOPPING, Match, rest, settled
from frames import FM, IM
from gateway import REFUSES, joins, reached_again
from held import Wrong, same
from stage import Scene, open_listener


def is_served(bot, server):
    """A bot comes, is joined to the server, and ends its session."""
    return [
        *joins(),
        Says(Bot(bot), IM),
        Hears(Server(server), IM),
        Says(Bot(bot), FM),
        Hears(Server(server), FM),
        HearsEnd(Bot(bot)),
    ]


def is_not_served(bot):
    """A bot comes, and the server is away."""
    return [Comes(), HearsEnd(Bot(bot))]


# The server is away for two bots, and later for one. Of each time the first bot has a line, and the first bot after it.
COMES_AND_GOES = [
    *is_not_served(0),
    *is_not_served(1),
    ServerReturns(),
    *is_served(2, 0),
    *is_served(3, 1),
    ServerLeaves(),
    *is_not_served(4),
    ServerReturns(),
    *is_served(5, 2),
]

TELLS_EACH_CHANGE = REFUSES + reached_again(2) + REFUSES + reached_again(1)


def closed_door():
    """Returns a socket that keeps a port without listening, as the server has it that is away."""
    return shut(open_listener())


# The value of `server_up` for each state.
UP = {"untried": [], "up": ["1"], "away": ["0"]}


def samples(match, name):
    """Returns the values of a metric of the run."""
    pattern = re.compile(rf"^daide_gate_{name} (\d+)$", re.MULTILINE)
    return pattern.findall(match.status("prometheus"))


def same_server(match, state, unreached, least, begun):
    """Checks what each form of the status says of the server: its state, and the bots that it was away for since then. The
    seconds are at least so many, and no more than since the moment before this state began."""
    line = match.status().splitlines()[1]
    same(re.sub(r"for \d+ s", "for", line), f"server {state} for, {unreached} unreached since", "the table")
    found = json.loads(match.status("json"))["server"]
    same((found["state"], found["unreached"]), (state, unreached), "the document")
    same(samples(match, "server_up"), UP[state], "the metric")
    seconds = [int(line.split()[3]), found["seconds"], *map(int, samples(match, "server_state_seconds"))]
    bounds = [least, *seconds, int(time.monotonic() - begun)]
    if len(seconds) != 3 or bounds != sorted(bounds):
        raise Wrong(f"the server is {state} for {seconds} s, wanted {bounds[0]} to {bounds[-1]}")


def is_second(match):
    """Waits until the server was in its state for a second."""
    settled(match, "json", lambda text: json.loads(text)["server"]["seconds"] >= 1)


def comes_for_nothing(match):
    """A bot comes while the server is away, and receives the end alone."""
    same(rest(match.connects()), b"", "received by a bot without a server")


def status_says_since_when_the_server_is_away(program):
    """No connect, then three bots that reach the server, two that do not, and one that does. Each state begins with the
    first of these, and no later one begins it again."""
    begun = time.monotonic()
    with Match(program, "endless = true") as match:
        is_second(match)
        same_server(match, "untried", 0, 1, begun)
        begun = time.monotonic()
        match.opens()
        same_server(match, "up", 0, 0, begun)
        is_second(match)
        match.opens()
        same_server(match, "up", 0, 1, begun)
        match.listener = shut(match.listener)
        begun = left = time.monotonic()
        comes_for_nothing(match)
        same_server(match, "away", 1, 0, begun)
        is_second(match)
        comes_for_nothing(match)
        same_server(match, "away", 2, 1, begun)
        match.listener.listen()
        match.listener.settimeout(SECONDS)
        begun = time.monotonic()
        match.opens()
        away = time.monotonic() - left
        same_server(match, "up", 0, 0, begun)
        head = re.sub(r"up \d+ s", "up", match.status().splitlines()[0])
        same(head, "3 open, 0 connecting, 0 served, 2 unreached, up", "the first line")
        server = "{}:{}".format(*match.listener.getsockname())
        for stream in match.bots:
            stream.close()
        same(match.asks(b"stop\n"), STOPPING, "answer to the stop")
        status, told = match.ended()
    lines = told.splitlines(keepends=True)
    same((status, len(lines), lines[0]), (0, 2, REFUSES.format(server=server)), "the run, and its first line")
    found = re.fullmatch(re.escape(reached_again(2)).replace(r"\*", r"(\d+)"), lines[1])
    if not found or not 1 <= int(found[1]) <= away:
        raise Wrong(f"saw {lines[1]!r} after {away:.1f} s")


TESTS = [status_says_since_when_the_server_is_away]

SCENES = [
    Scene(
        "server_that_comes_back_is_logged_at_the_change", COMES_AND_GOES, "sessions = 6", TELLS_EACH_CHANGE,
        server=closed_door,
    ),
]
