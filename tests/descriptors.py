"""Scenes of many closing sockets, and of few descriptors."""

import time

from acts import (
    Bot, CallsControl, Comes, Empties, Ends, FindsClosed, FindsOpen, FinishesConnect, Frees, Hears, HearsEnd, Hoards,
    Logs, MeetsNobody, Passes, Says, Server,
)
from frames import FM, IM
from gateway import asks, joins
from held import NotPlayed, Wrong
from stage import Scene, begun, full_listener

# The number of sessions that end. With four descriptors each, they use fewer than 1,024.
SESSIONS = 150

# Each session is served and ends, while both peers stay and send nothing.
END_SILENTLY = [
    act
    for number in range(SESSIONS)
    for act in (
        *joins(),
        *asks(number),
        Says(Bot(number), FM),
        Hears(Server(number), FM),
        HearsEnd(Server(number)),
        HearsEnd(Bot(number)),
    )
]

# Of 300 sockets the first 44 that began to close are closed. These are the sockets of 22 sessions.
OLDEST_ARE_CLOSED = [
    FindsClosed(Bot(0)),
    FindsClosed(Server(0)),
    FindsClosed(Bot(21)),
    FindsClosed(Server(21)),
    FindsOpen(Bot(22)),
    FindsOpen(Server(22)),
    FindsOpen(Bot(85)),
    FindsOpen(Server(149)),
]

# A silent peer's socket is closed a second after its session. All acts must take less, or the test shows nothing.
QUICK = 0.9

# The number of attempts.
TIMES = 10

# If a single act takes this many seconds, a bot was kept out, and the machine was not slow.
KEPT_OUT = 0.4


class Many(Scene):
    """Of the sockets that wait for silent peers, the gateway keeps the last 256, so that the table has an entry for
    each new bot. The program's clock can't be stopped, so the scene is repeated if the machine was too slow."""

    def play(self, program):
        """Plays the scene until the machine is fast enough. If it never is, the test shows nothing."""
        plays = []
        for _ in range(TIMES):
            with begun(program, self.conditions()) as stage:
                plays.append(self.play_once(stage))
            if plays[-1][0] < QUICK:
                return
        if all(longest > KEPT_OUT and seconds - longest < QUICK for seconds, longest in plays):
            raise Wrong(f"each time a bot waited for more than {KEPT_OUT} s, wanted none that waits")
        raise NotPlayed(f"all took {min(plays)[0]:.1f} s and more, and a silent peer's socket is closed after one")

    def play_once(self, stage):
        """Plays the scene once, and returns the seconds of all acts and of the longest one. The checks of the sockets
        count only if the acts were fast enough."""
        began = time.monotonic()
        stage.play(self.acts)
        longest = stage.longest
        try:
            stage.play(OLDEST_ARE_CLOSED)
        except Wrong:
            if time.monotonic() - began < QUICK:
                raise
            return time.monotonic() - began, longest
        seconds = time.monotonic() - began
        self.end(stage)
        return seconds, longest


def left_over(count):
    """So many descriptors are left when a bot connects, and its accept needs one more: for the bot, its connect, its record
    if it has one, and a client of the control socket. The bot waits in the queue, and is served once there is another. The
    program accepts as soon as it can, so the others are taken before the bot connects."""
    return [
        Hoards(count),
        Comes(),
        Passes(250),
        MeetsNobody(),
        Frees(),
        FinishesConnect(),
        Says(Bot(0), IM),
        Hears(Server(0), IM),
        Ends(Bot(0)),
        Hears(Server(0), FM),
    ]


BEGAN = "daide-gate: session 1 began: bot at 127.0.0.1:{0}\n"

ENDED = (
    "daide-gate: session 1 ended after *.* s: bot ended; bot 1 relayed 0 prn 0 huh; server 0 relayed 0 prn 0 huh; 0 faults; "
    "level 0\n"
)

WAITS_FOR_ONE = f"""\
daide-gate: bots wait: the system has no descriptor or no memory for another one
{BEGAN}\
daide-gate: bots are accepted again
{ENDED}"""

# A recorded bot has come, and its connect is pending. Two descriptors are left then, for its record and for a client of
# the control socket, which comes first. The bot is joined when the system tries its connect again, and its session is
# recorded, although the client still has its own.
CONTROL_TAKES_ITS_OWN = [
    Hoards(4),
    Comes(),
    Logs("session 1 began"),
    CallsControl("control"),
    Passes(250),
    Empties(),
    FinishesConnect(),
    Says(Bot(0), IM),
    Hears(Server(0), IM),
    Ends(Bot(0)),
    Hears(Server(0), FM),
]

SCENES = [
    Many("silent_peers_keep_no_bot_out", END_SILENTLY, f"max_sessions = 1\nsessions = {SESSIONS}"),
    Scene("few_descriptors_make_a_bot_wait", left_over(2), told=WAITS_FOR_ONE, verbose=True, waits=True),
    Scene("few_descriptors_make_a_recorded_bot_wait", left_over(3), waits=True, recorded=1),
    Scene(
        "control_client_takes_no_descriptor_of_a_record", CONTROL_TAKES_ITS_OWN, "control = 'control'", BEGAN + ENDED,
        server=full_listener, verbose=True, recorded=1,
    ),
]
