"""Scenes of sockets that close in stages, as docs/OPERATING.md says: beside a connect, many at once, and beside a flood
of almost 1 MiB."""

from acts import (
    Bot, Comes, Empties, Fills, FindsClosed, FindsOpen, FinishesConnect, GoesOn, Hears, HearsEnd, HearsEndAlone, Passes,
    Pours, Says, Server, Stops,
)
from frames import EM_08, FM, IM, UNKNOWN
from gateway import asks, joins
from stage import Scene

# While the connect of a third bot is pending, because the server's queue is full, the sockets of two other sessions
# close. The first bot's unread bytes don't destroy its EM. The sockets of the second session, whose peers are silent,
# are closed a second after it, and not before. The third bot is joined when the system tries its connect again.
CLOSE_BESIDE_A_CONNECT = [
    *joins(),
    *joins(),
    *asks(1),
    Fills(),
    Comes(),
    Passes(100),
    Pours(Bot(0), UNKNOWN, 100),
    Says(Bot(1), FM),
    Hears(Server(1), FM),
    HearsEnd(Server(1)),
    HearsEnd(Bot(1)),
    FindsOpen(Bot(1)),
    FindsOpen(Server(1)),
    Passes(1_400),
    Hears(Bot(0), EM_08),
    HearsEndAlone(Bot(0)),
    HearsEnd(Server(0)),
    FindsClosed(Bot(1)),
    FindsClosed(Server(1)),
    Empties(),
    FinishesConnect(),
    Says(Bot(2), IM),
    Hears(Server(2), IM),
    Says(Bot(2), FM),
    Hears(Server(2), FM),
]

# The number of sessions that end at once. A round advances eight sockets.
ENDING = 20

# All sessions end at once, and no peer closes its socket. Each peer receives its last frame and the end, and each
# socket is closed a second later.
MANY_END_AT_ONCE = [
    *(act for number in range(ENDING) for act in joins() + asks(number)),
    Stops(),
    *(Says(Bot(number), FM) for number in range(ENDING)),
    GoesOn(),
    *(
        act
        for number in range(ENDING)
        for act in (Hears(Server(number), FM), HearsEnd(Server(number)), HearsEnd(Bot(number)))
    ),
    Passes(1_400),
    *(act for number in range(ENDING) for act in (FindsClosed(Bot(number)), FindsClosed(Server(number)))),
]

# The number of bots that flood at once.
FLOODING = 12

# The unread bytes of each bot are read away, although more sockets close than a round advances, and no peer of the
# first ones closes its socket. So no EM is destroyed, and no reset follows.
MANY_FLOOD_AT_ONCE = [
    *(act for _ in range(FLOODING) for act in joins()),
    *(Pours(Bot(number), UNKNOWN, 100) for number in range(FLOODING)),
    Passes(1_500),
    *(
        act
        for number in range(FLOODING)
        for act in (Hears(Bot(number), EM_08), HearsEndAlone(Bot(number)), HearsEnd(Server(number)))
    ),
]

# The number of pieces of 1,024 bytes in a flood of almost 1 MiB.
ALMOST_ALL = 1_000

# Unread bytes of up to 1 MiB destroy no EM, and no reset follows.
FLOODS_WITH_ALMOST_ALL = [
    *joins(),
    Pours(Bot(0), UNKNOWN, ALMOST_ALL),
    Passes(500),
    Hears(Bot(0), EM_08),
    HearsEnd(Bot(0)),
    HearsEnd(Server(0)),
    Passes(1_000),
    HearsEndAlone(Bot(0)),
]

SCENES = [
    Scene("sockets_close_beside_a_connect", CLOSE_BESIDE_A_CONNECT, "sessions = 3"),
    Scene(
        "more_than_eight_sockets_close_at_once", MANY_END_AT_ONCE, f"max_sessions = {ENDING}\nsessions = {ENDING}",
        waits=True,
    ),
    Scene("more_than_eight_sockets_are_read_away", MANY_FLOOD_AT_ONCE, f"sessions = {FLOODING}"),
    Scene("flood_of_almost_a_mebibyte_leaves_the_em_whole", FLOODS_WITH_ALMOST_ALL),
]
