"""Scenes of a server that accepts late. A bot's connect has 5 seconds, a constant of the program, as docs/OPERATING.md
says."""

from acts import Bot, Comes, Empties, FinishesConnect, Hears, HearsEnd, MeetsNobody, Passes, Says, Server
from frames import EM_01, FM, IM, OBS
from gateway import NO_ANSWER, joins, opens, reached_again
from stage import Scene, full_listener

# The server accepts only after the second for the bot's IM is over. That time runs from the accept of the bot, and not
# from the server's accept.
IS_MET_LATE = [
    Comes(),
    Passes(1_100),
    Empties(),
    FinishesConnect(),
    Says(Bot(0), IM),
    Hears(Bot(0), EM_01),
    HearsEnd(Bot(0)),
    HearsEnd(Server(0)),
]

# The server's queue is full until the first of two bots is given up, and then has room for the second. Each bot's
# connect has a timeout of its own: the first is given up without regard to later ones.
FIRST_IS_GIVEN_UP = [
    Comes(),
    Passes(3_000),
    Comes(),
    HearsEnd(Bot(0)),
    Empties(),
    FinishesConnect(),
    Says(Bot(1), IM),
    Hears(Server(0), IM),
    Says(Bot(1), FM),
    Hears(Server(0), FM),
]

# While the connect of the first of two bots is pending, because the queue was full, the second is joined at once. The
# first is joined when the system tries its connect again, a second or two later.
SECOND_IS_MET_FIRST = [
    Comes(),
    Passes(1_100),
    Empties(),
    Comes(),
    FinishesConnect(),
    Says(Bot(1), IM),
    Hears(Server(0), IM),
    MeetsNobody(),
    FinishesConnect(),
    Says(Bot(0), IM),
    Hears(Server(1), IM),
    Says(Bot(0), FM),
    Hears(Server(1), FM),
    Says(Bot(1), FM),
    Hears(Server(0), FM),
]

# The timeout of a connect ends with the connect: a session that is idle for longer goes on, and the run waits.
OUTLASTS_ITS_CONNECT = [
    *joins(),
    *opens(0),
    Passes(5_900),
    Says(Bot(0), OBS),
    Hears(Server(0), OBS),
    Says(Bot(0), FM),
    Hears(Server(0), FM),
]

SCENES = [
    Scene("late_server_leaves_the_im_no_more_time", IS_MET_LATE, "im_seconds = 1", server=full_listener),
    Scene(
        "each_connect_has_its_own_time", FIRST_IS_GIVEN_UP, "sessions = 2", NO_ANSWER + reached_again(1),
        server=full_listener,
    ),
    Scene("slow_connect_holds_up_no_other", SECOND_IS_MET_FIRST, "sessions = 2", server=full_listener),
    Scene("idle_session_waits_once_its_connect_is_done", OUTLASTS_ITS_CONNECT, waits=True),
]
