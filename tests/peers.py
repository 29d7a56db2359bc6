"""Scenes of slow, silent or closed peers, as docs/OPERATING.md describes them."""

from acts import (
    Bot, Comes, Ends, FindsClosed, Flooded, Floods, Hears, HearsEnd, HearsEndAlone, Leave, Passes, Pours, Rests, Says,
    Server,
)
from frames import EM_08, FM, IM, LONG_NAME, LONGER_NAME, OBS, UNKNOWN
from gateway import REFUSES, asks, joins, opens
from stage import Scene, silent_door

# The number of frames in more than a megabyte.
MEGABYTE = 1_100

# The number of frames of 20,016 bytes.
MANY_LONGER = 400

# Bytes that a peer has not read yet are kept, and none is lost.
READS_LATE = [
    *joins(),
    *opens(0),
    Pours(Bot(0), LONG_NAME, MEGABYTE),
    Passes(300),
    Hears(Server(0), LONG_NAME * MEGABYTE),
    Says(Bot(0), FM),
    Hears(Server(0), FM),
    HearsEnd(Server(0)),
]

# The same for frames longer than the buffers of a socket: each is sent in many parts, the first after its header.
LONGER_READ_LATE = [
    *joins(),
    *opens(0),
    Pours(Bot(0), LONGER_NAME, MANY_LONGER),
    Passes(300),
    Hears(Server(0), LONGER_NAME * MANY_LONGER),
    Says(Bot(0), FM),
    Hears(Server(0), FM),
    HearsEnd(Server(0)),
]

# The IM timer expires while the session is open. Nothing is logged, and the run still waits.
STAYS_QUIET = [
    *joins(),
    *opens(0),
    Passes(1_500),
    Says(Bot(0), OBS),
    Hears(Server(0), OBS),
    Says(Bot(0), FM),
    Hears(Server(0), FM),
]

# A bot's unread bytes destroy neither its EM nor the end after it, even in the run's last session, and no reset follows
# once the socket is closed.
IS_FLOODED = [
    *joins(),
    Pours(Bot(0), UNKNOWN, 100),
    Passes(200),
    Hears(Bot(0), EM_08),
    HearsEnd(Bot(0)),
    HearsEnd(Server(0)),
    Passes(1_200),
    HearsEndAlone(Bot(0)),
]

# While the socket of a silent peer closes, the run waits.
CLOSES_SLOWLY = [
    *joins(),
    *asks(0),
    Ends(Bot(0)),
    Hears(Server(0), FM),
    Passes(500),
    HearsEnd(Bot(0)),
    HearsEnd(Server(0)),
    *joins(),
    Ends(Bot(1)),
    HearsEnd(Server(1)),
    Rests(),
]

# If nothing moves, the round after each wait advances the closing sockets.
CLOSES_BESIDE = [
    *joins(),
    *joins(),
    *asks(0),
    *asks(1),
    Says(Bot(0), FM),
    Hears(Server(0), FM),
    Passes(1_500),
    FindsClosed(Bot(0)),
    FindsClosed(Server(0)),
    Says(Bot(1), FM),
    Hears(Server(1), FM),
]

# Each round advances the closing sockets, although no more bots are accepted and another bot floods, so that the run
# never waits. The sockets of silent peers are closed a second after their session.
CLOSES_BESIDE_A_FLOOD = [
    *joins(),
    *joins(),
    *opens(0),
    *asks(1),
    Floods(0),
    Says(Bot(1), FM),
    Hears(Server(1), FM),
    Flooded(),
    Passes(300),
    FindsClosed(Bot(1)),
    FindsClosed(Server(1)),
    Leave(),
    Hears(Server(0), FM),
]

# A bot that sent bytes before its connect failed receives the end, and no reset.
SPEAKS_TO_NOBODY = [Comes(), Says(Bot(0), IM), HearsEndAlone(Bot(0))]

# The number of connects that are refused.
REFUSED = 40

# A refused connect is reported at once: the scene is shorter than the connect timeouts of all bots together. Of all bots
# the first alone has a line.
ARE_REFUSED = [act for number in range(REFUSED) for act in (Comes(), HearsEnd(Bot(number)))]

# The number of bots, one after another.
MANY = 150

# They share one slot: each session releases what it took of the run.
ONE_AFTER_ANOTHER = [
    act
    for number in range(MANY)
    for act in (
        *joins(),
        *asks(number),
        Says(Bot(number), FM),
        Hears(Server(number), FM),
        Ends(Bot(number)),
        Ends(Server(number)),
        HearsEnd(Server(number)),
    )
]

SCENES = [
    Scene("late_reader_gets_every_byte", READS_LATE),
    Scene("late_reader_gets_every_long_frame", LONGER_READ_LATE),
    Scene("open_session_outlasts_the_time_for_its_im", STAYS_QUIET, "im_seconds = 1", waits=True),
    Scene("unread_bytes_leave_the_em_whole", IS_FLOODED),
    Scene("few_rounds_while_a_socket_closes", CLOSES_SLOWLY, "sessions = 2", waits=True),
    Scene("sockets_close_beside_an_idle_session", CLOSES_BESIDE, "sessions = 2", waits=True),
    Scene("sockets_close_beside_a_flood", CLOSES_BESIDE_A_FLOOD, "sessions = 2"),
    Scene("failed_connect_ends_without_a_reset", SPEAKS_TO_NOBODY, told=REFUSES, server=silent_door),
    Scene(
        "refused_connects_are_told_at_once", ARE_REFUSED, f"sessions = {REFUSED}", REFUSES,
        server=silent_door,
    ),
    Scene("many_bots_one_after_another", ONE_AFTER_ANOTHER, f"max_sessions = 1\nsessions = {MANY}"),
]
