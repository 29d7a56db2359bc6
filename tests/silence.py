"""Scenes of peers that send nothing until the timeout of the settings."""

from acts import Bot, Hears, HearsEnd, Passes, Says, Server
from frames import FM, OBS, YES
from gateway import asks, joins, opens
from stage import Scene

# Silence begins with the session: a server that never sends anything is treated as ended.
SAYS_NOTHING = [
    *joins(),
    Passes(100),
    *asks(0),
    Hears(Bot(0), FM),
    HearsEnd(Bot(0)),
    HearsEnd(Server(0)),
]

# So is a bot that never sends anything, long before the thirty seconds for its IM are over. The server, which got no
# IM, gets no FM either.
COMES_AND_SAYS_NOTHING = [*joins(), HearsEnd(Server(0)), HearsEnd(Bot(0))]

# In the first session the server becomes silent, in the second the bot; in the third both send now and then. A side
# that sends nothing for a second is treated as ended, and the other side gets an FM; a side that sends now and then is
# not. The run waits meanwhile.
FALL_SILENT = [
    *joins(),
    *joins(),
    *joins(),
    *opens(0),
    *opens(1),
    *opens(2),
    Passes(300),
    Says(Bot(0), OBS),
    Hears(Server(0), OBS),
    Says(Server(1), YES),
    Hears(Bot(1), YES),
    Passes(300),
    Says(Bot(2), OBS),
    Hears(Server(2), OBS),
    Says(Server(2), YES),
    Hears(Bot(2), YES),
    Hears(Bot(0), FM),
    HearsEnd(Bot(0)),
    HearsEnd(Server(0)),
    Hears(Server(1), FM),
    HearsEnd(Server(1)),
    HearsEnd(Bot(1)),
    Says(Bot(2), OBS),
    Hears(Server(2), OBS),
    Says(Server(2), YES),
    Hears(Bot(2), YES),
    Passes(300),
    Says(Bot(2), FM),
    Hears(Server(2), FM),
    HearsEnd(Server(2)),
]

SCENES = [
    Scene("silent_side_is_taken_as_ended", FALL_SILENT, "idle_seconds = 1\nsessions = 3", waits=True),
    Scene("server_that_says_nothing_is_taken_as_ended", SAYS_NOTHING, "idle_seconds = 1", waits=True),
    Scene("bot_that_says_nothing_is_taken_as_ended", COMES_AND_SAYS_NOTHING, "idle_seconds = 1", waits=True),
]
