"""Scenes of the gateway at work, as lists of acts. The expected bytes are worked out from docs/PROTOCOL.md."""

from acts import (
    Bot, Comes, ComesFrom, Ends, FinishesConnect, Flooded, Floods, Hears, HearsEnd, HearsEndAlone, IsRefused, Leave, MeetsNobody,
    Passes, Pours, Rests, Says, Server,
)
from frames import (
    EM_01, EM_08, FM, HLO_20, IM, IM_FM, ITS_HUH, ITS_PRN, OBS, OBS_FM, RM, UNCLOSED, UNKNOWN, XYZ, XYZ_OF_SERVER,
)
from stage import Scene, full_listener, silent_door


def away(reason):
    """Returns the line of a server that is away from now on, for this reason."""
    return f"daide-gate: server {{server}} cannot be reached: {reason}\n"


def reached_again(bots):
    """Returns the line of a server that is reached again, after this many bots for which it was not."""
    return f"daide-gate: server reached again after {bots} bots and * s\n"


# A server whose port is closed, and one that answers no connect within its time.
REFUSES = away("connection refused")
NO_ANSWER = away("no answer in 5 s")


def joins():
    """A bot connects, and is joined to the server."""
    return [Comes(), FinishesConnect()]


def asks(number):
    """A bot sends its IM, which the server receives."""
    return [Says(Bot(number), IM), Hears(Server(number), IM)]


def greets(number):
    """The server sends its RM, which the bot receives."""
    return [Says(Server(number), RM), Hears(Bot(number), RM)]


def opens(number):
    """A session opens."""
    return asks(number) + greets(number)


OPENS_AND_ENDS = [
    *joins(),
    *opens(0),
    Says(Bot(0), FM),
    Hears(Server(0), FM),
    HearsEnd(Server(0)),
    HearsEnd(Bot(0)),
]

# The run has one bot.
ONE_TOO_MANY = [
    *joins(),
    IsRefused(),
    *opens(0),
    Ends(Bot(0)),
    Hears(Server(0), FM),
]

GETS_PRN = [
    *joins(),
    *opens(0),
    Says(Bot(0), UNCLOSED),
    Hears(Bot(0), ITS_PRN),
    Says(Bot(0), OBS),
    Hears(Server(0), OBS),
    Ends(Bot(0)),
    Hears(Server(0), FM),
    HearsEnd(Server(0)),
    HearsEnd(Bot(0)),
]

# Settings with XYZ, a press of a power from level 20 on.
WITH_XYZ = 'words = [ { name = "XYZ", code = 0x4A40, slot = "press", level = 20, operand = "power" } ]'

WORD_GOES_ON = [
    *joins(),
    *opens(0),
    Says(Server(0), HLO_20),
    Hears(Bot(0), HLO_20),
    Says(Bot(0), XYZ),
    Hears(Server(0), XYZ),
    Says(Bot(0), FM),
    Hears(Server(0), FM),
]

WORD_COMES_FROM_THE_SERVER = [
    *joins(),
    *opens(0),
    Says(Server(0), HLO_20),
    Hears(Bot(0), HLO_20),
    Says(Server(0), XYZ_OF_SERVER),
    Hears(Bot(0), XYZ_OF_SERVER),
    Says(Bot(0), FM),
    Hears(Server(0), FM),
]

WORD_IS_UNKNOWN = [
    *joins(),
    *opens(0),
    Says(Server(0), HLO_20),
    Hears(Bot(0), HLO_20),
    Says(Bot(0), XYZ),
    Hears(Bot(0), ITS_HUH),
    Says(Bot(0), FM),
    Hears(Server(0), FM),
]

# A bot without a server counts as served. That the server is away is logged for the first of both alone.
NOBODY_SERVES = [Comes(), HearsEnd(Bot(0)), Comes(), HearsEnd(Bot(1))]

# A server with a full queue does not answer at all. Three bots come at once. The connect of each is given up after its
# timeout, and the run goes on.
NEVER_ANSWERS = [*(Comes() for _ in range(3)), *(HearsEnd(Bot(number)) for number in range(3))]

TELLS_OF_THREE = "".join(
    [f"daide-gate: session {number + 1} began: bot at 127.0.0.1:{{{number}}}\n" for number in range(3)]
    + [NO_ANSWER]
    + [f"daide-gate: session {number + 1} ended after *.* s: no server; bot 0 relayed 0 prn 0 huh; "
       "server 0 relayed 0 prn 0 huh; 0 faults; level 0\n" for number in range(3)]
)

# An end that arrives with the last bytes is received after them, although the system reports it only once.
ENDS_WITH_ITS_LAST = [
    *joins(),
    *opens(0),
    Says(Bot(0), OBS),
    Ends(Bot(0)),
    Hears(Server(0), OBS_FM),
    HearsEnd(Server(0)),
    HearsEnd(Bot(0)),
]

TWO_AT_ONCE = [
    *joins(),
    *joins(),
    *asks(1),
    *asks(0),
    Says(Server(0), RM),
    Says(Server(1), RM),
    Hears(Bot(1), RM),
    Hears(Bot(0), RM),
    Says(Bot(0), UNCLOSED),
    Says(Bot(1), OBS),
    Hears(Server(1), OBS),
    Hears(Bot(0), ITS_PRN),
    Says(Server(1), FM),
    Hears(Bot(1), FM),
    HearsEnd(Bot(1)),
    Says(Bot(0), OBS),
    Hears(Server(0), OBS),
    Says(Bot(0), FM),
    Hears(Server(0), FM),
    HearsEnd(Server(0)),
]


def one_floods(seconds):
    """Returns the acts of two bots, one of which has sent messages without end for this long when the other goes on."""
    return [
        *joins(),
        *joins(),
        *opens(0),
        *asks(1),
        Floods(0),
        *greets(1),
        Says(Bot(1), OBS),
        Hears(Server(1), OBS),
        Flooded(seconds),
        Says(Bot(1), OBS),
        Hears(Server(1), OBS),
        Says(Bot(1), UNCLOSED),
        Hears(Bot(1), ITS_PRN),
        Says(Bot(1), FM),
        Hears(Server(1), FM),
        HearsEnd(Server(1)),
        Leave(),
        Hears(Server(0), FM),
    ]


SECOND_WAITS = [
    Comes(),
    Comes(),
    FinishesConnect(),
    Says(Bot(1), IM),
    *opens(0),
    MeetsNobody(),
    Says(Bot(0), FM),
    Hears(Server(0), FM),
    FinishesConnect(),
    Hears(Server(1), IM),
    Says(Bot(1), FM),
    Hears(Server(1), FM),
]

# The number of idle bots at the same time.
IDLE = 60

# Each bot is served at once, although all bots before it are idle. A wait that missed its events would last for the
# whole scene.
ALL_ARE_GREETED = [
    *(act for number in range(IDLE) for act in joins() + opens(number)),
    Leave(),
    *(Hears(Server(number), FM) for number in range(IDLE)),
]

# The IM timer expires while nothing is received, and the run waits.
STAYS_SILENT = [
    *joins(),
    Rests(),
    Hears(Bot(0), EM_01),
    HearsEnd(Bot(0)),
    HearsEnd(Server(0)),
]

# The first turn of the session finds nothing. It has no other, so the next one stops it before the IM is read: the bot gets an
# FM, and the server, which got no IM, gets none.
HEARS_THE_END = [*joins(), Passes(100), Says(Bot(0), IM), Hears(Bot(0), FM), HearsEnd(Bot(0)), HearsEnd(Server(0))]

# A bot that sends its IM and ends its session at once, and a server that accepts the connection after the run has
# ended.
COMES_AND_GOES = [Comes(), Says(Bot(0), IM_FM), Rests(), FinishesConnect(), Hears(Server(0), IM_FM)]

# The run ends once the last socket has closed in its stages. Unread bytes of the last bot cause no reset.
IS_NOT_RESET = [Comes(), Pours(Bot(0), UNKNOWN, 20), Rests(), Hears(Bot(0), EM_08), HearsEndAlone(Bot(0))]

# A bot from an address that may not come, and then one from an address that may.
ONE_ADDRESS_MAY_COME = [
    Comes(),
    HearsEnd(Bot(0)),
    ComesFrom("127.0.0.2"),
    FinishesConnect(),
    Says(Bot(1), IM),
    Hears(Server(0), IM),
    Says(Server(0), RM),
    Hears(Bot(1), RM),
    Says(Bot(1), FM),
    Hears(Server(0), FM),
    HearsEnd(Bot(1)),
]

TELLS_OF_ONE_ADDRESS = """\
daide-gate: bot at 127.0.0.1:{0} may not come
daide-gate: session 1 began: bot at 127.0.0.2:{1}
daide-gate: session 1 ended after *.* s: FM of bot; bot 2 relayed 0 prn 0 huh; server 1 relayed 0 prn 0 huh; 0 faults; level 0
"""

# The second bot of one address may not come while the first is there. A third may come after it.
ONE_AT_A_TIME = [
    *joins(),
    *opens(0),
    Comes(),
    HearsEnd(Bot(1)),
    Says(Bot(0), FM),
    Hears(Server(0), FM),
    HearsEnd(Server(0)),
    HearsEnd(Bot(0)),
    *joins(),
    Says(Bot(2), IM),
    Hears(Server(1), IM),
    Says(Bot(2), FM),
    Hears(Server(1), FM),
    HearsEnd(Bot(2)),
]

SCENES = [
    Scene(
        "bot_from_another_address_is_closed_at_once", ONE_ADDRESS_MAY_COME, 'allow = ["127.0.0.2"]',
        TELLS_OF_ONE_ADDRESS, verbose=True,
    ),
    Scene("bots_of_one_address_come_one_at_a_time", ONE_AT_A_TIME, "max_per_address = 1\nsessions = 2"),
    Scene("opens_with_im_and_rm_over_sockets", OPENS_AND_ENDS),
    Scene("bot_after_the_last_is_refused", ONE_TOO_MANY, waits=True),
    Scene("unclosed_bracket_gets_prn_over_sockets", GETS_PRN),
    Scene("word_of_the_settings_goes_on", WORD_GOES_ON, WITH_XYZ),
    Scene("word_of_the_settings_goes_on_to_the_bot", WORD_COMES_FROM_THE_SERVER, WITH_XYZ),
    Scene("word_that_no_settings_have_gets_huh", WORD_IS_UNKNOWN),
    Scene("nobody_listens_at_the_server", NOBODY_SERVES, "sessions = 2", REFUSES, server=silent_door),
    Scene(
        "server_that_never_answers_is_given_up", NEVER_ANSWERS, "sessions = 3", TELLS_OF_THREE, server=full_listener,
        verbose=True, in_order=False, waits=True,
    ),
    Scene("end_that_comes_with_the_last_bytes_is_heard", ENDS_WITH_ITS_LAST),
    Scene("two_sessions_at_once", TWO_AT_ONCE, "sessions = 2"),
    Scene("messages_pass_beside_a_flood", one_floods(1), "sessions = 2"),
    Scene("one_bot_more_than_held_waits", SECOND_WAITS, "max_sessions = 1\nsessions = 2"),
    Scene("each_is_greeted_beside_idle_ones", ALL_ARE_GREETED, f"max_sessions = {IDLE}\nsessions = {IDLE}"),
    Scene("silent_bot_gets_em_01_after_its_time", STAYS_SILENT, "im_seconds = 1", waits=True),
    Scene("spent_turns_are_told", HEARS_THE_END, "turns = 1", "daide-gate: turns spent\n"),
    Scene("whole_run_listens_serves_and_ends", COMES_AND_GOES),
    Scene("run_ends_without_a_reset", IS_NOT_RESET),
]
