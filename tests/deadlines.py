"""Scenes of deadlines: each is waited for, none comes early, and a wait for one uses almost no processor time."""

from acts import Bot, Goes, Hears, HearsEnd, Leave, Narrows, Passes, Pours, Rests, Says, Server, Settles, Waits, Within
from frames import EM_01, FM, IM, LONG_MAP, LONGER_NAME, MISNAMED
from gateway import STAYS_SILENT, joins, opens
from stage import Scene
from stalls import MORE_THAN_FITS

# A bot has all of its time for the IM, although that is longer than the 5 seconds of a connect. Another bot that sends
# nothing gets its EM after that time, and not before.
SPEAKS_LATE = [
    *joins(),
    *joins(),
    Passes(5_400),
    Hears(Bot(1), b""),
    Says(Bot(0), IM),
    Hears(Server(0), IM),
    Within(1_500, Hears(Bot(1), EM_01)),
    HearsEnd(Bot(1)),
    HearsEnd(Server(1)),
    Says(Bot(0), FM),
    Hears(Server(0), FM),
]

# The number of sessions whose sockets are more than 256.
MANY = 130

# Beside as many open sessions without a deadline the IM timer of the last bot expires in time, although nothing is
# received.
LAST_IS_SILENT = [
    *(act for number in range(MANY) for act in joins() + opens(number)),
    *joins(),
    Within(2_500, Hears(Bot(MANY), EM_01)),
    HearsEnd(Bot(MANY)),
    HearsEnd(Server(MANY)),
    Leave(),
    *(Hears(Server(number), FM) for number in range(MANY)),
]

# As many bots send nothing. Each gets its EM in time.
ALL_ARE_SILENT = [
    *(act for _ in range(MANY) for act in joins()),
    *(
        act
        for number in range(MANY)
        for act in (
            Within(2_500, Hears(Bot(number), EM_01)),
            Within(2_500, HearsEnd(Bot(number))),
            Within(2_500, HearsEnd(Server(number))),
        )
    ),
]

# A bot sends nothing and reads nothing, and messages of its server wait for it. Its silence ends the session all the
# same, and the server receives its FM at once. The bytes for the bot are given up later. The program waits for that.
BOT_HANGS = [
    *joins(),
    *opens(0),
    Narrows(Bot(0)),
    Pours(Server(0), LONG_MAP, MORE_THAN_FITS),
    Within(1_900, Hears(Server(0), FM)),
    Waits(1_000),
    HearsEnd(Server(0)),
    Goes(Server(0)),
    Rests(),
    Leave(),
]

# The same of a server.
SERVER_HANGS = [
    *joins(),
    *opens(0),
    Narrows(Server(0)),
    Pours(Bot(0), LONGER_NAME, MORE_THAN_FITS),
    Within(1_900, Hears(Bot(0), FM)),
    Waits(1_000),
    HearsEnd(Bot(0)),
    Rests(),
    Goes(Server(0)),
    Leave(),
]

SILENCE = """\
daide-gate: session 1 began: bot at 127.0.0.1:{{0}}
daide-gate: session 1 ended after *.* s: {} silent; bot * relayed 0 prn 0 huh; server * relayed 0 prn 0 huh; 0 faults; level 0{}
"""

# The bot's messages are NMEs whose names are longer than what is kept of them.
NAMED = f"; NME '{'a' * 32}'.."

# The line of an end says after how many seconds it came: eleven, or a few more on a busy machine.
ENDS_AFTER_ELEVEN = """\
daide-gate: session 1 began: bot at 127.0.0.1:{0}
daide-gate: session 1 ended after 1*.* s: no IM in time; bot 0 relayed 0 prn 0 huh; server 0 relayed 0 prn 0 huh; 1 faults; level 0
"""

# A bot reads no answer, so the gateway reads nothing from it, and nothing from its server, whose messages wait as well.
# No byte arrives from either for longer than `idle_seconds`. The gateway waits until the bot goes.
SILENCE_HAS_BEGUN = [
    *joins(),
    *opens(0),
    Narrows(Bot(0)),
    Pours(Bot(0), MISNAMED, MORE_THAN_FITS),
    Pours(Server(0), LONG_MAP, MORE_THAN_FITS),
    Settles(1_500),
    Waits(1_000),
    Leave(),
    Hears(Server(0), FM),
    HearsEnd(Server(0)),
    Goes(Server(0)),
]

SCENES = [
    Scene(
        "deadline_after_eleven_seconds_is_waited_for", STAYS_SILENT, "im_seconds = 11", told=ENDS_AFTER_ELEVEN,
        verbose=True, waits=True,
    ),
    Scene("im_has_its_own_time", SPEAKS_LATE, "im_seconds = 6\nsessions = 2", waits=True),
    Scene(
        "deadline_beside_260_sockets_is_waited_for", LAST_IS_SILENT,
        f"im_seconds = 1\nmax_sessions = {MANY + 1}\nsessions = {MANY + 1}",
    ),
    Scene(
        "each_of_130_silent_bots_gets_em_01", ALL_ARE_SILENT,
        f"im_seconds = 1\nmax_sessions = {MANY}\nsessions = {MANY}",
    ),
    Scene(
        "hung_bot_for_which_bytes_wait_is_silent", BOT_HANGS, "idle_seconds = 1\nstall_seconds = 3",
        told=SILENCE.format("bot", ""), verbose=True,
    ),
    Scene(
        "hung_server_for_which_bytes_wait_is_silent", SERVER_HANGS, "idle_seconds = 1\nstall_seconds = 3",
        told=SILENCE.format("server", NAMED), verbose=True,
    ),
    Scene("wait_beside_a_silence_that_has_begun", SILENCE_HAS_BEGUN, "idle_seconds = 1\nstall_seconds = 0"),
]
