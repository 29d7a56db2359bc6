"""Scenes of peers that do not read the bytes queued for them."""

from acts import Bot, Ends, Goes, Hears, HearsEnd, Leave, Narrows, Passes, Pours, Rests, Says, Server, Sips
from frames import FM, LONG_MAP, LONGER_NAME, MISNAMED
from gateway import joins, opens
from stage import Scene

# The number of frames of 20 KB that exceeds the buffers at both ends of a connection.
MORE_THAN_FITS = 1_500

# A bot sends messages that get HUH, and reads no answer; its server sends an FM and closes. The session is over, and
# the bot accepts none of its queued bytes.
STOPS_READING = [
    *joins(),
    *opens(0),
    Pours(Bot(0), MISNAMED, MORE_THAN_FITS),
    Passes(1_000),
    Says(Server(0), FM),
    Ends(Server(0)),
    HearsEnd(Server(0)),
    Rests(),
    Leave(),
]

# The server stays, and receives the end of the session.
STOPS_READING_ALONE = [
    *joins(),
    *opens(0),
    Pours(Bot(0), MISNAMED, MORE_THAN_FITS),
    Hears(Server(0), FM),
    HearsEnd(Server(0)),
    Ends(Server(0)),
    Rests(),
    Leave(),
]

# A server accepts no byte from its bot.
SERVER_STOPS_READING = [
    *joins(),
    *opens(0),
    Pours(Bot(0), LONGER_NAME, MORE_THAN_FITS),
    Hears(Bot(0), FM),
    HearsEnd(Bot(0)),
    Rests(),
    Goes(Server(0)),
    Leave(),
]

# A bot reads steadily but slowly what its server sends without pause. Within the stall timeout it reads less than a third
# of what the system holds for it, so its socket is not reported as writable. The session goes on until the bot ends it.
READS_SLOWLY = [
    *joins(),
    *opens(0),
    Narrows(Bot(0)),
    Pours(Server(0), LONG_MAP, MORE_THAN_FITS),
    Sips(Bot(0), 5_000),
    Says(Bot(0), FM),
    Hears(Server(0), FM),
    HearsEnd(Server(0)),
    Goes(Server(0)),
    Leave(),
]

BOT_STALLED = """\
daide-gate: session 1 began: bot at 127.0.0.1:{0}
daide-gate: session 1 ended after *.* s: bot took nothing for 1 s; bot 1 relayed 0 prn * huh; server 1 relayed 0 prn 0 huh; 0 faults; level 0
"""

BOT_LEFT = """\
daide-gate: session 1 began: bot at 127.0.0.1:{0}
daide-gate: session 1 ended after *.* s: FM of bot; bot * relayed 0 prn 0 huh; server * relayed 0 prn 0 huh; 0 faults; level 0
"""

SERVER_STALLED = """\
daide-gate: session 1 began: bot at 127.0.0.1:{0}
daide-gate: session 1 ended after *.* s: server took nothing for 1 s; bot * relayed 0 prn 0 huh; server 1 relayed 0 prn 0 huh; 0 faults; level 0; NME 'aaaaaaaaaaaaaaaaaaaaaaaaaaaaaaaa'..
"""

SCENES = [
    Scene("bot_that_reads_nothing_holds_no_run_open", STOPS_READING, "stall_seconds = 1"),
    Scene(
        "bot_that_reads_nothing_is_given_up", STOPS_READING_ALONE, "stall_seconds = 1", told=BOT_STALLED,
        verbose=True,
    ),
    Scene("bot_that_reads_slowly_is_kept", READS_SLOWLY, "stall_seconds = 1", told=BOT_LEFT, verbose=True),
    Scene(
        "server_that_reads_nothing_is_given_up", SERVER_STOPS_READING, "stall_seconds = 1", told=SERVER_STALLED,
        verbose=True,
    ),
]
