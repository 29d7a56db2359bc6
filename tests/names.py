"""Scenes of bots that say what they call themselves, and of servers that say which power a bot plays. The line of the
session's end has both."""

from acts import Bot, Hears, HearsEnd, Says, Server
from frames import (
    EMPTY_NAME, FM, HLO_20, HLO_AUS, HLO_CUT, HLO_UNLISTED, HLO_UNO, IAM_AUS, IAM_ENG, ITS_CUT, ITS_MISSING,
    MISSES_VERSION, NAMED, OBS, REJ_AUS, WILD_NAME, YES, YES_AUS,
)
from gateway import joins, opens
from stage import Scene


def relays(number, *frames):
    """A bot sends these frames, which its server receives, and then an FM."""
    return [
        *(act for frame in frames for act in (Says(Bot(number), frame), Hears(Server(number), frame))),
        Says(Bot(number), FM),
        Hears(Server(number), FM),
        HearsEnd(Server(number)),
    ]


# A bot whose second NME gets HUH, one that says another name, one that says its power after its name, one whose name has
# 200 bytes, quotes and control characters among them, one that says neither, one that says its name after its power, and
# one whose second name is empty.
SAY_THEIR_NAMES = [
    *(act for _ in range(7) for act in joins()),
    *(act for number in range(7) for act in opens(number)),
    Says(Bot(0), NAMED),
    Hears(Server(0), NAMED),
    Says(Bot(0), MISSES_VERSION),
    Hears(Bot(0), ITS_MISSING),
    *relays(0),
    *relays(1, WILD_NAME, OBS, NAMED),
    *relays(2, NAMED, IAM_ENG),
    *relays(3, WILD_NAME),
    *relays(4, OBS),
    *relays(5, IAM_ENG, NAMED),
    *relays(6, NAMED, EMPTY_NAME),
]

# What is kept of the long name: the eight bytes that it begins with, and 24 of its letters.
WILD = "NME 'O' #4b27 'B\"\\' #4b0a #4b1b #4bff '" + "x" * 24 + "'.."

ENDS = [
    "bot 3 relayed 0 prn 1 huh; server 1 relayed 0 prn 0 huh; 0 faults; level 0; NME 'Albert'",
    "bot 5 relayed 0 prn 0 huh; server 1 relayed 0 prn 0 huh; 0 faults; level 0; NME 'Albert'",
    "bot 4 relayed 0 prn 0 huh; server 1 relayed 0 prn 0 huh; 0 faults; level 0; IAM ENG",
    f"bot 3 relayed 0 prn 0 huh; server 1 relayed 0 prn 0 huh; 0 faults; level 0; {WILD}",
    "bot 3 relayed 0 prn 0 huh; server 1 relayed 0 prn 0 huh; 0 faults; level 0",
    "bot 4 relayed 0 prn 0 huh; server 1 relayed 0 prn 0 huh; 0 faults; level 0; NME 'Albert'",
    "bot 4 relayed 0 prn 0 huh; server 1 relayed 0 prn 0 huh; 0 faults; level 0; NME",
]


def tells(ends):
    """The lines of sessions that end like this, each by its bot's FM."""
    return "".join(
        [f"daide-gate: session {number + 1} began: bot at 127.0.0.1:{{{number}}}\n" for number in range(len(ends))]
        + [f"daide-gate: session {number + 1} ended after *.* s: FM of bot; {end}\n" for number, end in enumerate(ends)]
    )


def answers(number, *frames):
    """The server of a bot sends these frames, which the bot receives."""
    return [act for frame in frames for act in (Says(Server(number), frame), Hears(Bot(number), frame))]


def says(number, frame):
    """A bot sends a frame, which its server receives."""
    return [Says(Bot(number), frame), Hears(Server(number), frame)]


# A bot with a name whose server gives it AUS, and then sends another message; one that asks for AUS again, and gets it;
# one that asks for it and is rejected; one that asks, and gets no answer; one that gets ENG, and then AUS, and whose
# server then sends an HLO that is refused; one with an unlisted power; and an observer.
HAVE_POWERS = [
    *(act for _ in range(7) for act in joins()),
    *(act for number in range(7) for act in opens(number)),
    *says(0, NAMED),
    *answers(0, HLO_AUS, YES),
    *relays(0),
    *says(1, IAM_AUS),
    *answers(1, YES_AUS),
    *relays(1),
    *says(2, IAM_AUS),
    *answers(2, REJ_AUS),
    *relays(2),
    *relays(3, IAM_AUS),
    *answers(4, HLO_20, HLO_AUS),
    Says(Server(4), HLO_CUT),
    Hears(Server(4), ITS_CUT),
    *relays(4),
    *answers(5, HLO_UNLISTED),
    *relays(5),
    *answers(6, HLO_UNO),
    *relays(6),
]

POWERS = [
    "bot 3 relayed 0 prn 0 huh; server 3 relayed 0 prn 0 huh; 0 faults; level 20; NME 'Albert'; power AUS",
    "bot 3 relayed 0 prn 0 huh; server 2 relayed 0 prn 0 huh; 0 faults; level 0; IAM AUS; power AUS",
    "bot 3 relayed 0 prn 0 huh; server 2 relayed 0 prn 0 huh; 0 faults; level 0; IAM AUS",
    "bot 3 relayed 0 prn 0 huh; server 1 relayed 0 prn 0 huh; 0 faults; level 0; IAM AUS",
    "bot 2 relayed 0 prn 0 huh; server 3 relayed 0 prn 1 huh; 0 faults; level 20; power AUS",
    "bot 2 relayed 0 prn 0 huh; server 2 relayed 0 prn 0 huh; 0 faults; level 20; power #4107",
    "bot 2 relayed 0 prn 0 huh; server 2 relayed 0 prn 0 huh; 0 faults; level 20; power UNO",
]

SCENES = [
    Scene("line_of_an_end_has_the_bots_name", SAY_THEIR_NAMES, "sessions = 7", tells(ENDS), verbose=True),
    Scene("line_of_an_end_has_the_bots_power", HAVE_POWERS, "sessions = 7", tells(POWERS), verbose=True),
]
