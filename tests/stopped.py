"""Scenes in which the program is stopped for a moment, so that one wait receives all that was sent meanwhile."""

from acts import (
    Bot, Comes, Ends, FinishesConnect, GoesOn, Hears, HearsEnd, Leave, Says, SaysUrgently, Server, Stops,
)
from frames import FM, IM, ITS_PRN, OBS, UNCLOSED, YES
from gateway import joins, opens
from stage import Scene

# The numbers of sessions of which more than 64 and more than 128 sockets become ready at once.
SOME, MORE = 70, 130

# The number of bots that come at once: fewer than wait in the queue of a listener.
COMING = 100

# The numbers of messages of 6 and of 12 bytes that take more than one read of 16,384 bytes, or more than two.
MANY_SHORT = (2_800, 4_000, 5_600)
MANY_LONG = (1_400, 2_000, 2_800)


def speak_at_once(count):
    """Returns a scene in which this many bots speak at once, and then all bots and servers."""
    numbers = range(count)
    return [
        *(act for number in numbers for act in joins() + opens(number)),
        Stops(),
        *(Says(Bot(number), UNCLOSED) for number in numbers),
        GoesOn(),
        *(Hears(Bot(number), ITS_PRN) for number in numbers),
        Stops(),
        *(act for number in numbers for act in (Says(Bot(number), OBS), Says(Server(number), YES))),
        GoesOn(),
        *(act for number in numbers for act in (Hears(Server(number), OBS), Hears(Bot(number), YES))),
        Leave(),
        *(Hears(Server(number), FM) for number in numbers),
    ]


# Bots connect and send their IMs before the program accepts the first of them.
COME_AT_ONCE = [
    Stops(),
    *(act for number in range(COMING) for act in (Comes(), Says(Bot(number), IM))),
    GoesOn(),
    *(act for number in range(COMING) for act in (FinishesConnect(), Hears(Server(number), IM))),
    Leave(),
    *(Hears(Server(number), FM) for number in range(COMING)),
]

def end_behind(side, other, message, counts):
    """Returns a scene in which each end of one side sends a message many times, and ends its stream. The other side
    receives all of it."""
    sessions = list(enumerate(counts))
    return [
        *(act for number, _ in sessions for act in joins() + opens(number)),
        Stops(),
        *(act for number, count in sessions for act in (Says(side(number), message * count), Ends(side(number)))),
        GoesOn(),
        *(
            act
            for number, count in sessions
            for act in (Hears(other(number), message * count + FM), HearsEnd(other(number)), HearsEnd(side(number)))
        ),
    ]


def room_for(count):
    """Returns the settings of a run with room for this many sessions."""
    return f"max_sessions = {count}\nsessions = {count}"


# The program reads up to an urgent byte, and then what follows it, although the system reports both only once.
BEHIND_AN_URGENT_BYTE = [
    *joins(),
    *opens(0),
    Stops(),
    Says(Bot(0), OBS),
    SaysUrgently(Bot(0)),
    Says(Bot(0), OBS),
    GoesOn(),
    Hears(Server(0), OBS * 2),
    Says(Bot(0), FM),
    Hears(Server(0), FM),
]

# An end that arrives with more bytes than one read takes is received after all of them, although the system reports it
# only once.
BOTS_END = end_behind(Bot, Server, OBS, MANY_SHORT)
SERVERS_END = end_behind(Server, Bot, YES, MANY_LONG)

SCENES = [
    Scene("seventy_speak_at_once", speak_at_once(SOME), room_for(SOME)),
    Scene("more_than_128_speak_at_once", speak_at_once(MORE), room_for(MORE)),
    Scene("hundred_come_at_once", COME_AT_ONCE, room_for(COMING)),
    Scene("frame_behind_an_urgent_byte_is_read", BEHIND_AN_URGENT_BYTE),
    Scene("end_of_a_bot_behind_unread_bytes_is_heard", BOTS_END, room_for(len(MANY_SHORT))),
    Scene("end_of_a_server_behind_unread_bytes_is_heard", SERVERS_END, room_for(len(MANY_LONG))),
]
