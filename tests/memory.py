"""The memory of the whole process beside the bound that `settings` prints."""

import pathlib
import re
import socket
import subprocess

from control import Match
from held import Wrong

# The sessions at once, of which some have a bot that reads nothing, with a small buffer at the bot.
SESSIONS, DEAF = 32, 4
BUFFER = 4_096

# `HUH ( GOF .. )`, which either side may send, with as many `GOF` as a body of 65,526 bytes has room for.
HUH = b"\x02\x00\xff\xf6" + b"\x48\x06\x40\x00" + b"\x48\x03" * 32_760 + b"\x40\x01"

# The most bytes that a server sends to a bot that reads nothing.
MOST = 16 << 20


def bound_of(match):
    """Returns the most bytes that a run needs, as `settings` prints them."""
    words = [*match.program, "settings", str(match.settings)]
    printed = subprocess.run(words, capture_output=True, text=True, check=True, timeout=20).stdout
    found = re.search(r"# memory: at most (\d+) bytes .*\n#   about (\d+) a session .*, and (\d+) MB for the program\n", printed)
    if found is None:
        raise Wrong(f"settings printed no bound of memory: {printed!r}")
    bodies, others, own = map(int, found.groups())
    return bodies + SESSIONS * others + own * 1_000_000


def most_resident(process):
    """Returns the most bytes of memory that a process had so far."""
    text = pathlib.Path(f"/proc/{process}/status").read_text(encoding="ascii")
    return 1_024 * int(re.search(r"VmHWM:\s+(\d+) kB", text)[1])


def fills(server):
    """A server sends messages until nobody takes more."""
    server.settimeout(0.5)
    sent = 0
    try:
        while sent < MOST:
            server.sendall(HUH)
            sent += len(HUH)
    except TimeoutError:
        return
    raise Wrong(f"the gateway took {sent} bytes for a bot that reads nothing")


def whole_run_stays_within_its_memory(program):
    """Each place has a session that holds all but the end of the longest body from each side. The bots of some read
    nothing, and their servers send until nothing more is taken."""
    with Match(program, f"sessions = {SESSIONS}\nmax_sessions = {SESSIONS}") as match:
        pairs = [match.opens() for _ in range(SESSIONS)]
        for bot, server in pairs[:DEAF]:
            bot.setsockopt(socket.SOL_SOCKET, socket.SO_RCVBUF, BUFFER)
            fills(server)
        for bot, server in pairs:
            bot.sendall(HUH[:-2])
        for bot, server in pairs[DEAF:]:
            server.sendall(HUH[:-2])
        match.status()
        bound, found = bound_of(match), most_resident(match.process.pid)
        if found > bound:
            raise Wrong(f"the process had {found} bytes, and settings prints {bound}")
        if found < 2 * (SESSIONS - DEAF) * len(HUH):
            raise Wrong(f"the process had {found} bytes, which do not hold the bodies")


TESTS = [whole_run_stays_within_its_memory]
