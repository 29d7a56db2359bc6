"""The comparisons of the tests."""

import itertools
import re
import signal


class Wrong(Exception):
    """The result is not the expected one."""


class NotPlayed(Exception):
    """This machine can't show the result, so the test neither passes nor fails."""


# The signals at which the script at the top ends what it began.
SIGNALS = (signal.SIGINT, signal.SIGTERM, signal.SIGHUP)


def take_signals():
    """Has a process take these signals. Its caller may ignore some, as `nohup` does, and a shell can't trap those."""
    for number in SIGNALS:
        signal.signal(number, signal.SIG_DFL)


MOST = 160


def brief(value):
    """Returns a value in one short line, with bytes as hexadecimal digits."""
    is_bytes = isinstance(value, (bytes, bytearray))
    text = value.hex() if is_bytes else str(value) if not isinstance(value, str) else repr(value)
    if len(text) <= MOST:
        return text or "nothing"
    return f"{text[:MOST]}.. ({len(value) if is_bytes else len(text)} in all)"


def same(seen, wanted, where):
    """Fails if the result is not the expected one."""
    if seen != wanted:
        raise Wrong(f"{where}: saw {brief(seen)}, wanted {brief(wanted)}")


def is_same_but_counts(seen, wanted):
    """Returns whether two texts are the same, with `*` for any number in the wanted one."""
    return re.fullmatch(re.escape(wanted).replace(r"\*", r"\d+"), seen) is not None


def same_but_counts(seen, wanted, where):
    """The same for the lines of a text in which `*` matches any number. Names the first line that differs."""
    if is_same_but_counts(seen, wanted):
        return
    pairs = itertools.zip_longest(seen.splitlines(), wanted.splitlines(), fillvalue="no line")
    for number, (line, wanted_line) in enumerate(pairs, 1):
        if not is_same_but_counts(line, wanted_line):
            same(line, wanted_line, f"{where}, line {number}")
    same(seen, wanted, where)
