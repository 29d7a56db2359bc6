"""Runs in which each allocation is refused in turn, by a library that is preloaded into the program.

`read_settings` uses the global allocator, so no test of a crate can refuse its allocations. The expected output comes
from docs/FORMATS.md.
"""

import os
import pathlib
import shutil
import subprocess
import tempfile

from held import NotPlayed, Wrong, same
from runs import SECONDS

HERE = pathlib.Path(__file__).resolve().parent
COMPILERS = ("cc", "gcc", "clang")

# More allocations than any run makes.
MOST_GROWTHS = 1_000

# Settings with a value for each key, and two words. Nothing can listen at an address that no machine has.
SETTINGS = """\
listen = '192.0.2.1:1'
server = '127.0.0.1:16714'
top_level = 60
max_body = 1024
max_depth = 13
im_seconds = 4
max_sessions = 5
sessions = 6
turns = 7
idle_seconds = 8
stall_seconds = 9
endless = false
allow = ["127.0.0.0/8", "::1"]
max_per_address = 10
max_refused = 11
control = "c"
words = [
    { name = "XYZ", code = 0x4A40, slot = "press", level = 20, operand = "power" },
    { name = "XYY", code = 0x4A41, slot = "press", level = 30, operand = "provinces" },
]
"""

# `SND ( FRA ) ( XYZ ( ENG ) )`, as `show` prints it, with its verdict.
SHOWN = b"DM 20\nSND ( FRA ) ( XYZ ( ENG ) )\nrelay\n"

# The fault of two words with one code.
SAME_CODE = (
    b"daide-gate: line 19: words[1].code = 0x4A40 is out of range; it must be an integer from 0x4A00 to 0x4AFF, no "
    b"token of the protocol's or of an earlier word, and none of 0x4A0D, 0x4A12 and 0x4A1B\n"
)

# The arguments of a run that reads the file `settings`, that file, its standard output and standard error, and its
# status.
RUNS = [
    (
        ["show", "--level", "60", "--words", "settings", "02000014481740004102400140004A40400041014001", "4001"],
        SETTINGS, (SHOWN, b"", 0),
    ),
    (["run", "settings"], SETTINGS, (b"", b"daide-gate: cannot listen\n", 1)),
    (["run", "settings"], SETTINGS + "depth = 5\n", (b"", b'daide-gate: line 21: unknown key "depth"\n', 1)),
    (
        ["settings", "settings"], SETTINGS + "depth = 5\n",
        (b'line 21: unknown key "depth"\n', b"", 1),
    ),
    (["status", "settings"], SETTINGS, (b"", b"daide-gate: c: nobody listens\n", 1)),
    (["stop", "--now", "settings"], SETTINGS, (b"", b"daide-gate: c: nobody listens\n", 1)),
    (
        ["run", "settings"], SETTINGS + "depth\n",
        (b"", b"daide-gate: line 21: settings are not TOML: key with no value, expected `=`\n", 1),
    ),
    (["run", "settings"], SETTINGS.replace("0x4A41", "0x4A40"), (b"", SAME_CODE, 1)),
]

REFUSED = (b"", b"daide-gate: out of memory\n", 1)

# A run makes more allocations than this: its settings alone have as many members.
FEWEST_GROWTHS = 20


def compiled(room, source="refusing.c", *flags):
    """Compiles the library of this source into this folder, and returns its path."""
    compiler = next(filter(None, map(shutil.which, COMPILERS)), None)
    if not compiler:
        raise NotPlayed("there is no compiler of C")
    library = pathlib.Path(room) / "refusing.so"
    words = [compiler, "-shared", "-fPIC", "-O1", "-nostdlib", "-fno-builtin", *flags]
    ran = subprocess.run([*words, "-o", str(library), str(HERE / source)], capture_output=True, timeout=SECONDS, check=False)
    if ran.returncode:
        raise NotPlayed(f"{compiler} can't compile it, and says {ran.stderr.decode(errors='replace')!r}")
    return library


def run_refusing(program, room, words, growth):
    """Runs with this allocation refused. Returns both outputs and the status, and whether the allocation was
    refused."""
    reader, writer = os.pipe()
    names = {"LD_PRELOAD": f"{room}/refusing.so", "REFUSED": str(growth), "REFUSED_TO": str(writer)}
    try:
        ran = subprocess.run(
            [str(program), *words], cwd=room, stdin=subprocess.DEVNULL, capture_output=True, timeout=SECONDS,
            check=False, env={**os.environ, **names}, pass_fds=[writer],
        )
    finally:
        os.close(writer)
    with open(reader, "rb") as refused:
        was_refused = refused.read() != b""
    return (ran.stdout, ran.stderr, ran.returncode), was_refused


def play(program, room, words, wanted):
    """Refuses each allocation of a run in turn. Nothing is printed and the lack of memory is reported, or the run does
    without that allocation and has the expected output. Ends at the first run without a refusal, which has the expected
    output.

    A run does without the memory that `collect` reserves before it adds an element that does not fit. If the
    reservation is refused, `collect` requests the memory again as it adds the element. Three callers
    do so: `words` of the program, for its arguments, `digits_of` of `daide_show`, for the digits of an input, and
    `looked_up` of `daide_sockets`, for the addresses of a name."""
    fatal = 0
    for growth in range(1, MOST_GROWTHS):
        seen, was_refused = run_refusing(program, room, words, growth)
        if not was_refused:
            same(seen, wanted, f"{words}, nothing refused")
            if fatal <= FEWEST_GROWTHS:
                raise Wrong(f"{words}: saw {fatal} growths without which it ends, wanted more than {FEWEST_GROWTHS}")
            return
        if seen != wanted:
            same(seen, REFUSED, f"{words}, growth {growth} refused")
            fatal += 1
    raise Wrong(f"{words}: saw {MOST_GROWTHS} growths and more")


def each_growth_of_settings_is_refused_in_turn(program):
    """Runs that read settings, valid and wrong ones."""
    with tempfile.TemporaryDirectory() as room:
        compiled(room)
        for words, settings, wanted in RUNS:
            (pathlib.Path(room) / "settings").write_text(settings, encoding="utf-8")
            play(program, room, words, wanted)


TESTS = [each_growth_of_settings_is_refused_in_turn]
