"""Runs in which the system refuses a call that it mostly permits, by a library that is preloaded into the program.

The expected lines come from docs/FORMATS.md.
"""

import os
import pathlib
import tempfile

from gateway import OPENS_AND_ENDS
from growths import compiled
from held import same
from runs import Folder, check_ran
from stage import Scene

# No machine has the address of `listen` in the second one.
SETTINGS = {
    "settings": "listen = '127.0.0.1:0'\nserver = '127.0.0.1:1'\ncontrol = 'control'\n",
    "settings-elsewhere": "listen = '192.0.2.1:1'\nserver = '127.0.0.1:1'\n",
}


def refusing(room, call):
    """Compiles the library that refuses this call into a folder, and returns its path."""
    return compiled(room, "refusing_call.c", f"-DREFUSED={call}")


def run_refusing(folder, call, words):
    """Runs with these arguments while this call is not permitted. Returns both outputs and the status."""
    library = refusing(folder.room.name, call)
    return folder.run(words, env={**os.environ, "LD_PRELOAD": str(library)})


def socket_whose_mode_cannot_be_set_begins_no_run(program):
    """A control socket that others might use is a fault, and its file is removed."""
    with Folder(program, SETTINGS) as folder:
        ran = run_refusing(folder, "chmod", ["run", "--verbose", "settings"])
        check_ran(ran, ("", "cannot listen/control control: permission denied", "1"), "a run that can't set a mode")
        same((pathlib.Path(folder.room.name) / "control").exists(), False, "the socket is there")


def folder_whose_test_file_stays_begins_no_run(program):
    """A folder of records in which the file of its test can't be removed."""
    with Folder(program, SETTINGS) as folder:
        ran = run_refusing(folder, "unlink", ["run", "--verbose", "--record", "records", "settings-elsewhere"])
        wanted = ("", "record could not be written/folder records: permission denied", "1")
        check_ran(ran, wanted, "a run that can't remove a file")


class Preloaded(Scene):
    """A scene of a run into which a library is preloaded. `made` compiles it into a folder, and returns its path."""

    def play(self, program):
        """Plays the scene with the library."""
        with tempfile.TemporaryDirectory() as room:
            self.library = self.made(room)
            super().play(program)

    def conditions(self, watcher=()):
        """Returns the conditions of a run into which the library is preloaded."""
        return super().conditions(("env", f"LD_PRELOAD={self.library}", *watcher))


class Clockless(Preloaded):
    """A scene of a run that can't read the clock."""

    @staticmethod
    def made(room):
        """Compiles the library."""
        return refusing(room, "clock_gettime")


class Pageless(Preloaded):
    """A scene of a run that gets no page for a record: no memory of the size of a page with its length."""

    @staticmethod
    def made(room):
        """Compiles the library."""
        return compiled(room, "refusing.c", "-DREFUSED_SIZE=8200")


# No line says how long a session lasted.
TELLS_NO_TIME = """\
daide-gate: session 1 began: bot at 127.0.0.1:{0}
daide-gate: session 1 ended: FM of bot; bot 2 relayed 0 prn 0 huh; server 1 relayed 0 prn 0 huh; 0 faults; level 0
"""

# A record has a page of 8,192 bytes. Without it the session is not recorded, and no file is made.
TELLS_NO_PAGE = "daide-gate: session 1 is not recorded: its file could not be made (out of memory)\n"

TESTS = [socket_whose_mode_cannot_be_set_begins_no_run, folder_whose_test_file_stays_begins_no_run]

SCENES = [
    Clockless("run_without_a_clock_serves", OPENS_AND_ENDS, told=TELLS_NO_TIME, verbose=True, recorded=1),
    Pageless("record_without_memory_is_told", OPENS_AND_ENDS, told=TELLS_NO_PAGE, recorded=0),
]
