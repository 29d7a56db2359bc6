"""Runs of the prover, several at a time."""

import os
import signal
import subprocess
import threading
from dataclasses import dataclass


@dataclass(frozen=True)
class Outcome:
    """What a check of a mutated crate ended with, and the lines that it printed."""

    status: int
    lines: list

    @property
    def is_read(self):
        """Whether the prover read the crate and came to a verdict."""
        return self.status == 0 or any(line.startswith(("logic=", "only=")) for line in self.lines)


class Checks:
    """Runs of the prover, several at a time, which can all be stopped."""

    def __init__(self):
        self.running, self.lock, self.is_stopped = set(), threading.Lock(), False

    def run(self, words, folder):
        """Runs this command in a folder. Raises KeyboardInterrupt if it is stopped."""
        how = {"stdout": subprocess.PIPE, "stderr": subprocess.STDOUT, "stdin": subprocess.DEVNULL}
        with self.lock:
            if self.is_stopped:
                raise KeyboardInterrupt
            # (a group and no session: in one of its own its priority would not count against other runs)
            ran = subprocess.Popen(words, cwd=folder, text=True, errors="replace", process_group=0, **how)
            self.running.add(ran)
        text, _ = ran.communicate()
        with self.lock:
            self.running.discard(ran)
        if self.is_stopped:
            raise KeyboardInterrupt
        return Outcome(ran.returncode, text.splitlines())

    def stop(self):
        """Stops each run, and all that would follow."""
        self.is_stopped = True
        for ran in list(self.running):
            os.killpg(ran.pid, signal.SIGTERM)
