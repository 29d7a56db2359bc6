"""The script `daide-gate` at the top: it makes the program once, keeps it, and replaces itself by it.

A stand-in for the compiler returns the tested program, and counts its calls.
"""

import contextlib
import os
import pathlib
import re
import shlex
import shutil
import signal
import socket
import subprocess
import tempfile
import time

from frames import FM, IM, RM, YES
from growths import compiled
from held import SIGNALS, Wrong, same, take_signals
from runs import SECONDS, TOP
from stage import HOST, free_port

# Replaces scripts/unproved-program. It waits as long as there is a file `wait`, and fails if there is a file `fail`.
COMPILER = """\
#!/bin/sh
top=$(dirname -- "$0")/..
echo called >>"$top/calls"
while [ -e "$top/wait" ]; do sleep 0.1; done
[ ! -e "$top/fail" ] || { echo 'no such type'; exit 1; }
ln -s PROGRAM "$1/program"
"""

# Replaces `rt` of the toolchain. Its `rt ci` proves and builds, unless there is a file `fail` in the clone, TOP.
PROVER = """\
#!/bin/sh
[ "$*" = ci ] && [ ! -e TOP/fail ] || { echo 'a goal is open'; exit 1; }
mkdir -p crates/daide_gate_cli/out
ln -s PROGRAM crates/daide_gate_cli/out/daide_gate_cli
"""

# A program whose run never listens, and has the file `began` beside it.
DEAF = """\
#!/bin/sh
case $1 in
settings) echo 'control = "c"' ;;
run) echo "$$" >"$0.began" && exec sleep 60 ;;
stop) exit 1 ;;
esac
"""

# A run with a control socket, in the folder of the file.
SETTINGS = """\
listen = '127.0.0.1:{}'
server = '127.0.0.1:{}'
control = '{}/c'
endless = true
stall_seconds = 11
"""

# The longest that the script waited for a run before, in seconds.
WAITED = 10

# A program whose run sends the script the signal of its last word at once, and never listens.
EAGER = DEAF.replace("&& exec", "&& shift $(($# - 1)) && kill -s $1 $PPID && exec")

KEPT = "daide-gate-unproved"
GOF = "02 00 00 02 48 03\n"


class Clone:
    """A folder with a blank in its name, which has the script, one crate and the stand-in."""

    def __init__(self, program):
        self.program = program
        self.room = tempfile.TemporaryDirectory()
        self.top = pathlib.Path(self.room.name) / "a clone"
        self.crate = self.top / "crates" / "daide_gate_cli"
        self.source = self.crate / "src" / "main.rt"
        self.bin = self.top / "bin"

    def __enter__(self):
        for part in ("src", "specs", "proofs"):
            (self.crate / part).mkdir(parents=True)
            (self.crate / part / "main.rt").touch()
        for folder in ("scripts", "tests", "tools"):
            (self.top / folder).mkdir()
        for name in ("daide-gate", "HANDLES", "scripts/copy-below", "tests/crates.list"):
            shutil.copy(TOP / name, self.top / name)
        (self.top / "crates.txt").write_text("daide_gate_cli:\n", encoding="utf-8")
        self.writes(self.top / "scripts" / "unproved-program", COMPILER.replace("PROGRAM", shlex.quote(str(self.program))))
        self.writes(self.top / "tools" / "rt", "#!/bin/sh\n")
        for path in self.top.rglob("*"):
            os.utime(path, (time.time() - 60,) * 2)
        return self

    def __exit__(self, *fault):
        self.room.cleanup()

    @staticmethod
    def writes(path, text):
        """Writes a program."""
        path.write_text(text, encoding="utf-8")
        path.chmod(0o755)

    def has_proved(self, text=None):
        """Writes a proved program, which is the tested one or this text."""
        self.bin.mkdir(exist_ok=True)
        if text is None:
            shutil.copy(self.program, self.bin / "daide-gate")
        else:
            self.writes(self.bin / "daide-gate", text)
        (self.bin / "daide-gate.kind").write_text("proved at commit 0\n", encoding="utf-8")

    def begin(self, *words, tools=None, limit="-c 0", **more):
        """Begins a command in the folder above the clone, with a limit as `ulimit` takes it, and further variables."""
        path = f"{tools or self.top / 'tools'}:/usr/bin:/bin"
        return subprocess.Popen(
            ["sh", "-c", f'ulimit {limit} && exec "$@"', "sh", self.top / "daide-gate", *words], cwd=self.room.name,
            text=True, stdin=subprocess.PIPE, stdout=subprocess.PIPE, stderr=subprocess.PIPE,
            env={**os.environ, "PATH": path, **more}, preexec_fn=take_signals,
        )

    def run(self, *words, given="", **how):
        """Runs a command, and returns both its outputs and its status."""
        with self.begin(*words, **how) as process:
            return *process.communicate(given, timeout=SECONDS), process.returncode

    def version(self):
        """Returns the second line of `--version`."""
        return self.run("--version")[0].splitlines()[1]

    def calls(self):
        """Returns how many times the compiler was called."""
        calls = self.top / "calls"
        return calls.read_text(encoding="utf-8").count("called") if calls.exists() else 0

    def awaits(self, calls):
        """Waits until the compiler was called so often."""
        wait_for(lambda: self.calls() >= calls, f"{calls} calls of the compiler")

    def kept(self):
        """Returns the names of the files in bin/, without the locks and the logs."""
        names = {path.name for path in self.bin.iterdir()}
        return sorted(name for name in names if not name.endswith((".lock", ".log")))


def wait_for(condition, what):
    """Waits until this holds."""
    until = time.monotonic() + SECONDS
    while not condition():
        if time.monotonic() > until:
            raise Wrong(f"waited {SECONDS} s for {what}")
        time.sleep(0.05)


def program_is_compiled_once(program):
    """The first command compiles the program. The words, the input and the folder are the user's."""
    with Clone(program) as clone:
        (pathlib.Path(clone.room.name) / "here.toml").write_text("listen = 'a:1'\nserver = 'b:2'\n", encoding="utf-8")
        printed, told, status = clone.run("show", given="02000002480F")
        same((printed, status), ("DM 2\nOBS\nrelay\n", 0), "the first command")
        same((told.count("without its proof"), told.count(": made in")), (1, 1), "lines of the first command")
        same(clone.run("show", given="02000002480F"), ("DM 2\nOBS\nrelay\n", "", 0), "the second command")
        same(clone.run("settings", "here.toml")[1:], ("", 0), "settings in the user's folder")
        same(clone.run("chek")[1].splitlines()[2], "  tip: a similar subcommand exists: 'check'", "wrong usage")
        same((clone.calls(), clone.kept()), (1, [KEPT, f"{KEPT}.kind"]), "calls of the compiler, and what is kept")


def wrong_words_are_refused_before_the_compiler(program):
    """A first word that is no command of the program, and a word after `prove`."""
    with Clone(program) as clone:
        printed, told, status = clone.run("chek")
        same((printed, status, clone.calls()), ("", 2, 0), "an unknown command, and calls of the compiler")
        known = re.search(r"no command; these are: (.*), prove\n", told)[1].split(", ")
        helped = subprocess.run([str(program), "--help"], capture_output=True, text=True, timeout=SECONDS, check=True)
        commands = re.search(r"\nCommands:\n(.*?)\n\n", helped.stdout, re.S)[1]
        same(known, re.findall(r"^  ([a-z]+)", commands, re.M), "the commands")
        told = "daide-gate: 'prove' takes no further word\n"
        same((clone.run("prove", "x"), clone.calls()), (("", told, 2), 0), "prove x, and calls of the compiler")


def newer_source_makes_the_program_anew(program):
    """A source that is changed or deleted makes it anew, also if it is changed meanwhile. Definitions and proofs decide
    of the proved program alone."""
    with Clone(program) as clone:
        clone.run("frame", "GOF")
        clone.has_proved()
        for part in ("specs", "proofs"):
            same(clone.version(), "proved at commit 0", f"the program before newer {part}")
            changed = clone.crate / part / "main.rt"
            changed.write_text("// changed", encoding="utf-8")
            same((clone.run("frame", "GOF"), clone.calls()), ((GOF, "", 0), 1), f"with newer {part}, and calls of the compiler")
            same(clone.version(), "not proved, compiled at commit unknown", f"the program with newer {part}")
            os.utime(changed, (time.time() - 60,) * 2)
        clone.source.write_text("// changed", encoding="utf-8")
        (clone.top / "wait").touch()
        with clone.begin("frame", "GOF") as process:
            clone.awaits(2)
            time.sleep(0.1)
            clone.source.write_text("// changed again", encoding="utf-8")
            (clone.top / "wait").unlink()
            told = process.communicate(timeout=SECONDS)[1]
        same(told.count("a source was changed meanwhile"), 1, "lines about a change")
        clone.run("frame", "GOF")
        clone.source.unlink()
        clone.run("frame", "GOF")
        same(clone.calls(), 4, "calls of the compiler")


def two_commands_make_one_program(program):
    """The second one waits for the first."""
    with Clone(program) as clone:
        (clone.top / "wait").touch()
        with clone.begin("frame", "GOF") as one:
            clone.awaits(1)
            with clone.begin("frame", "GOF") as other:
                same(other.stderr.readline(), "daide-gate: another call makes the program\n", "told by the second")
                (clone.top / "wait").unlink()
                printed = [process.communicate(timeout=SECONDS)[0] for process in (one, other)]
        same((printed, clone.calls()), ([GOF] * 2, 1), "printed by both, and calls of the compiler")


def stopped_making_leaves_nothing(program):
    """A signal while the program is made ends the command and leaves no program."""
    with Clone(program) as clone:
        (clone.top / "wait").touch()
        for calls, number in enumerate(SIGNALS, 1):
            with clone.begin("frame", "GOF") as process:
                clone.awaits(calls)
                process.send_signal(number)
                printed, told = process.communicate(timeout=SECONDS)
                same((printed, process.returncode), ("", 130), f"printed at {number.name}, and the status")
                same(told.splitlines()[-1], "daide-gate: stopped; no program was made", f"the last line at {number.name}")
            same(clone.kept(), [], f"kept after {number.name}")


def failed_making_leaves_nothing(program):
    """A fault of the compiler, no space, a clone that can't be written, and no toolchain leave no program."""
    with Clone(program) as clone:
        printed, told, status = clone.run("frame", "GOF", limit="-f 64")
        same((printed, status, told.count("no program was made"), clone.kept()), ("", 1, 1, []), "no space")
        (clone.top / "fail").touch()
        printed, told, status = clone.run("frame", "GOF")
        same((printed, status, "no such type" in told, clone.kept()), ("", 1, True, []), "a fault of the compiler")
        (clone.top / "fail").unlink()
        told = "daide-gate: no program is up to date, and the toolchain's 'rt' is not on the PATH\n"
        same((clone.run("frame", "GOF", tools="/nowhere"), clone.kept()), (("", told, 1), []), "no toolchain")
        shutil.rmtree(clone.bin)
        clone.bin.touch()
        told = f"daide-gate: no program is up to date, and {clone.bin} can't be written\n"
        same(clone.run("frame", "GOF"), ("", told, 1), "a clone that can't be written")
        clone.bin.unlink()
        same(clone.run("frame", "GOF")[0], GOF, "printed at last")


def version_says_whether_it_is_proved(program):
    """So do the second line of `--version`, without a compilation if there is a program, and the first of `--verbose`."""
    with Clone(program) as clone:
        clone.has_proved()
        same((clone.version(), clone.calls()), ("proved at commit 0", 0), "a proved program, and calls of the compiler")
        told = clone.run("run", "--verbose", "none.toml")[1].splitlines()
        wanted = ["proved at commit 0", "settings could not be read: none.toml: entity not found"]
        same(told, [f"daide-gate: {line}" for line in wanted], "told of a proved program")
        same(clone.run("run", "-v", "none.toml")[1].splitlines(), told, "told with -v")
        clone.source.write_text("// changed", encoding="utf-8")
        wanted = ("proved at commit 0, older than the sources", 0)
        same((clone.version(), clone.calls()), wanted, "an older proved program, and calls of the compiler")
        unproved = "not proved, compiled at commit unknown"
        same(clone.run("run", "--verbose", "none.toml")[1].splitlines()[2:3], [f"daide-gate: {unproved}"], "told of a kept one")
        same(clone.version(), unproved, "a kept program")
        clone.source.write_text("// changed again", encoding="utf-8")
        same((clone.version(), clone.calls()), (f"{unproved}, older than the sources", 1), "an older kept program")


def version_names_the_commit(program):
    """The commit of the sources from which the program was made, and whether there were changes."""
    with Clone(program) as clone:
        git = ["git", "-C", str(clone.top), "-c", "user.name=a", "-c", "user.email=a@b"]
        for words in (["init", "-q"], ["add", "crates", "crates.txt", "HANDLES"], ["commit", "-q", "-m", "a"]):
            subprocess.run([*git, *words], check=True, timeout=SECONDS)
        found = subprocess.run([*git, "rev-parse", "HEAD"], capture_output=True, text=True, check=True, timeout=SECONDS)
        compiled = f"not proved, compiled at commit {found.stdout[:12]}"
        same(clone.version(), compiled, "the program of a commit")
        clone.source.write_text("// changed", encoding="utf-8")
        clone.run("frame", "GOF")
        same(clone.version(), f"{compiled}, with changes", "the program of changed sources")


def prove_makes_the_proved_program(program):
    """`prove` calls `rt ci` once, and keeps nothing if that fails. Then each command runs what it made."""
    with Clone(program) as clone:
        prover = PROVER.replace("TOP", shlex.quote(str(clone.top))).replace("PROGRAM", shlex.quote(str(program)))
        clone.writes(clone.top / "tools" / "rt", prover)
        (clone.top / "fail").touch()
        printed, told, status = clone.run("prove")
        same((printed, status, "a goal is open" in told, clone.kept()), ("", 1, True, []), "a proof that fails")
        (clone.top / "fail").unlink()
        printed, told, status = clone.run("prove")
        last = "daide-gate: the program is proved and built"
        same((printed, told.splitlines()[-1], status), ("", last, 0), "a proof")
        same(clone.run("prove"), ("", f"{last}\n", 0), "prove again")
        same((clone.run("frame", "GOF"), clone.version()), ((GOF, "", 0), "proved at commit unknown"), "a command")
        same((clone.calls(), clone.kept()), (0, ["daide-gate", "daide-gate.kind"]), "calls of the compiler, and what is kept")


def run_without_control_replaces_the_script(program):
    """A signal ends it at once, as it ends the program."""
    with Clone(program) as clone:
        clone.has_proved()
        settings = pathlib.Path(clone.room.name) / "settings.toml"
        settings.write_text("listen = '127.0.0.1:0'\nserver = '127.0.0.1:1'\n", encoding="utf-8")
        with clone.begin("run", settings) as process:
            same(process.stdout.readline(), "listening\n", "printed by the run")
            process.send_signal(signal.SIGTERM)
            process.communicate(timeout=SECONDS)
        same(process.returncode, -signal.SIGTERM, "the status")


def run_that_cannot_begin_has_its_status(program):
    """The script that stays beside a run has the run's status, also that of a run that can't listen."""
    with Clone(program) as clone:
        clone.has_proved()
        settings = pathlib.Path(clone.room.name) / "settings.toml"
        settings.write_text("listen = '192.0.2.1:1'\nserver = '127.0.0.1:1'\ncontrol = 'c'\n", encoding="utf-8")
        same(clone.run("run", settings), ("", "daide-gate: cannot listen\n", 1), "a run that can't listen")


def signal_before_a_run_listens_ends_it(program):
    """Each signal ends a run that can't be reached yet, whether it goes to the script or to all its processes."""
    for number in SIGNALS:
        with Clone(program) as clone:
            clone.has_proved(DEAF)
            began = clone.bin / "daide-gate.began"
            with clone.begin("run", clone.top / "HANDLES") as process:
                wait_for(lambda: began.exists() and began.read_text(encoding="utf-8"), "the run")
                run = int(began.read_text(encoding="utf-8"))
                process.send_signal(number)
                process.communicate(timeout=SECONDS)
            same(process.returncode, 128 + signal.SIGKILL, f"the status at {number.name}")
            same(pathlib.Path(f"/proc/{run}").exists(), False, f"the run is there after {number.name}")


def signal_as_a_run_begins_ends_it(program):
    """The program sends each signal to the script before that knows the number of the program."""
    with Clone(program) as clone:
        clone.has_proved(EAGER)
        slow = compiled(clone.room.name, "slow_fork.c")
        for number in SIGNALS:
            words = ("run", clone.top / "HANDLES", number.name.removeprefix("SIG"))
            with clone.begin(*words, LD_PRELOAD=str(slow)) as process:
                process.communicate(timeout=SECONDS)
            run = int((clone.bin / "daide-gate.began").read_text(encoding="utf-8"))
            is_left = pathlib.Path(f"/proc/{run}").exists()
            if is_left:
                os.kill(run, signal.SIGKILL)
            same((process.returncode, is_left), (128 + signal.SIGKILL, False), f"the status at {number.name}, and what is left")


def fill(stream, frame):
    """Sends a frame again and again until the stream has taken no byte for half a second."""
    frames, sent = frame * 1000, 0
    stream.setblocking(False)
    last = time.monotonic()
    while time.monotonic() < last + 0.5:
        try:
            sent = (sent + stream.send(frames[sent:])) % len(frames)
            last = time.monotonic()
        except BlockingIOError:
            time.sleep(0.01)


def script_waits_for_a_bot_that_reads_nothing(program):
    """After a signal the other session gets an FM at once. The script waits until the stall timeout of this one is over,
    and both lines have the operator as the cause."""
    with contextlib.ExitStack() as ends:
        clone = ends.enter_context(Clone(program))
        clone.has_proved()
        server = ends.enter_context(socket.create_server((HOST, 0)))
        port = free_port()
        settings = pathlib.Path(clone.room.name) / "settings.toml"
        settings.write_text(SETTINGS.format(port, server.getsockname()[1], clone.room.name), encoding="utf-8")
        process = ends.enter_context(clone.begin("run", "--verbose", settings))
        ends.callback(process.kill)
        same(process.stdout.readline(), "listening\n", "printed by the run")
        pairs = []
        for _ in range(2):
            bot = ends.enter_context(socket.create_connection((HOST, port), SECONDS))
            other = ends.enter_context(server.accept()[0])
            bot.sendall(IM)
            same(other.recv(len(IM), socket.MSG_WAITALL), IM, "received by the server")
            other.sendall(RM)
            same(bot.recv(len(RM), socket.MSG_WAITALL), RM, "received by the bot")
            pairs.append((bot, other))
        fill(pairs[0][1], YES)
        begun = time.monotonic()
        process.send_signal(signal.SIGTERM)
        same(pairs[1][0].recv(len(FM) + 1), FM, "received by the other bot")
        if time.monotonic() - begun > WAITED:
            raise Wrong("the other bot waits for its FM")
        for stream in pairs[1]:
            stream.close()
        told = process.communicate(timeout=SECONDS)[1]
        same(process.returncode, 0, f"the status, told {told!r}")
        if time.monotonic() - begun < WAITED:
            raise Wrong(f"the run was over after {time.monotonic() - begun:.1f} s, so nothing was waited for")
        causes = re.findall(r"session (\d) ended after [\d.]+ s: ([^;]*);", told)
        same(causes, [("2", "stopped by the operator"), ("1", "stopped by the operator")], "the ends of the sessions")


TESTS = [
    program_is_compiled_once,
    wrong_words_are_refused_before_the_compiler,
    newer_source_makes_the_program_anew,
    two_commands_make_one_program,
    stopped_making_leaves_nothing,
    failed_making_leaves_nothing,
    version_says_whether_it_is_proved,
    version_names_the_commit,
    prove_makes_the_proved_program,
    run_without_control_replaces_the_script,
    run_that_cannot_begin_has_its_status,
    signal_before_a_run_listens_ends_it,
    signal_as_a_run_begins_ends_it,
    script_waits_for_a_bot_that_reads_nothing,
]
