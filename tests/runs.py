"""Runs of the command line, in rows: the arguments, the input, both outputs, and the status.

The rows are in files below `rows`. The first lines of each file describe its rows. The expected results come from
docs/FORMATS.md and docs/PROTOCOL.md, never from output of the program.
"""

import os
import pathlib
import shlex
import socket
import subprocess
import tempfile

from held import Wrong, same

TOP = pathlib.Path(__file__).resolve().parent.parent
ROWS = TOP / "tests" / "rows"

# The time limit of one run, in seconds.
SECONDS = 30

# A user who is not root.
NOBODY = {"user": 65534, "group": 65534, "extra_groups": ()}

# Settings with XYZ, a press of a power from level 20 on.
WITH_WORDS = """\
listen = "127.0.0.1:16713"
server = "127.0.0.1:16714"
words = [ { name = "XYZ", code = 0x4A40, slot = "press", level = 20, operand = "power" } ]
"""

# A log of one session whose bot gets PRN, a log without faults, and a log that ends within a frame.
PRN_LOG = """\
daide-log 1
config 60 1024 16
bot 000000040001DA10
server 01000000
bot 0200000448034000
server 03000000
"""
CLEAN_LOG = PRN_LOG.replace("bot 0200000448034000\n", "bot 020000024803\n")
UNFINISHED_LOG = """\
daide-log 1
config 60 1024 16
bot 000000040001DA10
server 01000000
bot 0200000448
"""

# The files that rows name. They are in the folder of the run.
FILES = {
    "prn.log": PRN_LOG,
    "clean.log": CLEAN_LOG,
    "unfinished.log": UNFINISHED_LOG,
    "bad.log": "daide-log 3\n",

    "settings-with-words": WITH_WORDS,
    "settings-without-server": 'listen = "a:1"',
    "settings-without-port": "listen = '127.0.0.1'\nserver = '127.0.0.1:1'\n",
    "settings-elsewhere": "listen = '192.0.2.1:1'\nserver = '127.0.0.1:1'\n",
    "settings-with-a-scheme": "listen = 'a:1'\nserver = 'tcp://127.0.0.1:1'\n",
    "settings-with-a-typo": "sesions = 1",
}

# The keys of settings, and a value of a type that none of them has.
KEYS = (
    "listen", "server", "top_level", "max_body", "max_depth", "im_seconds", "max_sessions", "sessions", "turns",
    "idle_seconds", "words", "stall_seconds", "endless", "allow", "max_per_address", "max_refused", "control",
)
DATE = "1979-05-27T07:32:00Z"


class Folder:
    """A folder with these files, in which the program runs."""

    def __init__(self, program, files=None):
        self.program, self.files = program, files or {}
        self.room = tempfile.TemporaryDirectory()

    def __enter__(self):
        for name, text in self.files.items():
            (pathlib.Path(self.room.name) / name).write_text(text, encoding="utf-8")
        return self

    def __exit__(self, *fault):
        self.room.cleanup()

    def run(self, words, given=b"", limit=None, **how):
        """Runs with these arguments and this input, and a limit as `ulimit` takes it. Returns both outputs as bytes,
        and the status. Further arguments are those of `subprocess.run`."""
        limited = ["sh", "-c", f'ulimit {limit} && exec "$@"', "sh"] if limit else []
        done = subprocess.run(
            [*limited, str(self.program), *words], input=given, capture_output=True, timeout=SECONDS, check=False,
            cwd=self.room.name, **how,
        )
        return done.stdout, done.stderr, done.returncode


def rows_of(name):
    """Returns the rows of a file, with their tabs and carriage returns, without the lines that describe them."""
    lines = (ROWS / f"{name}.txt").read_text(encoding="utf-8").splitlines()
    return [line.replace("\\t", "\t").replace("\\r", "\r") for line in lines if not line.startswith("#")]


def error_text(field):
    """Returns the lines on standard error, each after the program's name except for a tip."""
    lines = field.split("/") if field else []
    return "".join(f"  {line}\n" if line.startswith("tip: ") else f"daide-gate: {line}\n" for line in lines)


def check_ran(ran, wanted, row):
    """Checks the output, with `/` for each line feed, the lines on standard error, and the status of a row."""
    printed, told, status = ran
    output, fault, number = (field.strip() for field in wanted)
    same(printed.replace(b"\n", b"/").decode(), output, f"printed by '{row}'")
    same(told.decode(), error_text(fault), f"told by '{row}'")
    same(str(status), number, f"status of '{row}'")


def check_rows(program, name, has_lines=False):
    """Checks each row of this file. With `has_lines`, `/` is a line feed in the input too."""
    with Folder(program, FILES) as folder:
        (pathlib.Path(folder.room.name) / "a-folder").mkdir()
        for row in rows_of(name):
            words, given, *wanted = row.split("|")
            if has_lines:
                given = given.strip(" ").replace("/", "\n")
            check_ran(folder.run(words.split(), given.encode()), wanted, row)


def shown_frames(program):
    """The output for one frame, and each fault of the input and of the arguments."""
    check_rows(program, "shown")


def shown_with_the_words_of_settings(program):
    """`show` with the words of a settings file."""
    check_rows(program, "words")


def settings_are_judged(program):
    """Each fault with its line, and the values and needs of settings without a fault."""
    check_rows(program, "settings", has_lines=True)


def values_of_settings_are_settings(program):
    """What `settings` prints for settings without a fault is settings with the same values."""
    with Folder(program, FILES) as folder:
        printed, told, status = folder.run(["settings", "settings-with-words"])
        same((told, status), (b"", 0), "told of settings with words")
        again, told, status = folder.run(["settings", "-"], printed)
        same((again, told, status), (printed.replace(b" # default", b""), b"", 0), "the values as settings")


def text_that_is_no_document_has_a_line(program):
    """The line of a text that is no TOML document, and a reason in the words of its reader."""
    with Folder(program, FILES) as folder:
        for text, line in ((b"listen = ", 1), (b"listen = 'a'\nserver =\n", 2), (b"\n\nlisten = 'a' 'b'\n", 3)):
            printed, told, status = folder.run(["settings", "-"], text)
            front = f"line {line}: settings are not TOML: ".encode()
            same((printed[:len(front)], told, status), (front, b"", 1), f"judged {text!r}")
            same(printed.count(b"\n"), 1, f"lines for {text!r}")


def each_key_is_named_with_its_value(program):
    """For each key in turn, a value of a type that no key has: the line, the key, and the value as it is written."""
    with Folder(program) as folder:
        for key in KEYS:
            given = {"listen": "'a:1'", "server": "'b:2'", key: DATE}
            text = "".join(f"{name} = {value}\n" for name, value in given.items())
            printed, told, status = folder.run(["settings", "-"], text.encode())
            front = f"line {list(given).index(key) + 1}: {key} = {DATE} is of the wrong type; it must be "
            seen = printed.decode()[:len(front)], printed.count(b"\n"), told, status
            same(seen, (front, 1, b"", 1), f"judged {text!r}")


def run_that_cannot_begin_has_status_1(program):
    """Invalid settings, folders of records and addresses each have their text."""
    check_rows(program, "unbegun")


def longest_settings_are_read(program):
    """A file of 65,536 bytes is read; one more is too many."""
    text = FILES["settings-elsewhere"]
    with Folder(program, {"fits": text.ljust(65_536, "\n"), "long": text.ljust(65_537, "\n")}) as folder:
        check_ran(folder.run(["run", "fits"]), ("", "cannot listen", "1"), "settings of 65,536 bytes")
        wanted = ("", "settings could not be read: long: file too large", "1")
        for command in ("run", "settings", "status", "stop"):
            check_ran(folder.run([command, "long"]), wanted, f"{command} with settings of 65,537 bytes")


def settings_that_may_not_be_read_are_told(program):
    """The user may not open the file of settings."""
    with Folder(program, FILES) as folder:
        room = pathlib.Path(folder.room.name)
        room.chmod(0o755)
        (room / "settings-elsewhere").chmod(0)
        wanted = ("", "settings could not be read: settings-elsewhere: permission denied", "1")
        for command in ("run", "settings", "status", "stop"):
            ran = folder.run([command, "settings-elsewhere"], **(NOBODY if os.geteuid() == 0 else {}))
            check_ran(ran, wanted, f"{command} with settings of another user")


def file_of_the_folders_test_is_left_as_it_is(program):
    """A run that can't test the folder of its records, since the file of that test is there, leaves the file there."""
    files = {"settings": FILES["settings-elsewhere"], "session-000000.log": "somebody's"}
    with Folder(program, files) as folder:
        ran = folder.run(["run", "--record", ".", "settings"])
        check_ran(ran, ("", "record could not be written", "1"), "run --record . settings")
        there = {path.name: path.read_text(encoding="utf-8") for path in pathlib.Path(folder.room.name).glob("*.log")}
        same(there, {"session-000000.log": "somebody's"}, "files of records")


def checked_logs(program):
    """Reports of logs from standard input and from files."""
    check_rows(program, "checked", has_lines=True)


def framed_messages(program):
    """The frames of messages from standard input and from arguments."""
    check_rows(program, "framed", has_lines=True)


def typed_input_is_not_waited_for(program):
    """With the input in arguments or in a file, standard input is not read; it stays open and silent."""
    runs = (("show 02000002480F", 0), ("show GOF", 1), ("frame GOF", 0), ("frame zzz", 1), ("check clean.log", 0),
            ("check no-such-file", 1), ("run no-such-file", 1), ("show --help", 0), ("chek", 2))
    with Folder(program, FILES) as folder:
        for words, status in runs:
            with subprocess.Popen([str(program), *words.split()], stdin=subprocess.PIPE, stdout=subprocess.DEVNULL,
                                  stderr=subprocess.DEVNULL, cwd=folder.room.name) as child:
                same(child.wait(SECONDS), status, f"status of '{words}'")


def words_of_a_frame_are_joined(program):
    """The arguments of a frame are joined with single spaces, even empty ones and ones with blanks."""
    with Folder(program) as folder:
        runs = ((["show", "0200", "0002", "480F"], "DM 2/OBS/relay/", "", 0),
                (["show", "02 00\t00\n02", "", "480F"], "DM 2/OBS/relay/", "", 0),
                (["show", ""], "", "input is not one frame/tip: 'show --explain' says why", 1),
                (["show", "--", "02000002480F"], "DM 2/OBS/relay/", "", 0),
                (["frame", "NME ('a')", "('b')"], "02 00 00 0E 48 0C 40 00 4B 61 40 01 40 00 4B 62 40 01/", "", 0),
                (["frame", "NME ('a", "b') ('')"], "02 00 00 10 48 0C 40 00 4B 61 4B 20 4B 62 40 01 40 00 40 01/", "", 0),
                (["frame", "GOF", "NME ('a", "OBS"], "", "line 1: not a message: 10/column 10: the quote is not closed", 1),
                (["frame", ""], "02 00 00 00/", "", 0))
        for words, printed, told, status in runs:
            check_ran(folder.run(words), (printed, told, str(status)), str(words))


def each_usage_is_a_row(program):
    """A help text or a usage is on one stream, and the other is empty."""
    with Folder(program) as folder:
        for row in rows_of("usages"):
            words, part, wanted = row.split("|")
            printed, told, status = folder.run(words.split())
            used, other = (told, printed) if status == 2 else (printed, told)
            same(str(status), wanted.strip(), f"status of '{row}'")
            same(other, b"", f"in the other stream by '{row}'")
            if part.strip() not in used.decode():
                raise Wrong(f"'{row}': saw {used.decode()!r}, wanted that part in it")


def examples_of_the_help_work(program):
    """The help of each command has two examples, which work as they are at the top of a clone."""
    for command, statuses in (("show", [3, 0]), ("check", [3, 3]), ("transcript", [0, 0]), ("frame", [0, 0])):
        text = subprocess.run([str(program), command, "--help"], capture_output=True, check=True).stdout.decode()
        lines = [line.strip() for line in text.partition("Examples:\n")[2].splitlines()]
        same(len(lines), 2, f"examples of {command}")
        for line, status in zip(lines, statuses):
            typed = line.replace("daide-gate ", f"{shlex.quote(str(program))} ")
            done = subprocess.run(typed, shell=True, capture_output=True, timeout=SECONDS, check=False, cwd=TOP)
            same((done.returncode, done.stderr), (status, b""), f"the status of '{line}', and standard error")


def digit_that_is_too_much_has_its_column(program):
    """Checks the column of the first digit after the 2,048 that a line may have."""
    log = b"daide-log 1\nconfig 60 1024 16\nbot " + b"00" * 1_025 + b"\n"
    with Folder(program) as folder:
        wanted = ("", "line 3 is not a log line/column 2053: a line has 2 to 2048 digits", "1")
        check_ran(folder.run(["check"], log), wanted, "check of 2,050 digits")


# A frame of the longest body: `GOF`, repeated.
LONGEST = b"0200FFF6" + b"4803" * 32_763


def check_longest(folder, digits):
    """Checks that the longest frame is shown whatever blanks follow it, and is not a message."""
    printed, told, status = folder.run([], digits)
    wanted = "DM 65526\n" + "GOF " * 32_762 + "GOF\nHUH at 1\nHUH ( GOF ERR" + " GOF" * 32_762 + " )\n"
    same(printed.decode(), wanted, f"printed of {len(digits)} bytes")
    same((told, status), (b"", 3), f"told of {len(digits)} bytes, and the status")


def longest_frame_is_shown(program):
    """A frame of the longest body is shown completely."""
    with Folder(program) as folder:
        check_longest(folder, LONGEST)


def longest_input_is_read(program):
    """200,000 bytes are read; one more is too many."""
    with Folder(program) as folder:
        digits = LONGEST.ljust(200_000)
        check_longest(folder, digits)
        check_ran(folder.run([], digits + b" "), ("", "input is too long", "1"), "200,001 bytes")


def most_lines_are_framed(program):
    """The messages of 1,000,000 lines are framed; a further line is one too many."""
    with Folder(program) as folder:
        printed, told, status = folder.run(["frame"], b"\n" * 1_000_001)
        same(printed, b"02 00 00 00\n" * 1_000_000, "printed of 1,000,001 lines")
        same((told, status), (b"daide-gate: too many lines\n", 1), "told of them, and the status")


def one_bracket_too_deep_gets_huh(program):
    """254 brackets may be open, and no more."""
    with Folder(program) as folder:
        for depth, length, verdict in ((254, "03FA", "relay\n"), (255, "03FE", "HUH at 255\n")):
            digits = f"0200{length}4806" + "4000" * depth + "4001" * depth
            printed, _, _ = folder.run([], digits.encode())
            if verdict not in printed.decode():
                raise Wrong(f"{depth} brackets: saw {printed.decode()!r}, wanted {verdict!r} in it")


def cannot_listen(program, address, cause="", limit=None):
    """Checks that the program can't listen at this address, and prints nothing. With `--verbose` it says why, if the
    cause is given."""
    settings = f"listen = '{address}'\nserver = '127.0.0.1:1'\n"
    with Folder(program, {"settings": settings}) as folder:
        ran = folder.run(["run", "settings"], limit=limit)
        check_ran(ran, ("", "cannot listen", "1"), f"listen = '{address}'")
        if cause:
            ran = folder.run(["run", "--verbose", "settings"], limit=limit)
            check_ran(ran, ("", f"cannot listen/listen {address}: {cause}", "1"), f"listen = '{address}', --verbose")


def address_that_is_taken_cannot_be_listened_on(program):
    """The port is in use."""
    with socket.create_server(("127.0.0.1", 0)) as taken:
        cannot_listen(program, f"127.0.0.1:{taken.getsockname()[1]}", "address in use")


def address_of_no_machine_cannot_be_listened_on(program):
    """The program can't listen at an address that is for documents alone."""
    cannot_listen(program, "192.0.2.1:1", "address not available")


def path_of_the_control_socket_is_named(program):
    """There is no folder for the control socket, and `--verbose` names its path."""
    settings = "listen = '127.0.0.1:0'\nserver = '127.0.0.1:1'\ncontrol = 'no-such-folder/socket'\n"
    with Folder(program, {"settings": settings}) as folder:
        printed, told, status = folder.run(["run", "--verbose", "settings"])
        wanted = "daide-gate: cannot listen\ndaide-gate: control no-such-folder/socket: entity not found\n"
        same((printed, told.decode(), status), (b"", wanted, 1), "a control socket without a folder")


def without_a_descriptor_for_its_table_it_cannot_listen(program):
    """One descriptor beside the three streams is enough to listen, but not for the table of the sockets."""
    cannot_listen(program, "127.0.0.1:0", limit="-n 4")


TESTS = [
    shown_frames,
    checked_logs,
    digit_that_is_too_much_has_its_column,
    framed_messages,
    typed_input_is_not_waited_for,
    words_of_a_frame_are_joined,
    each_usage_is_a_row,
    examples_of_the_help_work,
    longest_frame_is_shown,
    longest_input_is_read,
    most_lines_are_framed,
    one_bracket_too_deep_gets_huh,
    shown_with_the_words_of_settings,
    settings_are_judged,
    each_key_is_named_with_its_value,
    values_of_settings_are_settings,
    text_that_is_no_document_has_a_line,
    run_that_cannot_begin_has_status_1,
    longest_settings_are_read,
    settings_that_may_not_be_read_are_told,
    file_of_the_folders_test_is_left_as_it_is,
    address_that_is_taken_cannot_be_listened_on,
    address_of_no_machine_cannot_be_listened_on,
    path_of_the_control_socket_is_named,
    without_a_descriptor_for_its_table_it_cannot_listen,
]
