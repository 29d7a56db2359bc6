"""The addresses of settings: what `settings --try` says of them, and what a run prints of a port that it got.

Nothing leaves the machine. The unknown name has a part of more than 63 letters, so that nobody is asked for it. The
expected lines come from docs/FORMATS.md.
"""

import errno
import os
import pathlib
import re
import selectors
import socket
import subprocess
import time

from held import NotPlayed, Wrong, same
from runs import NOBODY, SECONDS, Folder
from stage import HOST, free_port, full_listener, open_listener, silent_door

# A name that nobody knows.
UNKNOWN = f"{'n' * 64}.invalid"

# The time of a connect, in seconds, and the most that its end may be late on a busy machine.
CONNECT, LATE = 5, 5


def settings_of(listen, server, more=""):
    """Returns settings with these addresses."""
    return f"listen = '{listen}'\nserver = '{server}'\n{more}"


def same_trial(program, text, comments, faults):
    """Checks what `settings --try` adds to the output of `settings`, its lines on standard error, and its status."""
    with Folder(program, {"settings": text}) as folder:
        judged = folder.run(["settings", "settings"])
        same(judged[1:], (b"", 0), f"judged {text!r}")
        printed, told, status = folder.run(["settings", "--try", "settings"])
        wanted = judged[0].decode() + "".join(f"# {comment}\n" for comment in comments)
        same(printed.decode(), wanted, f"tried {text!r}")
        same(told.decode(), "".join(f"daide-gate: {fault}\n" for fault in faults), f"told of {text!r}")
        same(status, 1 if faults else 0, f"status of {text!r}")
        return printed


def address_of(listener):
    """Returns the address of a listener, as settings have it."""
    host, port = listener.getsockname()[:2]
    return f"[{host}]:{port}" if ":" in host else f"{host}:{port}"


def meets_one_that_says_nothing(server):
    """Checks that one connection came to this server, which ended without a byte."""
    stream, _ = server.accept()
    with stream:
        stream.settimeout(SECONDS)
        same(stream.recv(1), b"", "sent to the server")
    server.setblocking(False)
    try:
        server.accept()
    except BlockingIOError:
        return
    raise Wrong("the server met a second connection")


def good_addresses_pass(program):
    """Both addresses pass, and the output is settings again. The server meets one connection, and the port is free."""
    with open_listener() as server:
        listen, there = f"{HOST}:{free_port()}", address_of(server)
        comments = [f"listen: {listen} is free", f"server: reached at {there}"]
        printed = same_trial(program, settings_of(listen, there), comments, [])
        meets_one_that_says_nothing(server)
        with Folder(program) as folder:
            same(folder.run(["settings", "-"], printed)[1:], (b"", 0), "the output as settings")
        with socket.create_server((HOST, int(listen.rpartition(":")[2]))):
            pass


def trial_reads_standard_input(program):
    """With `-` the settings of standard input are tried."""
    with open_listener() as server, Folder(program) as folder:
        text = settings_of(f"{HOST}:0", address_of(server))
        printed, told, status = folder.run(["settings", "--try", "-"], text.encode())
        wanted = f"# listen: {HOST}:0 is free\n# server: reached at {address_of(server)}\n"
        same((told, status, printed.decode()[-len(wanted):]), (b"", 0, wanted), "tried standard input")


def nothing_is_tried_of_settings_with_a_fault(program):
    """Settings with a fault have the output of `settings` alone, and the server meets nobody."""
    with open_listener() as server, Folder(program) as folder:
        text = settings_of(f"{HOST}:0", address_of(server), "max_depth = 3\n").encode()
        tried, judged = (folder.run(["settings", *words, "-"], text) for words in (["--try"], []))
        same(tried, judged, "tried settings with a fault")
        server.setblocking(False)
        try:
            server.accept()
        except BlockingIOError:
            return
        raise Wrong("the server met a connection")


def failed_trials_have_their_reasons(program):
    """A taken port, an address of no machine, a server that is down, and names that nobody knows."""
    with open_listener() as taken, open_listener() as server, silent_door() as down:
        there = address_of(server)
        reached = f"server: reached at {there}"
        free = f"listen: {HOST}:0 is free"
        rows = (
            (address_of(taken), there, [reached], [f"listen {address_of(taken)}: address in use"]),
            ("192.0.2.1:1", there, [reached], ["listen 192.0.2.1:1: address not available"]),
            (f"{UNKNOWN}:1", there, [reached], [f"listen {UNKNOWN}:1: unknown name"]),
            (f"{HOST}:0", address_of(down), [free], [f"server {address_of(down)}: connection refused"]),
            (f"{HOST}:0", f"{UNKNOWN}:1", [free], [f"server {UNKNOWN}:1: unknown name"]),
            (
                address_of(taken), f"{UNKNOWN}:1", [],
                [f"listen {address_of(taken)}: address in use", f"server {UNKNOWN}:1: unknown name"],
            ),
        )
        for listen, server_at, comments, faults in rows:
            same_trial(program, settings_of(listen, server_at), comments, faults)


def silent_server_is_waited_for_five_seconds(program):
    """A server with a full queue does not answer. The trial ends by its deadline."""
    with full_listener() as server:
        there, begun = address_of(server), time.monotonic()
        fault = f"server {there}: no answer within 5 s"
        same_trial(program, settings_of(f"{HOST}:0", there), [f"listen: {HOST}:0 is free"], [fault])
        seconds = time.monotonic() - begun
        if not CONNECT <= seconds <= CONNECT + LATE:
            raise Wrong(f"the trial took {seconds:.1f} s")


def gateway_is_no_server_of_its_own(program):
    """The listener of the trial is closed before the server is tried, so an address can't pass as both."""
    here = f"{HOST}:{free_port()}"
    same_trial(program, settings_of(here, here), [f"listen: {here} is free"], [f"server {here}: connection refused"])


def ipv6_addresses_are_tried(program):
    """An IPv6 address of each."""
    try:
        server = socket.create_server(("::1", 0), family=socket.AF_INET6)
    except OSError as fault:
        raise NotPlayed(f"this machine has no ::1: {fault}") from None
    with server:
        there = address_of(server)
        comments = ["listen: [::1]:0 is free", f"server: reached at {there}"]
        same_trial(program, settings_of("[::1]:0", there), comments, [])
        meets_one_that_says_nothing(server)


def name_is_tried_at_its_address(program):
    """`localhost` passes at an address of its own, as a listener and as a server."""
    with open_listener() as server, Folder(program) as folder:
        port = server.getsockname()[1]
        text = settings_of("localhost:0", f"localhost:{port}")
        printed, told, status = folder.run(["settings", "--try", "-"], text.encode())
        same((told, status), (b"", 0), "told of localhost")
        wanted = rf"# listen: (127\.0\.0\.1|\[::1\]):0 is free\n# server: reached at 127\.0\.0\.1:{port}\n"
        if not re.search(wanted, printed.decode()):
            raise Wrong(f"tried localhost: saw {printed!r}, wanted {wanted!r}")


def user_without_permission_is_told(program):
    """A user who is not root can't listen at a privileged port."""
    first = pathlib.Path("/proc/sys/net/ipv4/ip_unprivileged_port_start")
    if not first.exists() or int(first.read_text(encoding="utf-8")) <= 1:
        raise NotPlayed("each user may listen at port 1 here")
    with open_listener() as server:
        there = address_of(server)
        done = subprocess.run(
            [str(program), "settings", "--try", "-"], input=settings_of(f"{HOST}:1", there), text=True,
            capture_output=True, check=False, timeout=SECONDS, cwd="/", **(NOBODY if os.geteuid() == 0 else {}),
        )
        told = (done.stdout.endswith(f"# server: reached at {there}\n"), done.stderr, done.returncode)
        same(told, (True, f"daide-gate: listen {HOST}:1: permission denied\n", 1), "tried without permission")


def control_path_is_tried(program):
    """A free path passes, and no file is left there. One without a folder, a file and a run's own path fail."""
    with open_listener() as server, Folder(program, {"file": "kept\n"}) as folder:
        there = address_of(server)
        reached = [f"# listen: {HOST}:0 is free", f"# server: reached at {there}"]
        rows = (
            ("control", [*reached, "# control: its path is free"], "", 0),
            ("none/control", reached, "daide-gate: control none/control: entity not found\n", 1),
            ("file", reached, "daide-gate: control file: address in use\n", 1),
        )
        for path, comments, fault, status in rows:
            text = settings_of(f"{HOST}:0", there, f"control = '{path}'\n")
            printed, told, ended = folder.run(["settings", "--try", "-"], text.encode())
            seen = printed.decode().splitlines()[-len(comments):], told.decode(), ended
            same(seen, (comments, fault, status), f"tried control = '{path}'")
        room = pathlib.Path(folder.room.name)
        same(sorted(path.name for path in room.iterdir()), ["file"], "files after the trials")
        same((room / "file").read_text(encoding="utf-8"), "kept\n", "the file")


def comment_that_is_not_taken_is_a_fault(program):
    """If the output takes nothing, the trial is a fault of the output. `/dev/full` takes nothing."""
    with open("/dev/full", "wb") as full:
        done = subprocess.run(
            [str(program), "settings", "--try", "-"], input=settings_of(f"{HOST}:0", f"{HOST}:1").encode(), stdout=full,
            stderr=subprocess.PIPE, check=False, timeout=SECONDS,
        )
        same((done.stderr, done.returncode), (b"daide-gate: output could not be written\n", 1), "tried into /dev/full")


class Begun:
    """A run that listens at this address, for one bot."""

    def __init__(self, program, listen, server, *words):
        self.folder = Folder(program, {"settings": settings_of(listen, address_of(server))})
        self.words = [str(program), "run", *words, "settings"]
        self.process = None

    def __enter__(self):
        self.folder.__enter__()
        self.process = subprocess.Popen(
            self.words, stdin=subprocess.DEVNULL, stdout=subprocess.PIPE, stderr=subprocess.PIPE, bufsize=0,
            cwd=self.folder.room.name,
        )
        return self

    def __exit__(self, *fault):
        self.process.kill()
        self.process.communicate()
        self.folder.__exit__()

    def line(self, stream):
        """Returns the next line of a stream."""
        line, until = b"", time.monotonic() + SECONDS
        with selectors.DefaultSelector() as selector:
            selector.register(stream, selectors.EVENT_READ)
            while not line.endswith(b"\n"):
                if not selector.select(max(until - time.monotonic(), 0)):
                    raise Wrong(f"no line within {SECONDS} s, after {line!r}")
                byte = stream.read(1)
                if not byte:
                    raise Wrong(f"the stream ended after {line!r}")
                line += byte
        return line.decode()


def chosen_port_is_printed(program, host, shown, family=socket.AF_INET):
    """Checks that a run with port 0 prints the address that it got, and that a bot is served there."""
    for words, more in (((), ""), (("--verbose",), r", server {}, 16 sessions, version [0-9.]+")):
        with open_listener() as server, Begun(program, f"{host}:0", server, *words) as run:
            first = run.line(run.process.stderr)
            wanted = rf"daide-gate: listening on {re.escape(shown)}:(\d+){more.format(re.escape(address_of(server)))}\n"
            found = re.fullmatch(wanted, first)
            if not found:
                raise Wrong(f"saw {first!r}, wanted {wanted!r}")
            same(run.line(run.process.stdout), "listening\n", "printed")
            with socket.socket(family) as bot:
                bot.connect((shown.strip("[]"), int(found[1])))
            server.settimeout(SECONDS)
            server.accept()[0].close()
            printed, told = run.process.communicate(timeout=SECONDS)
            same((printed, run.process.returncode), (b"", 0), "printed later, and the status")
            same("listening" in told.decode(), False, "a second line")


def port_that_the_system_chose_is_printed(program):
    """Port 0 of an IPv4 address, and of a name."""
    chosen_port_is_printed(program, HOST, HOST)
    try:
        with socket.create_server(("::1", 0), family=socket.AF_INET6):
            pass
    except OSError:
        chosen_port_is_printed(program, "localhost", HOST)


def ipv6_port_that_the_system_chose_is_printed(program):
    """Port 0 of an IPv6 address."""
    try:
        with socket.create_server(("::1", 0), family=socket.AF_INET6):
            pass
    except OSError as fault:
        raise NotPlayed(f"this machine has no ::1: {fault}") from None
    chosen_port_is_printed(program, "[::1]", "[::1]", socket.AF_INET6)


def run_listens_at_its_address_alone(program):
    """A bot is refused at another address of the machine, at the same port."""
    port = free_port()
    with open_listener() as server, Begun(program, f"{HOST}:{port}", server) as run, socket.socket() as bot:
        same(run.line(run.process.stdout), "listening\n", "printed")
        same(bot.connect_ex(("127.0.0.2", port)), errno.ECONNREFUSED, "a connect to 127.0.0.2")


def unknown_name_begins_no_run(program):
    """The key and the name are in one line, whatever the words, and nothing is printed. Both are looked up before the
    program listens."""
    with open_listener() as taken:
        rows = (
            (f"{UNKNOWN}:1", f"{HOST}:1", "listen"), (f"{HOST}:0", f"{UNKNOWN}:2", "server"),
            (f"{UNKNOWN}:1", f"{UNKNOWN}:2", "listen"), (address_of(taken), f"{UNKNOWN}:2", "server"),
        )
        for listen, server, key in rows:
            with Folder(program, {"settings": settings_of(listen, server, "control = 'control'\n")}) as folder:
                wanted = f"daide-gate: {key} {listen if key == 'listen' else server}: unknown name\n".encode()
                for words in ((), ("--verbose",), ("--record", "records")):
                    ran = folder.run(["run", *words, "settings"])
                    same(ran, (b"", wanted, 1), f"run {words} with {listen} and {server}")


TESTS = [
    good_addresses_pass,
    trial_reads_standard_input,
    nothing_is_tried_of_settings_with_a_fault,
    failed_trials_have_their_reasons,
    silent_server_is_waited_for_five_seconds,
    gateway_is_no_server_of_its_own,
    ipv6_addresses_are_tried,
    name_is_tried_at_its_address,
    user_without_permission_is_told,
    control_path_is_tried,
    comment_that_is_not_taken_is_a_fault,
    port_that_the_system_chose_is_printed,
    ipv6_port_that_the_system_chose_is_printed,
    run_listens_at_its_address_alone,
    unknown_name_begins_no_run,
]
