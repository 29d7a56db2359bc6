"""The control socket of a run at its limits: other users, hung bots, suspended runs, and many sessions.

The expected texts are worked out from docs/FORMATS.md and docs/OPERATING.md. Each wait is bounded.
"""

import json
import os
import re
import resource
import select
import signal
import socket
import subprocess
import time

from acts import fill_queue, leave_descriptors
from addresses import settings_of
from control import SECONDS, STOPPING, Match, address, fills, received, rest, settled, speaks
from frames import FM, IM
from held import NotPlayed, Wrong, same, same_but_counts
from runs import NOBODY
from stage import BEGINNING, HOST, free_port

# Sessions whose status is longer than 65,536 bytes.
MANY = 150

# The time for which `status` waits for an answer, in seconds.
SILENCE = 5


def socket_of_another_user_is_not_replaced(program):
    """A run of another user can't connect to the socket of a run, and doesn't take its path, although its folder is open
    to all."""
    if os.geteuid() != 0:
        raise NotPlayed("this needs to be root")
    with Match(program, "sessions = 4") as match:
        match.room.chmod(0o777)
        other = match.room / "other.toml"
        text = settings_of(f"{HOST}:{free_port()}", f"{HOST}:1", f"control = '{match.control}'\n")
        other.write_text(text, encoding="utf-8")
        other.chmod(0o644)
        done = subprocess.run([*match.program, "run", "--verbose", str(other)], capture_output=True, text=True, check=False,
                              timeout=SECONDS, **NOBODY)
        told = f"daide-gate: cannot listen\ndaide-gate: control {match.control}: address in use\n"
        same((done.stdout, done.stderr, done.returncode), ("", told, 1), "a run of another user")
        same(json.loads(match.status("json"))["open"], 0, "sessions of the first run")


def endless_run_removes_its_socket(program):
    """A run that is stopped leaves no file of its control socket."""
    with Match(program, "endless = true") as match:
        same(match.asks(b"stop\n"), STOPPING, "answer to the stop")
        same((match.ended(), os.path.exists(match.control)), ((0, ""), False), "the run, and whether the socket is there")


def seconds_of(text):
    """Returns the seconds of a status as JSON: since the run began, and since each side of its session sent a byte."""
    found = json.loads(text)
    return [found["seconds"], *found["sessions"][0]["idle_seconds"].values()]


def status_counts_seconds(program):
    """The seconds since the run began, and those of silence, in each form. The table has none of the server's silence."""
    with Match(program, "endless = true") as match:
        match.opens()
        first = seconds_of(settled(match, "json", lambda text: min(seconds_of(text)) >= 1))
        head, *_, row = match.status().splitlines()
        table = [int(head.split()[-2]), int(row.split()[-2]), first[2]]
        metrics = [int(line.split()[-1]) for line in match.status("prometheus").splitlines()
                   if line.startswith(("daide_gate_up_seconds", "daide_gate_session_idle_seconds"))]
        last = seconds_of(match.status("json"))
        if not all(one <= two <= three <= four for one, two, three, four in zip(first, table, metrics, last, strict=True)):
            raise Wrong(f"the seconds are {first}, then {table}, {metrics} and {last}")


def status_beside_a_hung_bot_after_stop_now(program):
    """A bot that reads nothing has its place after its session is over, and the run answers meanwhile."""
    with Match(program, "endless = true\nstall_seconds = 0") as match:
        bot, server = match.opens()
        fills(server)
        settled(match, "json", lambda text: json.loads(text)["sessions"][0]["queued"]["bot"])
        with match.client() as client:
            client.sendall(b"stop now\n")
            found = json.loads(settled(match, "json", lambda text: '"phase":"over"' in text))
            same((found["open"], found["stopping"]), (1, True), "the run")
            same([row["bot"] for row in found["sessions"]], [address(bot)], "its sessions")
            bot.close()
            server.close()
            same(rest(client), STOPPING, "answer to the stop")
        same(match.ended(), (0, ""), "the run")


# The rest of the line of a session that was stopped, with the counts of what both sides relayed.
STOPPED = "stopped by the operator; bot {} relayed 0 prn 0 huh; server {} relayed 0 prn 0 huh; 0 faults; level 0\n"


def stop_now_beside_a_connect_blames_no_server(program):
    """A bot whose connect is pending receives the end alone, since no session began for its frames. Its line says that the
    operator stopped it, and it counts so; no line and no count is of a server that is away. Another session, whose bot
    reads nothing, holds the run."""
    with Match(program, "endless = true\nstall_seconds = 0", ["--verbose"]) as match:
        hung, server = match.opens()
        fills(server)
        settled(match, "json", lambda text: json.loads(text)["sessions"][0]["queued"]["bot"])
        match.listener.listen(0)
        fill_queue(match.listener)
        bot = match.connects()
        settled(match, "table", lambda text: text.startswith("1 open, 1 connecting, "))
        with match.client() as client:
            client.sendall(b"stop now\n")
            same(rest(bot), b"", "received by the bot")
            found = settled(match, "table", lambda text: ", 0 connecting, " in text and " over " in text)
            head = [re.sub(r"(up|for) \d+ s", r"\1", line) for line in found.splitlines()[:3]]
            same(head, ["1 open, 0 connecting, 1 served, 0 unreached, up; stopping", "server up for, 0 unreached since",
                        "ended: 0 declined, 0 dropped, 1 stopped by the operator"], "the first lines")
            bots = [address(stream) for stream in (hung, bot)]
            hung.close()
            server.close()
            same(rest(client), STOPPING, "answer to the stop")
        status, told = match.ended()
        beginning = BEGINNING.format(match.port, address(match.listener))
    lines = [
        f"daide-gate: session 1 began: bot at {bots[0]}\n",
        f"daide-gate: session 1 reached the server from {HOST}:*\n",
        f"daide-gate: session 2 began: bot at {bots[1]}\n",
        f"daide-gate: session 2 ended after *.* s: {STOPPED.format(0, 0)}",
        f"daide-gate: session 1 ended after *.* s: {STOPPED.format(1, '*')}",
    ]
    same(status, 0, "status of the run")
    same_but_counts(told, beginning + "".join(lines), "told")


def nobody_is_joined(match):
    """Checks that no further bot is joined to the server within a quarter of a second."""
    if select.select([match.listener], [], [], 0.25)[0]:
        raise Wrong("a bot is joined without a descriptor for a client of the control socket")


def operator_is_served_without_descriptors(program):
    """Three bots have sessions, and one or two descriptors are left, so three more bots wait. A client of the control
    socket gets one: each form of the status comes, and once a session is over, the next bot is joined. A `stop` that waits
    keeps no `stop --now` out."""
    for count in (7, 8):
        with Match(program, "max_sessions = 16\nendless = true", ["--verbose"]) as match:
            leave_descriptors(match.process.pid, count)
            ends = [match.opens() for _ in range(3)]
            waiting = [match.connects() for _ in range(3)]
            nobody_is_joined(match)
            same(match.status().split(", up ")[0], "3 open, 0 connecting, 0 served, 0 unreached", "the table")
            same([row["session"] for row in json.loads(match.status("json"))["sessions"]], [1, 2, 3], "the document")
            same("\ndaide_gate_sessions 3\n" in match.status("prometheus"), True, "the metrics")
            bot, server = ends.pop(0)
            bot.sendall(FM)
            same((rest(bot), rest(server)), (b"", FM), "received by both sides")
            bot.close()
            server.close()
            server, _ = match.listener.accept()
            match.servers.append(server)
            bot = waiting.pop(0)
            bot.sendall(IM)
            same(received(server, len(IM)), IM, "received by the server")
            nobody_is_joined(match)
            with match.client() as first:
                first.sendall(b"stop\n")
                settled(match, "table", lambda text: "; stopping\n" in text)
                same(match.command("stop", "--now", str(match.settings))[:3], ("", "", 0), "the stop of all sessions")
                same(rest(first), STOPPING, "answer to the first stop")
            for ends_of_one in (*ends, (bot, server)):
                same(tuple(map(rest, ends_of_one)), (FM, FM), "received by both sides")
            status, told = match.ended()
            same(told.count("daide-gate: bots wait: the system has no descriptor"), 2, "lines of bots that wait")
            same((status, told.count(" began: "), told.count("stopped by the operator")), (0, 4, 3), "the run, and its lines")


def suspended_run_is_waited_for_five_seconds(program):
    """A run that is stopped by a signal answers nothing. A status and a stop are given up after five seconds, and a stop
    after its timeout, if that is shorter. Once the run goes on, it does not stop: the clients of the stops are gone."""
    with Match(program, "endless = true") as match:
        bot, server = match.opens()
        match.process.send_signal(signal.SIGSTOP)
        wanted = ("", f"daide-gate: {match.control}: no answer\n", 1)
        for words, least, most in ((["status"], SILENCE, SECONDS), (["stop", "--now"], SILENCE, SECONDS),
                                   (["stop", "--session", "1"], SILENCE, SECONDS), (["stop", "--timeout", "1"], 1, SILENCE)):
            *found, seconds = match.command(*words, str(match.settings))
            same(tuple(found), wanted, f"{words}")
            if not least <= seconds < most:
                raise Wrong(f"{words} took {seconds:.1f} s")
        match.process.send_signal(signal.SIGCONT)
        speaks(bot, server)
        same(json.loads(match.status("json"))["stopping"], False, "whether the run stops")


def fifth_stop_is_told_that_many_wait(program):
    """Four clients wait for the end of the run. A status is served beside them, and a fifth stop of a session is told so, and
    not carried out. A fifth `stop` is told so. `stop now` is carried out, and waits beside them."""
    with Match(program, "endless = true") as match:
        bot, server = match.opens()
        waiting = [match.client() for _ in range(4)]
        for client in waiting:
            client.sendall(b"stop\n")
            same(received(client, len(STOPPING)), STOPPING, "answer to a stop")
        same(json.loads(match.status("json"))["stopping"], True, "whether the run stops")
        same(match.asks(b"stop session 1\n"), b"too many wait\n", "answer to the stop of a session")
        told = f"daide-gate: {match.control}: too many wait for an end: session 1 is not stopped\n"
        same(match.command("stop", "--session", "1", str(match.settings))[:3], ("", told, 1), "the stop of a session")
        speaks(bot, server)
        told = f"daide-gate: {match.control}: too many wait for the end: the run stops, but its end is not awaited\n"
        same(match.command("stop", str(match.settings))[:3], ("", told, 1), "a fifth stop of the run")
        waiting.append(match.client())
        waiting[-1].sendall(b"stop now\n")
        same(received(waiting[-1], len(STOPPING)), STOPPING, "answer to the stop of all sessions")
        same((rest(bot), rest(server)), (FM, FM), "received by both sides")
        bot.close()
        server.close()
        for client in waiting:
            same(rest(client), b"", "rest of the answer")
            client.close()
        same(match.ended()[0], 0, "status of the run")


def stop_of_a_client_that_left_is_ignored(program):
    """A client that closed, or shut down writing, before the run read its request: each stop is ignored."""
    with Match(program, "endless = true") as match:
        bot, server = match.opens()
        match.process.send_signal(signal.SIGSTOP)
        clients = []
        for line, is_closed in ((b"stop now\n", True), (b"stop session 1\n", False)):
            client = match.client()
            client.sendall(line)
            client.close() if is_closed else client.shutdown(socket.SHUT_WR)
            clients.append(client)
        match.process.send_signal(signal.SIGCONT)
        speaks(bot, server)
        same(json.loads(match.status("json"))["stopping"], False, "whether the run stops")
        clients[1].close()


def fills_queue(match):
    """Connects to a control socket until its queue is full. Returns the connections."""
    resource.setrlimit(resource.RLIMIT_NOFILE, (resource.getrlimit(resource.RLIMIT_NOFILE)[1],) * 2)
    clients = []
    while True:
        client = socket.socket(socket.AF_UNIX)
        clients.append(client)
        client.setblocking(False)
        try:
            client.connect(match.control)
        except BlockingIOError:
            return clients


def full_queue_is_waited_for_five_seconds(program):
    """A suspended run accepts no connection, so the queue of its control socket fills. A status and a stop are given up
    after five seconds, and a stop after its timeout, if that is shorter."""
    with Match(program, "endless = true") as match:
        match.process.send_signal(signal.SIGSTOP)
        clients = fills_queue(match)
        wanted = ("", f"daide-gate: {match.control}: the run accepts no connection\n", 1)
        for words, least, most in ((["status"], SILENCE, SECONDS), (["stop"], SILENCE, SECONDS), (["stop", "--timeout", "1"], 1, SILENCE)):
            *found, seconds = match.command(*words, str(match.settings))
            same(tuple(found), wanted, f"{words}")
            if not least <= seconds < most:
                raise Wrong(f"{words} took {seconds:.1f} s")
        for client in clients:
            client.close()


def queue_with_room_again_is_used(program):
    """A status that waits for a place in the queue is printed once the run goes on."""
    with Match(program, "endless = true") as match:
        match.process.send_signal(signal.SIGSTOP)
        clients = fills_queue(match)
        asking = subprocess.Popen([*match.program, "status", str(match.settings)], stdout=subprocess.PIPE,
                                  stderr=subprocess.PIPE, text=True)
        for client in clients:
            client.close()
        time.sleep(1)
        match.process.send_signal(signal.SIGCONT)
        printed, told = asking.communicate(timeout=SECONDS)
        same((printed.split(",")[0], told, asking.returncode), ("0 open", "", 0), "the status")


def status_shows_150_sessions(program):
    """Each form has each session, in order."""
    with Match(program, f"max_sessions = {MANY}\nsessions = {MANY}") as match:
        bots = [address(match.opens()[0]) for _ in range(MANY)]
        wanted = [(number, bot) for number, bot in enumerate(bots, 1)]
        rows = [line.split() for line in match.status().splitlines()[5:]]
        same([(int(row[0]), row[-1]) for row in rows], wanted, "the table")
        rows = json.loads(match.status("json"))["sessions"]
        same([(row["session"], row["bot"]) for row in rows], wanted, "the document")
        text = match.status("prometheus")
        levels = [line for line in text.splitlines() if line.startswith("daide_gate_session_level{")]
        same(levels, [f'daide_gate_session_level{{session="{number}",bot="{bot}",phase="open"}} 0' for number, bot in wanted],
             "the metric")
        same(len(text) > 65_536, True, "more than 65,536 bytes")


TESTS = [
    socket_of_another_user_is_not_replaced,
    endless_run_removes_its_socket,
    status_counts_seconds,
    status_beside_a_hung_bot_after_stop_now,
    stop_now_beside_a_connect_blames_no_server,
    operator_is_served_without_descriptors,
    suspended_run_is_waited_for_five_seconds,
    fifth_stop_is_told_that_many_wait,
    stop_of_a_client_that_left_is_ignored,
    full_queue_is_waited_for_five_seconds,
    queue_with_room_again_is_used,
    status_shows_150_sessions,
]
