#!/usr/bin/env python3
"""Measures a gateway at work over loopback, and socat and haproxy in the same run:

    bench/run_load.py PROGRAM [--before PROGRAM] [MEASURE]..

PROGRAM is the built program, bin/daide-gate. With --before another program is measured in the same run. Without a
MEASURE all nine are measured:

    calls         system calls per frame, if strace is installed
    instructions  instructions of the process (callgrind), in bulk and for a round trip, if valgrind is installed
    round-trip    the time of a request and its answer, also beside 100 and 255 idle sessions
    idle          the same beside 0, 100 and 255 idle sessions in turn, on one processor and on all
    bulk          throughput of one session in one direction, at three sizes of bodies
    recorded      throughput of 256 sessions at once, with and without a record of each, of PROGRAM alone
    memory        memory of idle and of used sessions, and the processor time of 256 idle ones
    busy          round trips of three sessions beside 64 and 200 that send longest bodies without end
    hostile       round trips of three sessions beside 64 and 200 hostile connections

round-trip and bulk also measure socat and haproxy, if they are installed. This program plays all bots and the server;
nothing leaves the machine.
"""

import argparse
import contextlib
import os
import selectors
import shutil
import socket
import statistics
import subprocess
import sys
import tempfile
import time

PROCESSORS = os.sched_getaffinity(0)

IM = bytes.fromhex("000000040001da10")
RM = bytes.fromhex("01000000")
OBS = bytes.fromhex("02000002480f")
YES_OBS = bytes.fromhex("02000008481c4000480f4001")
GOF_UNCLOSED = bytes.fromhex("0200000448034000")


def frame(body):
    return b"\x02\x00" + len(body).to_bytes(2, "big") + body


def name_message(size):
    """Returns NME ( 'aaa..' ) ( 'a' ), a message of the grammar with a body of `size` bytes."""
    letters = (size - 12) // 2
    return bytes.fromhex("480c4000") + b"\x4b\x61" * letters + bytes.fromhex("400140004b614001")


def yes_message(size):
    """Returns YES ( NME ( 'aaa..' ) ( 'a' ) ), a message of `size` bytes that a server may send."""
    return bytes.fromhex("481c4000") + name_message(size - 6) + bytes.fromhex("4001")


def listening():
    listener = socket.create_server(("127.0.0.1", 0), backlog=512)
    return listener, listener.getsockname()[1]


def free_port():
    listener, port = listening()
    listener.close()
    return port


def connected(port):
    for _ in range(200):
        with contextlib.suppress(ConnectionRefusedError):
            stream = socket.create_connection(("127.0.0.1", port))
            stream.setsockopt(socket.IPPROTO_TCP, socket.TCP_NODELAY, 1)
            return stream
        time.sleep(0.02)
    sys.exit("nobody listens")


def heard(stream, size):
    piece = b""
    while len(piece) < size:
        more = stream.recv(size - len(piece))
        if not more:
            sys.exit("a connection ended early")
        piece += more
    return piece


class Between:
    """What connects bots to a server: a process that listens for bots, and the listener of the server."""

    def __init__(self):
        self.listener, self.server = listening()
        self.port = free_port()
        self.folder = tempfile.TemporaryDirectory()

    def begin(self, words, **streams):
        self.process = subprocess.Popen(words, stderr=subprocess.DEVNULL, **streams)

    def written(self, name, text):
        """Writes a new file in the folder. Returns its path."""
        path = os.path.join(self.folder.name, name)
        with open(path, "w", encoding="ascii") as file:
            file.write(text)
        return path

    def __enter__(self):
        return self

    def __exit__(self, *_):
        self.process.kill()
        self.process.wait()
        if self.process.stdout:
            self.process.stdout.close()
        self.listener.close()
        self.folder.cleanup()

    def session(self):
        """Opens a session and exchanges IM and RM. Returns the bot's socket and the server's."""
        bot = connected(self.port)
        server, _ = self.listener.accept()
        server.setsockopt(socket.IPPROTO_TCP, socket.TCP_NODELAY, 1)
        bot.sendall(IM)
        heard(server, len(IM))
        server.sendall(RM)
        heard(bot, len(RM))
        return bot, server

    def processor_seconds(self):
        with open(f"/proc/{self.process.pid}/schedstat", encoding="ascii") as stat:
            return int(stat.read().split()[0]) / 1e9

    def resident(self):
        """Returns the resident memory in kilobytes."""
        with open(f"/proc/{self.process.pid}/status", encoding="ascii") as status:
            return next(int(line.split()[1]) for line in status if line.startswith("VmRSS"))


class Gateway(Between):
    """A gateway, optionally started by a tracing program, and optionally with a record of each session."""

    def __init__(self, program, watcher=(), is_recorded=False):
        super().__init__()
        path = self.written(
            "settings.toml",
            f'listen = "127.0.0.1:{self.port}"\nserver = "127.0.0.1:{self.server}"\n'
            "max_sessions = 256\nsessions = 1000000\nim_seconds = 3600\nturns = 1000000000000\n",
        )
        words = ["--record", self.folder.name] if is_recorded else []
        self.begin([*watcher, program, "run", *words, path], stdout=subprocess.PIPE)
        self.process.stdout.readline()


class Socat(Between):
    """A relay that copies bytes, with a process for each connection."""

    def __init__(self):
        super().__init__()
        self.begin(
            ["socat", f"TCP-LISTEN:{self.port},bind=127.0.0.1,nodelay,fork", f"TCP:127.0.0.1:{self.server},nodelay"]
        )


class Haproxy(Between):
    """A relay that copies bytes, in one process with one thread."""

    def __init__(self):
        super().__init__()
        path = self.written(
            "haproxy.cfg",
            "global\n nbthread 1\n maxconn 2000\n"
            "defaults\n mode tcp\n timeout connect 5s\n timeout client 1h\n timeout server 1h\n"
            f"listen bots\n bind 127.0.0.1:{self.port}\n server one 127.0.0.1:{self.server}\n",
        )
        self.begin(["haproxy", "-db", "-f", path])


def contenders(programs):
    """Returns what is measured in turn: by its name, a function that starts it."""
    found = {name: (lambda program=program: Gateway(program)) for name, program in programs.items()}
    for name, kind in (("socat", Socat), ("haproxy", Haproxy)):
        if shutil.which(name):
            found[name] = kind
    return found


def round_trip(bot, server):
    """Returns the milliseconds from a bot's request until it has the server's answer."""
    began = time.perf_counter()
    bot.sendall(OBS)
    heard(server, len(OBS))
    server.sendall(YES_OBS)
    heard(bot, len(YES_OBS))
    return (time.perf_counter() - began) * 1000


def direct_round_trip(times):
    """Measures round trips with no gateway between."""
    listener, port = listening()
    bot = connected(port)
    server, _ = listener.accept()
    server.setsockopt(socket.IPPROTO_TCP, socket.TCP_NODELAY, 1)
    found = [round_trip(bot, server) for _ in range(times)]
    for stream in (bot, server, listener):
        stream.close()
    return found


def part(found, share):
    ordered = sorted(found)
    return ordered[min(len(ordered) - 1, int(len(ordered) * share))]


def tell_times(name, found):
    print(f"{name}: p50 {part(found, 0.5):.3f} ms, p99 {part(found, 0.99):.3f} ms of {len(found)}", flush=True)


def medians(programs, measure, runs=5):
    """Returns, by name, the median of each figure over `runs` runs. Each run measures all contenders in turn."""
    found = {name: [] for name in contenders(programs)}
    for _ in range(runs):
        for name, begin in contenders(programs).items():
            with begin() as between:
                found[name].append(measure(between))
    return {name: [statistics.median(column) for column in zip(*rows)] for name, rows in found.items()}


def tell_beside(name, found, unit, first="socat"):
    """Prints a line for each contender, with its first figure relative to that of `first`."""
    base = found.get(first, next(iter(found.values())))
    for key, figures in found.items():
        told = " / ".join(f"{figure:.4g}" for figure in figures)
        print(f"{name}, {key}: {told} {unit}, {figures[0] / base[0]:.2f} of {first}", flush=True)


def trips(between, times=2000):
    bot, server = between.session()
    for _ in range(200):
        round_trip(bot, server)
    found = [round_trip(bot, server) for _ in range(times)]
    return part(found, 0.5) * 1000, part(found, 0.99) * 1000


def measure_round_trip(programs):
    tell_times("round trip with nothing between", direct_round_trip(5000))
    tell_beside("round trip, p50 / p99", medians(programs, trips), "us")

    for idle in (100, 255):
        for name, program in programs.items():
            found = []
            for _ in range(5):
                with Gateway(program) as gateway:
                    held = [gateway.session() for _ in range(idle)]
                    found.append(trips(gateway))
                    del held
            p50, p99 = (statistics.median(column) for column in zip(*found))
            print(f"round trip beside {idle} idle sessions, p50 / p99, {name}: {p50:.4g} / {p99:.4g} us", flush=True)


def turns_beside_idle(program):
    """Returns the medians of 500 round trips in each of 60 turns beside 0, 100 and 255 idle sessions."""
    with contextlib.ExitStack() as running:
        held, ends = [], []
        for idle in (0, 100, 255):
            gateway = running.enter_context(Gateway(program))
            held.append([gateway.session() for _ in range(idle)])
            ends.append(gateway.session())
        turns = [[part([round_trip(*two) for _ in range(500)], 0.5) for two in ends] for _ in range(60)]
    return zip((0, 100, 255), zip(*turns))


def measure_idle(programs):
    """Measures round trips beside 0, 100 and 255 idle sessions in turn, so that other work on the host meets all three
    alike, and prints quartiles. First all processes share one processor, so that it makes no difference on which one
    the kernel wakes a process; then they have all."""
    for processors in ({max(PROCESSORS)}, PROCESSORS):
        os.sched_setaffinity(0, processors)
        where = "one processor" if len(processors) == 1 else f"{len(processors)} processors"
        for name, program in programs.items():
            for idle, found in turns_beside_idle(program):
                quartiles = " / ".join(f"{part(found, share) * 1000:.1f}" for share in (0.25, 0.5, 0.75))
                print(f"round trip in turn beside {idle} idle sessions, {where}, {name}: {quartiles} us", flush=True)


def measure_calls(programs):
    """Counts the system calls per frame in a lone session, over 2,000 round trips of two frames each."""
    if not shutil.which("strace"):
        print("calls: strace is not installed", flush=True)
        return
    for name, program in programs.items():
        with tempfile.NamedTemporaryFile("r", encoding="ascii") as counts:
            watcher = ["strace", "-f", "-c", "-U", "calls,name", "-o", counts.name]
            with Gateway(program, watcher) as gateway:
                bot, server = gateway.session()
                for _ in range(2000):
                    round_trip(bot, server)
                bot.close()
                server.close()
                subprocess.run(["pkill", "-TERM", "-P", str(gateway.process.pid)], check=True)
                gateway.process.wait()
            rows = [line.split() for line in counts.read().splitlines()]
        found = {row[1]: int(row[0]) for row in rows if len(row) == 2 and row[0].isdigit() and row[1] != "total"}
        told = ", ".join(f"{count} {call}" for call, count in found.items() if count >= 1000)
        print(f"calls of 4000 frames, {name}: {told}; {sum(found.values()) / 4000:.2f} a frame", flush=True)


def transfer(bot, server, message, size):
    """Returns the megabytes per second at which about `size` bytes of messages arrive. A child process sends them."""
    piece = message * max(1, (1 << 18) // len(message))
    pieces = max(1, size // len(piece))
    buffer = bytearray(1 << 18)
    sender = os.fork()
    if sender == 0:
        for _ in range(pieces):
            bot.sendall(piece)
        os._exit(0)
    began = time.perf_counter()
    left = pieces * len(piece)
    while left:
        left -= server.recv_into(buffer, min(left, len(buffer)))
    took = time.perf_counter() - began
    os.waitpid(sender, 0)
    return pieces * len(piece) / took / 1e6


def instructions(program, act, idle=0):
    """Returns how many instructions the process takes for `idle` idle sessions and one more, of which `act` is called."""
    with tempfile.NamedTemporaryFile("r", encoding="ascii") as counts:
        watcher = ["valgrind", "--tool=callgrind", "-q", "--callgrind-out-file=" + counts.name]
        with Gateway(program, watcher) as gateway:
            held = [gateway.session() for _ in range(idle)]
            bot, server = gateway.session()
            act(bot, server)
            gateway.process.terminate()
            gateway.process.wait()
            for stream in (stream for ends in [*held, (bot, server)] for stream in ends):
                stream.close()
        return next(int(line.split()[1]) for line in counts if line.startswith("totals:"))


def measure_instructions(programs):
    """Counts the instructions of 4 MiB in one direction, at three sizes, and of a round trip alone and beside 100 idle
    sessions. The difference of 600 and 100 round trips leaves out the beginning and the end of the process."""
    if not shutil.which("valgrind"):
        print("instructions: valgrind is not installed", flush=True)
        return

    def trips(times):
        return lambda bot, server: [round_trip(bot, server) for _ in range(times)]

    def bulk(message):
        return lambda bot, server: transfer(bot, server, message, 4 << 20)

    for name, program in programs.items():
        for size in (512, 4096, 65526):
            count = instructions(program, bulk(frame(name_message(size))))
            print(f"instructions of 4 MiB, bodies of {size} bytes, {name}: {count / 1e6:.1f} million", flush=True)
        alone, beside = (
            (instructions(program, trips(600), idle) - instructions(program, trips(100), idle)) / 500 for idle in (0, 100)
        )
        print(
            f"instructions of a round trip, {name}: {alone:.0f}, and {(beside - alone) / 100:.0f} for each idle session",
            flush=True,
        )


def measure_bulk(programs):
    for size in (512, 4096, 65526):
        message = frame(name_message(size))

        def speed(between):
            bot, server = between.session()
            return [transfer(bot, server, message, 64 << 20)]

        tell_beside(f"bulk, bodies of {size} bytes", medians(programs, speed), "MB/s")


def send_to_all(bots, piece, size):
    """Sends `size` bytes over each of these sockets, whenever one is writable."""
    selector = selectors.DefaultSelector()
    for bot in bots:
        bot.setblocking(False)
        selector.register(bot, selectors.EVENT_WRITE, [0])
    while selector.get_map():
        for key, _ in selector.select():
            sent = key.data[0]
            key.data[0] += key.fileobj.send(piece[sent % len(piece):][: size - sent])
            if key.data[0] == size:
                selector.unregister(key.fileobj)


def transfer_at_once(between, message, size):
    """Returns the megabytes per second that 256 sessions relay in all, with about `size` bytes each."""
    held = [between.session() for _ in range(256)]
    size -= size % len(message)
    sender = os.fork()
    if sender == 0:
        send_to_all([bot for bot, _ in held], message * (size // len(message)), size)
        os._exit(0)
    began = time.perf_counter()
    selector, buffer = selectors.DefaultSelector(), bytearray(1 << 18)
    for _, server in held:
        selector.register(server, selectors.EVENT_READ, [size])
    while selector.get_map():
        for key, _ in selector.select():
            key.data[0] -= key.fileobj.recv_into(buffer)
            if key.data[0] == 0:
                selector.unregister(key.fileobj)
    took = time.perf_counter() - began
    os.waitpid(sender, 0)
    for stream in (stream for ends in held for stream in ends):
        stream.close()
    return 256 * size / took / 1e6


def measure_recorded(programs):
    program = next(iter(programs.values()))
    for size in (32, 4096):
        message, found = frame(name_message(size)), {False: [], True: []}
        for _ in range(5):
            for is_recorded, speeds in found.items():
                with Gateway(program, is_recorded=is_recorded) as gateway:
                    speeds.append(transfer_at_once(gateway, message, 128 << 10))
        plain, recorded = (statistics.median(found[key]) for key in (False, True))
        print(
            f"bulk of 256 sessions, bodies of {size} bytes: {plain:.4g} MB/s, recorded {recorded:.4g} MB/s,"
            f" {recorded / plain:.2f} of it",
            flush=True,
        )


def measure_memory(programs):
    for name, program in programs.items():
        with Gateway(program) as gateway:
            before = gateway.resident()
            held = [gateway.session() for _ in range(256)]
            idle = gateway.resident()
            message, answer = frame(name_message(4096)) * 16, frame(yes_message(4096)) * 16
            for bot, server in held:
                bot.sendall(message)
                heard(server, len(message))
                server.sendall(answer)
                heard(bot, len(answer))
            used = gateway.resident()
            began = gateway.processor_seconds()
            time.sleep(10)
            share = (gateway.processor_seconds() - began) / 10
            print(
                f"resident, {name}: {before} KB with no session, {(idle - before) / 256:.1f} KB a session with 256 idle"
                f" ones, {(used - before) / 256:.1f} KB after 64 KB each way; processor while they are idle:"
                f" {share * 100:.3f} %",
                flush=True,
            )
            for stream in (stream for ends in held for stream in ends):
                stream.close()
            time.sleep(3)
            print(f"resident once they ended, {name}: {gateway.resident()} KB", flush=True)


def hostile_bytes(kind):
    """Returns the bytes that a hostile bot sends first, those that it then repeats, and whether it reads."""
    too_deep = frame(b"\x40\x00" * 32763)
    longest = frame(name_message(65526))
    return {
        "garbage": (b"", os.urandom(1 << 16), True),
        "zeros": (IM, bytes(1 << 16), True),
        "brackets": (IM, too_deep, True),
        "slow": (IM, b"", True),
        "deaf": (IM, GOF_UNCLOSED * 8192, False),
        "longest": (IM, longest, True),
    }[kind]


class Hostile:
    """One hostile connection, which is opened again if it ends."""

    def __init__(self, kind, port, selector):
        self.first, self.then, self.reads = hostile_bytes(kind)
        self.is_slow = kind == "slow"
        self.port, self.selector = port, selector
        self.stream, self.resumes = None, 0.0
        self.open()

    def open(self):
        self.stream = connected(self.port)
        self.stream.setblocking(False)
        self.waiting = self.first
        events = (selectors.EVENT_READ if self.reads else 0) | (0 if self.is_slow else selectors.EVENT_WRITE)
        self.selector.register(self.stream, events, self)

    def end(self):
        self.selector.unregister(self.stream)
        self.stream.close()
        self.stream, self.resumes = None, time.monotonic() + 0.1

    def act(self, events):
        try:
            if events & selectors.EVENT_READ and not self.stream.recv(1 << 16):
                return self.end()
            if events & selectors.EVENT_WRITE:
                if not self.waiting:
                    self.waiting = self.then
                self.waiting = self.waiting[self.stream.send(self.waiting):]
        except BlockingIOError:
            pass
        except OSError:
            self.end()

    def tick(self):
        """Opens the connection again if it has ended. If it is slow, sends one byte."""
        if self.stream is None:
            if time.monotonic() >= self.resumes:
                self.open()
        elif self.is_slow:
            with contextlib.suppress(OSError):
                self.stream.send((self.waiting or OBS)[:1])
                self.waiting = self.waiting[1:] if self.waiting else OBS[1:]


def attack(port, count, kinds):
    """Runs `count` connections of these kinds in turn, until the process is killed."""
    selector = selectors.DefaultSelector()
    hostile = [Hostile(kinds[i % len(kinds)], port, selector) for i in range(count)]
    ticked = ended = time.monotonic()
    while True:
        for key, events in selector.select(0.05):
            if key.data.stream is key.fileobj:
                key.data.act(events)
        now = time.monotonic()
        if now - ended >= 0.1:
            ended = now
            for bot in hostile:
                if bot.stream is None:
                    bot.tick()
        if now - ticked >= 1:
            ticked = now
            for bot in hostile:
                bot.tick()


def serve_all(listener):
    """Answers each IM with RM and drops all other bytes, until the process is killed."""
    selector = selectors.DefaultSelector()
    listener.setblocking(False)
    selector.register(listener, selectors.EVENT_READ)
    buffer, greeted = bytearray(1 << 18), set()

    def hear(stream):
        if not stream.recv_into(buffer):
            raise ConnectionError
        if stream not in greeted:
            greeted.add(stream)
            stream.sendall(RM)

    while True:
        for key, _ in selector.select():
            try:
                if key.fileobj is listener:
                    stream, _ = listener.accept()
                    selector.register(stream, selectors.EVENT_READ)
                else:
                    hear(key.fileobj)
            except BlockingIOError:
                pass
            except OSError:
                greeted.discard(key.fileobj)
                selector.unregister(key.fileobj)
                key.fileobj.close()


def keep_to(processor, process=0):
    """Pins a process, by default this one, to the processor of that number, if there are four."""
    usable = sorted(PROCESSORS)
    if len(usable) >= 4:
        os.sched_setaffinity(process, {usable[processor]})


@contextlib.contextmanager
def beside(processor, act, *words):
    """Runs `act` in a child process, pinned to this processor, while the body runs."""
    child = os.fork()
    if child == 0:
        try:
            keep_to(processor)
            act(*words)
        finally:
            os._exit(1)
    try:
        yield
    finally:
        os.kill(child, 9)
        os.waitpid(child, 0)


def good_times(good, seconds):
    found, began = [], time.monotonic()
    while time.monotonic() - began < seconds:
        for bot, server in good:
            found.append(round_trip(bot, server))
        time.sleep(0.005)
    return found


def measure_beside(programs, name, count, kinds):
    """Measures three good sessions alone and beside `count` others, and the memory before, meanwhile and after."""
    for key, program in programs.items():
        with Gateway(program) as gateway:
            keep_to(0, gateway.process.pid)
            keep_to(1)
            good = [gateway.session() for _ in range(3)]
            tell_times(f"three good sessions alone, {key}", good_times(good, 5))
            print(f"resident before, {key}: {gateway.resident()} KB", flush=True)
            with beside(2, serve_all, gateway.listener):
                with beside(3, attack, gateway.port, count, kinds):
                    time.sleep(3)
                    before, began = gateway.processor_seconds(), time.monotonic()
                    tell_times(f"three good sessions beside {count} {name} ones, {key}", good_times(good, 20))
                    share = (gateway.processor_seconds() - before) / (time.monotonic() - began)
                    print(f"processor, {key}: {share * 100:.0f} %, resident: {gateway.resident()} KB", flush=True)
                time.sleep(3)
                print(f"resident after, {key}: {gateway.resident()} KB", flush=True)
        os.sched_setaffinity(0, PROCESSORS)


def measure_busy(programs):
    for count in (64, 200):
        measure_beside(programs, "busy", count, ["longest"])


def measure_hostile(programs):
    for count in (64, 200):
        measure_beside(programs, "hostile", count, ["garbage", "zeros", "brackets", "slow", "deaf", "longest"])


MEASURES = {
    "calls": measure_calls,
    "instructions": measure_instructions,
    "round-trip": measure_round_trip,
    "idle": measure_idle,
    "bulk": measure_bulk,
    "recorded": measure_recorded,
    "memory": measure_memory,
    "busy": measure_busy,
    "hostile": measure_hostile,
}


def main():
    words = argparse.ArgumentParser(description=__doc__, formatter_class=argparse.RawDescriptionHelpFormatter)
    words.add_argument("program", metavar="PROGRAM")
    words.add_argument("--before", metavar="PROGRAM")
    words.add_argument("measures", nargs="*", metavar="MEASURE", help=", ".join(MEASURES))
    given = words.parse_intermixed_args()
    if any(measure not in MEASURES for measure in given.measures):
        words.error(f"a measure is one of {', '.join(MEASURES)}")
    programs = {"gateway": os.path.abspath(given.program)}
    if given.before:
        programs["before"] = os.path.abspath(given.before)
    for measure in given.measures or MEASURES:
        MEASURES[measure](programs)


if __name__ == "__main__":
    main()
