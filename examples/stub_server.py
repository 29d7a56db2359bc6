#!/usr/bin/env python3
"""Plays a DAIDE server. It answers a bot's IM with RM and OBS with YES ( OBS ), and prints each message.

    python3 examples/stub_server.py [--port PORT] [--sessions N]

It listens at 127.0.0.1, and exits once N sessions have ended. Each connection is a session.
"""

import argparse
import socket
import threading

from stub_frames import DM, FM, IM, RM, frame, heard, message, text_of


def serve(number, stream, ends):
    """Plays one session to its end, and appends its last frame's kind to `ends`."""
    kind, body = heard(stream)
    while kind in (IM, DM):
        if kind == IM:
            stream.sendall(frame(RM))
        else:
            print(f"session {number} said {text_of(body)}", flush=True)
            if text_of(body) == "OBS":
                stream.sendall(message("YES ( OBS )"))
        kind, body = heard(stream)
    ends.append(kind)
    stream.close()


def play(number, stream, ends):
    """Plays one session. If the connection breaks, appends None to `ends`."""
    try:
        serve(number, stream, ends)
    except OSError:
        ends.append(None)


def main():
    """Listens, starts a thread for each connection, and prints how many sessions ended and how many of them with FM."""
    words = argparse.ArgumentParser(description="A stub of a DAIDE server.")
    words.add_argument("--port", type=int, default=16714)
    words.add_argument("--sessions", type=int, default=7)
    given = words.parse_args()
    listener = socket.create_server(("127.0.0.1", given.port), backlog=512)
    print(f"waiting at 127.0.0.1:{given.port}", flush=True)
    sessions, ends = [], []
    for number in range(1, given.sessions + 1):
        stream, _ = listener.accept()
        sessions.append(threading.Thread(target=play, args=(number, stream, ends), daemon=True))
        sessions[-1].start()
    for session in sessions:
        session.join()
    print(f"{len(ends)} sessions ended, {ends.count(FM)} of them with FM", flush=True)


if __name__ == "__main__":
    main()
