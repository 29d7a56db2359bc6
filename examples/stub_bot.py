#!/usr/bin/env python3
"""Plays bots that observe a game. Each sends IM and OBS, prints the answer, and sends FM once all have an answer.

    python3 examples/stub_bot.py [--port PORT] [--bots N] [--bracket N] [--word N]

Bot N of --bracket sends `GOF (`, whose bracket never closes. Bot N of --word sends `OBS GOF`, which has a word too
many. The bots connect to the port at 127.0.0.1, and retry for ten minutes while nothing listens there.
"""

import argparse
import contextlib
import socket
import sys
import time

from stub_frames import DM, FM, IM, INITIAL, RM, frame, heard, message, text_of


def connected(port):
    """Connects as soon as a program listens, and gives up after ten minutes."""
    for _ in range(3000):
        with contextlib.suppress(ConnectionRefusedError):
            return socket.create_connection(("127.0.0.1", port), timeout=60)
        time.sleep(0.2)
    sys.exit("nobody listens")


def opened(port):
    """Opens a connection and exchanges its first two frames, IM and RM."""
    stream = connected(port)
    stream.sendall(frame(IM, INITIAL))
    if heard(stream)[0] != RM:
        sys.exit("there was no RM: is the server there?")
    return stream


def asked(stream, text):
    """Sends a message. Returns the text of the answer."""
    stream.sendall(message(text))
    kind, body = heard(stream)
    return text_of(body) if kind == DM else "no message"


def main():
    """Connects all bots, sends each bot's message in turn, and ends all connections."""
    words = argparse.ArgumentParser(description="Stubs of bots that observe a game.")
    words.add_argument("--port", type=int, default=16713)
    words.add_argument("--bots", type=int, default=7)
    words.add_argument("--bracket", type=int, metavar="N", help="the bot that sends a wrong bracket")
    words.add_argument("--word", type=int, metavar="N", help="the bot that sends a word too many")
    given = words.parse_args()
    says = {given.bracket: "GOF (", given.word: "OBS GOF"}
    bots = {number: opened(given.port) for number in range(1, given.bots + 1)}
    for number, stream in bots.items():
        text = says.get(number, "OBS")
        print(f"bot {number} said {text} and got {asked(stream, text)}", flush=True)
    for stream in bots.values():
        stream.sendall(frame(FM))
        stream.close()


if __name__ == "__main__":
    main()
