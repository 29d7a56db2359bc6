#!/usr/bin/env python3
"""Converts the messages of traffic.py to other inputs, for the measurements of README.md.

    frames.py frames TRAFFIC    the messages as frames, one after the other
    frames.py log TRAFFIC       a log for `daide-gate check`: an opening and the frames, on lines of 2,048 digits
    frames.py orders            a frame with as many orders as fit, in hexadecimal digits, for `daide-gate show`
    frames.py gof               the longest frame, each of whose tokens is GOF, in hexadecimal digits
    frames.py alike N           messages that contain only orders, each of N tokens or a few less, with 32,760 tokens
                                or more in all, in the format of traffic.py; the numbers of messages and of tokens are
                                written to standard error
"""
import sys

import traffic

OPENING = ["daide-log 1", "config 60 65526 62", "bot 000000040001DA10", "server 01000000"]
DIGITS = 2048
LONGEST = 65526


def frame(body):
    return b"\2\0" + len(body).to_bytes(2, "big") + body


def bytes_of(tokens):
    return b"".join(token.to_bytes(2, "big") for token in tokens)


def messages(path):
    with open(path, "rb") as file:
        data = file.read()
    place = 0
    while place < len(data):
        size = int.from_bytes(data[place + 1 : place + 3], "big")
        yield data[place], data[place + 3 : place + 3 + size]
        place += 3 + size


def write_frames(path):
    for _side, body in messages(path):
        sys.stdout.buffer.write(frame(body))


def log_lines(side, body):
    """Returns the lines of a log with the frame of a message."""
    digits, name = frame(body).hex().upper(), ("bot", "server")[side]
    return [f"{name} {digits[at : at + DIGITS]}" for at in range(0, len(digits), DIGITS)]


def write_log(path):
    print("\n".join(OPENING))
    for side, body in messages(path):
        print("\n".join(log_lines(side, body)))


def orders(source, most):
    """Returns SUB and as many orders as fit into `most` tokens."""
    tokens = [traffic.NAMES["SUB"]]
    while True:
        order = [source.code(word) for word in f"( {source.order()} )".split()]
        if len(tokens) + len(order) > most:
            return tokens
        tokens += order


def write_orders():
    print(frame(bytes_of(orders(traffic.Traffic(7), LONGEST // 2))).hex())


def write_alike(most):
    source, written, messages = traffic.Traffic(7), 0, 0
    while written < 32760:
        tokens = orders(source, int(most))
        sys.stdout.buffer.write(b"\0" + (2 * len(tokens)).to_bytes(2, "big") + bytes_of(tokens))
        written, messages = written + len(tokens), messages + 1
    print(f"{messages} messages, {written} tokens", file=sys.stderr)


def write_gof():
    print(frame(bytes_of([traffic.NAMES["GOF"]] * (LONGEST // 2))).hex())


def main():
    writes = {"frames": write_frames, "log": write_log, "orders": write_orders, "gof": write_gof, "alike": write_alike}
    writes[sys.argv[1]](*sys.argv[2:])


if __name__ == "__main__":
    main()
