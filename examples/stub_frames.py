"""Frames of DAIDE and the few tokens that the stub bot and the stub server use."""

IM, RM, DM, FM, EM = range(5)
INITIAL = bytes.fromhex("0001da10")
CODES = {
    "(": 0x4000, ")": 0x4001, "GOF": 0x4803, "HUH": 0x4806, "OBS": 0x480F, "PRN": 0x4813, "YES": 0x481C, "ERR": 0x4902,
}
NAMES = {code: name for name, code in CODES.items()}


def frame(kind, body=b""):
    """Returns a frame: four bytes with its kind and the length of its body, high byte first, then the body."""
    return bytes([kind, 0]) + len(body).to_bytes(2, "big") + body


def message(text):
    """Returns the frame of a message whose tokens are these words."""
    return frame(DM, b"".join(CODES[word].to_bytes(2, "big") for word in text.split()))


def text_of(body):
    """Returns the tokens of a message as words, and those without a name here as `#` and four digits."""
    codes = [int.from_bytes(body[at : at + 2], "big") for at in range(0, len(body), 2)]
    return " ".join(NAMES.get(code, f"#{code:04x}") for code in codes)


def exactly(stream, size):
    """Returns the next `size` bytes of a connection, or fewer if it ends before."""
    found = b""
    while len(found) < size and (more := stream.recv(size - len(found))):
        found += more
    return found


def heard(stream):
    """Returns the next frame's kind and body, or None as the kind once the connection has ended."""
    head = exactly(stream, 4)
    if len(head) < 4:
        return None, b""
    return head[0], exactly(stream, int.from_bytes(head[2:], "big"))
