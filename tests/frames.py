"""The frames that the scenes send and expect, byte by byte as docs/PROTOCOL.md defines them."""

# The initial message, the representation message, and the final message.
IM = b"\x00\x00\x00\x04\x00\x01\xda\x10"
RM = b"\x01\x00\x00\x00"
FM = b"\x03\x00\x00\x00"
IM_FM = IM + FM

# The IM did not come in time; a length above the cap, or an unknown type; a wrong length; more than one RM; an invalid
# token.
EM_01 = b"\x04\x00\x00\x02\x00\x01"
EM_08 = b"\x04\x00\x00\x02\x00\x08"
EM_09 = b"\x04\x00\x00\x02\x00\x09"
EM_0C = b"\x04\x00\x00\x02\x00\x0c"
EM_0E = b"\x04\x00\x00\x02\x00\x0e"

# `OBS`; the same followed by the final message; and `YES ( OBS )`.
OBS = b"\x02\x00\x00\x02\x48\x0f"
OBS_FM = OBS + FM
YES = b"\x02\x00\x00\x08\x48\x1c\x40\x00\x48\x0f\x40\x01"

# `GOF (`, and `PRN ( GOF ( )`.
UNCLOSED = b"\x02\x00\x00\x04\x48\x03\x40\x00"
ITS_PRN = b"\x02\x00\x00\x0a\x48\x13\x40\x00\x48\x03\x40\x00\x40\x01"

# `HLO ( ENG ) ( 1234 ) ( ( LVL 20 ) )`.
HLO_20 = bytes.fromhex("02 00 001a 4804 4000 4101 4001 4000 04d2 4001 4000 4000 4903 0014 4001 4001")

# `HLO ( AUS ) ( 1234 ) ( ( LVL 20 ) )`; the same with the power 4107, which has no name, and with UNO; `HLO ( AUS )`,
# which lacks its passcode, and `HUH ( HLO ( AUS ) ERR )`.
HLO_AUS = bytes.fromhex("02 00 001a 4804 4000 4100 4001 4000 04d2 4001 4000 4000 4903 0014 4001 4001")
HLO_UNLISTED = bytes.fromhex("02 00 001a 4804 4000 4107 4001 4000 04d2 4001 4000 4000 4903 0014 4001 4001")
HLO_UNO = bytes.fromhex("02 00 001a 4804 4000 490b 4001 4000 04d2 4001 4000 4000 4903 0014 4001 4001")
HLO_CUT = bytes.fromhex("02 00 0008 4804 4000 4100 4001")
ITS_CUT = bytes.fromhex("02 00 0010 4806 4000 4804 4000 4100 4001 4902 4001")

# `IAM ( AUS ) ( 12 )`; `YES ( IAM ( AUS ) ( 12 ) )`, and `REJ ( IAM ( AUS ) ( 12 ) )`.
IAM_AUS = bytes.fromhex("02 00 000e 4807 4000 4100 4001 4000 000c 4001")
YES_AUS = bytes.fromhex("02 00 0014 481c 4000 4807 4000 4100 4001 4000 000c 4001 4001")
REJ_AUS = bytes.fromhex("02 00 0014 4814 4000 4807 4000 4100 4001 4000 000c 4001 4001")

# `SND ( FRA ) ( XYZ ( ENG ) )` with XYZ as 4A40, and `HUH ( SND ( FRA ) ( ERR XYZ ( ENG ) ) )`.
XYZ = bytes.fromhex("02 00 0014 4817 4000 4102 4001 4000 4a40 4000 4101 4001 4001")
ITS_HUH = bytes.fromhex("02 00 001c 4806 4000 4817 4000 4102 4001 4000 4902 4a40 4000 4101 4001 4001 4001")

# `FRM ( FRA ) ( ENG ) ( XYZ ( ENG ) )` of a server.
XYZ_OF_SERVER = bytes.fromhex("02 00 001a 4802 4000 4102 4001 4000 4101 4001 4000 4a40 4000 4101 4001 4001")

# `NME ( 'Albert' ) ( 'v1' )`; `NME ( 'Bo' )`, whose version is missing, and `HUH ( NME ( 'Bo' ) ERR )`; `NME ( ) ( )`; and
# `IAM ( ENG ) ( 1234 )`.
NAMED = bytes.fromhex("02 00 001a 480c 4000 4b41 4b6c 4b62 4b65 4b72 4b74 4001 4000 4b76 4b31 4001")
MISSES_VERSION = bytes.fromhex("02 00 000a 480c 4000 4b42 4b6f 4001")
ITS_MISSING = bytes.fromhex("02 00 0012 4806 4000 480c 4000 4b42 4b6f 4001 4902 4001")
EMPTY_NAME = bytes.fromhex("02 00 000a 480c 4000 4001 4000 4001")
IAM_ENG = bytes.fromhex("02 00 000e 4807 4000 4101 4001 4000 04d2 4001")

# `NME ( .. ) ( )`, with a name of 200 bytes: `O'B"\`, a line feed, an escape and the byte FF, and 192 letters `x`.
WILD_NAME = bytes.fromhex("02 00 019a 480c 4000 4b4f 4b27 4b42 4b22 4b5c 4b0a 4b1b 4bff") + b"Kx" * 192 + bytes.fromhex(
    "4001 4000 4001"
)

# `HUH ( GOF .. )`, which either side may send, with `GOF` 497 times: 1,004 bytes.
HUH_OF_GOF = b"\x02\x00\x03\xe8\x48\x06\x40\x00" + b"\x48\x03" * 497 + b"\x40\x01"

# `NME ( 'a..' ) ( 'a' )`, with a name of 480 letters: 976 bytes.
LONG_NAME = b"\x02\x00\x03\xcc\x48\x0c\x40\x00" + b"Ka" * 480 + b"\x40\x01\x40\x00Ka\x40\x01"

# The same with a name of 10,000 letters: 20,016 bytes.
LONGER_NAME = b"\x02\x00\x4e\x2c\x48\x0c\x40\x00" + b"Ka" * 10_000 + b"\x40\x01\x40\x00Ka\x40\x01"

# The same followed by `GOF`, which no message allows there: 20,018 bytes.
MISNAMED = b"\x02\x00\x4e\x2e" + LONGER_NAME[4:] + b"\x48\x03"

# `MAP ( 'a..' )` of a server, with a name of 10,000 letters: 20,010 bytes.
LONG_MAP = b"\x02\x00\x4e\x26\x48\x09\x40\x00" + b"Ka" * 10_000 + b"\x40\x01"

# `OBS GOF`, and `HUH ( OBS ERR GOF )`.
OBS_GOF = b"\x02\x00\x00\x04\x48\x0f\x48\x03"
ITS_ERR = b"\x02\x00\x00\x0c\x48\x06\x40\x00\x48\x0f\x49\x02\x48\x03\x40\x01"

# Bytes of an unknown type. Nothing after the first four is read.
UNKNOWN = b"\x05" * 1024


def message(body):
    """Returns the frame of a message with this body."""
    return b"\x02\x00" + len(body).to_bytes(2, "big") + body


def unclosed_name(letters):
    """Returns `NME ( 'a..'` with this number of letters, and `PRN ( NME ( 'a..' )`, of 14 bytes and two for each
    letter."""
    name = b"\x48\x0c\x40\x00" + b"Ka" * letters
    return message(name), message(b"\x48\x13\x40\x00" + name + b"\x40\x01")


def misnamed(letters):
    """Returns `NME ( 'a..' ) ( 'a' ) GOF`, and `HUH ( NME ( 'a..' ) ( 'a' ) ERR GOF )`, of 26 bytes and two for each
    letter."""
    name = b"\x48\x0c\x40\x00" + b"Ka" * letters + b"\x40\x01\x40\x00Ka\x40\x01"
    return message(name + b"\x48\x03"), message(b"\x48\x06\x40\x00" + name + b"\x49\x02\x48\x03\x40\x01")
