"""Runs with `--explain`: rows of messages and of logs, with expected texts from another source than the program.

`scripts/second-explanation --table` prints the rows of messages, from docs/PROTOCOL.md. The rows of logs are worked out
from docs/FORMATS.md.
"""

from held import Wrong
from runs import Folder, check_ran, rows_of


def judged_by(text):
    """Yields the pairs of side and level of a text such as `bot 0, server 10 to 40 60`."""
    for part in text.split(","):
        side, *words = part.replace(" to ", "-").split()
        for low, _, high in (word.partition("-") for word in words):
            for level in range(int(low), int(high or low) + 1, 10):
                yield side, str(level)


def explained_frames(program):
    """Checks `show --explain` for the worked examples and similar messages, of each side and at each level."""
    with Folder(program) as folder:
        frame = ""
        for row in rows_of("explained"):
            digits, judged, output, status = row.split("|")
            frame = digits.strip() or frame
            for side, level in judged_by(judged):
                words = ["show", "--explain", "--side", side, "--level", level]
                check_ran(folder.run(words, frame.encode()), (output, "", status), f"{frame} | {side} {level}")


def one_bracket_too_deep_is_explained(program):
    """A BRA after 254 open brackets is too deep. So is a message that can continue only with such a BRA."""
    chain = "481740004102400140004A134000" + "4A014000480140014000" * 252 + "4A014801" + "4001" * 254
    with Folder(program) as folder:
        for body, line in (
            ("4806" + "4000" * 255 + "4001" * 255, "too deep: ( at 255"),
            (chain, "too deep: 254 brackets are open"),
        ):
            digits = f"0200{len(body) // 2:04X}{body}"
            printed, _, _ = folder.run(["show", "--explain", "--level", "60"], digits.encode())
            if printed.decode().splitlines()[4:] != [line]:
                raise Wrong(f"saw {printed.decode().splitlines()[4:]!r}, wanted {line!r}")


def explained_logs(program):
    """Checks reports of logs with explanations. Without explanations a report has the lines that are not indented and
    not comments. It has no counts if the last line of the log is cut, since that is a fault then."""
    with Folder(program) as folder:
        for row in rows_of("explained-logs"):
            log, output, fault, status = row.split("|")
            given = log.strip().replace("/", "\n").encode()
            check_ran(folder.run(["check", "--explain"], given), (output, fault, status), row)
            added = ("    ", "#", "relayed ") if " is cut/" in output else ("    ", "#")
            plain = [line for line in output.strip().split("/") if not line.startswith(added)]
            printed, _, _ = folder.run(["check"], given)
            if printed.decode().split("\n") != plain:
                raise Wrong(f"without explanations: saw {printed.decode()!r}, wanted {plain!r}")


TESTS = [explained_frames, one_bracket_too_deep_is_explained, explained_logs]
