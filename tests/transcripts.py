"""The table of several logs, and transcripts: logs of both versions with and without times, and what is in names.

The expected lines are worked out from docs/FORMATS.md ("`check`: several files", "`transcript`: output").
"""

import json

from held import same
from runs import Folder, rows_of

# Frames of the bot and of the server: type, pad, length, body.
IM = "0000" "0004" "0001DA10"
RM = "0100" "0000"
FM = "0300" "0000"
EM = "0400" "0002" "0009"
NME = "0200" "0010" "480C" "4000" "4B41" "4B6C" "4001" "4000" "4B31" "4001"  # NME ( 'Al' ) ( '1' )
IAM = "0200" "000E" "4807" "4000" "4102" "4001" "4000" "0005" "4001"  # IAM ( FRA ) ( 5 )
GRANTED = "0200" "0014" "481C" "4000" "4807" "4000" "4102" "4001" "4000" "0005" "4001" "4001"  # YES ( IAM ( FRA ) ( 5 ) )
HLO = "0200" "0012" "4804" "4000" "4101" "4001" "4000" "0007" "4001" "4000" "4001"  # HLO ( ENG ) ( 7 ) ( )
GOF = "0200" "0002" "4803"
UNCLOSED = "0200" "0004" "4803" "4000"  # GOF (
TWO = "0200" "0004" "480F" "4803"  # OBS GOF
ODD = "0200" "0003"

DAY = "2026-11-26T04:01:"


def record(*lines, number=None, began="00.000"):
    """Returns a log of one session with these lines, as a record if it has a number."""
    head = [f"# session {number}, bot at 127.0.0.1:5000{number}, {DAY}{began}Z"] if number else []
    return "\n".join(["daide-log 2", "config 60 1024 16 1 0", *head, *lines]) + "\n"


def at(time):
    """Returns the comment of a time."""
    return f"# {DAY}{time}Z"


# Two bots of a match. Both messages of 02.500 came in the same millisecond.
FIRST = record(
    f"1 bot {IM}", at("01.000"), f"1 server {RM}", at("02.500"), f"1 bot {NME}", at("03.000"), f"1 server {HLO}",
    f"1 bot {UNCLOSED}", f"1 bot {TWO}", at("09.000"), f"1 server {FM}", number=7,
)
SECOND = record(
    f"1 bot {IM}", at("00.900"), f"1 server {RM}", at("02.500"), f"1 bot {IAM}", at("02.700"), f"1 server {GRANTED}",
    at("04.000"), f"1 bot {ODD}",
    number=8, began="00.500",
)
TOLD = [
    f"{DAY}00.000Z\t7\t-\t-\tbot\tIM 4",
    f"{DAY}00.500Z\t8\t-\t-\tbot\tIM 4",
    f"{DAY}00.900Z\t8\t-\t-\tserver\tRM 0",
    f"{DAY}01.000Z\t7\t-\t-\tserver\tRM 0",
    f"{DAY}02.500Z\t7\tNME 'Al'\t-\tbot\tNME ( 'Al' ) ( '1' )",
    f"{DAY}02.500Z\t8\t-\t-\tbot\tIAM ( FRA ) ( 5 )",
    f"{DAY}02.700Z\t8\t-\tFRA\tserver\tYES ( IAM ( FRA ) ( 5 ) )",
    f"{DAY}03.000Z\t7\tNME 'Al'\tENG\tserver\tHLO ( ENG ) ( 7 ) ( )",
    f"{DAY}03.000Z\t7\tNME 'Al'\tENG\tbot\tGOF (\tprn",
    f"{DAY}03.000Z\t7\tNME 'Al'\tENG\tbot\tOBS GOF\thuh 1",
    f"{DAY}09.000Z\t7\tNME 'Al'\tENG\tserver\tFM 0",
]

# A session of version 1 without times: the bot leaves before its IM. And one of version 2 with two sessions, of which
# the first has an EM, and the second a word of the operator's.
LEAVES = f"daide-log 1\nconfig 60 1024 16\nbot {FM}\n"
MATCH = "\n".join([
    "daide-log 2", "config 60 1024 16 2 1", "word XYZ 4A40 press 20 power", f"2 bot {IM}", f"1 bot {IM}",
    f"2 server {RM}", f"1 server {RM}", "2 bot 0200" "0002" "4A40", f"1 server {EM}", "2 stop",
]) + "\n"


def lines_of(printed):
    """Returns the lines of an output, each of which must have its line feed."""
    lines = printed.decode().split("\n")
    same(lines.pop(), "", "after the last line feed")
    return lines


def told(folder, words, given=b""):
    """Runs `transcript` with these arguments. Returns its lines, the lines on standard error, and the status."""
    printed, errors, status = folder.run(["transcript", *words], given)
    return lines_of(printed), lines_of(errors), status


def messages_are_in_order_of_time(program):
    """Two records are merged by time, equal times in the order of the arguments; one record is as it is."""
    with Folder(program, {"a.log": FIRST, "b.log": SECOND}) as folder:
        same(told(folder, ["a.log", "b.log"]), (TOLD, [], 0), "two records")
        turned = [*TOLD[:4], TOLD[5], TOLD[4], *TOLD[6:]]
        same(told(folder, ["b.log", "a.log"]), (turned, [], 0), "in the other order")
        alone = [line for line in TOLD if "\t8\t" in line]
        for words, given in ((["b.log"], ""), ([], SECOND), (["-"], SECOND)):
            same(told(folder, words, given.encode()), (alone, [], 0), f"one record, {words}")


def logs_without_times_come_first(program):
    """A message without a time has a dash, and so has an unknown session, name or power."""
    with Folder(program, {"a.log": FIRST, "leaves.log": LEAVES, "match.log": MATCH}) as folder:
        match = ["-\t2\t-\t-\tbot\tIM 4", "-\t1\t-\t-\tbot\tIM 4", "-\t2\t-\t-\tserver\tRM 0", "-\t1\t-\t-\tserver\tRM 0",
                 "-\t2\t-\t-\tbot\tXYZ\thuh 0", "-\t1\t-\t-\tserver\tEM 2"]
        leaves = ["-\t-\t-\t-\tbot\tFM 0\tdrop"]
        alone = [line for line in TOLD if "\t7\t" in line]
        same(told(folder, ["a.log", "match.log", "leaves.log"]), ([*match, *leaves, *alone], [], 0), "three logs")


def clock_that_is_set_back_keeps_the_order(program):
    """Messages of one record keep their order, with their own times."""
    log = record(f"1 bot {IM}", at("05.000"), f"1 server {RM}", at("01.000"), f"1 bot {GOF}", number=1)
    with Folder(program, {"back.log": log, "b.log": SECOND}) as folder:
        lines, _, _ = told(folder, ["back.log", "b.log"])
        same(lines[-2:], [f"{DAY}05.000Z\t1\t-\t-\tserver\tRM 0", f"{DAY}01.000Z\t1\t-\t-\tbot\tGOF"], "the last two")


def cut_and_bad_logs_are_told(program):
    """A cut line is no fault. After a fault the messages before it are printed, and the other logs too."""
    files = {"cut.log": SECOND + "1 bot 02000", "bad.log": SECOND + "1 bot 0\n1 stop\n", "a.log": FIRST}
    alone = [line for line in TOLD if "\t8\t" in line]
    with Folder(program, files) as folder:
        same(told(folder, ["cut.log"]), (alone, [], 0), "a cut record")
        lines, errors, status = told(folder, ["bad.log", "no-such.log", "a.log"])
        turned = [*TOLD[:4], TOLD[5], TOLD[4], *TOLD[6:]]
        same((lines, status), (turned, 1), "logs with a fault")
        same(errors, ["daide-gate: bad.log: line 13 is not a log line", "daide-gate: bad.log: column 7: the number of digits is odd",
                      "daide-gate: no-such.log: input could not be read"], "their faults")
        same(folder.run(["transcript", "--format", "xml"])[1:],
             (b"daide-gate: bad format; it must be text or json\n", 2), "an unknown form")


def messages_are_objects_of_json(program):
    """Each line is an object with all members in their order. Names have quotes, backslashes and other characters."""
    named = "0200" "001A" "480C" "4000" "4B61" "4B22" "4B5C" "4B27" "4BFC" "4B0A" "4B62" "4001" "4000" "4B31" "4001"
    log = record(f"1 bot {IM}", f"1 server {RM}", f"1 bot {named}", f"1 bot {TWO}", number=3)
    name = "NME 'a\"\\' #4b27 #4bfc #4b0a 'b'"
    with Folder(program, {'a "b"\\\x01.log': log}) as folder:
        lines, errors, status = told(folder, ["--format", "json", 'a "b"\\\x01.log'])
    same((errors, status), ([], 0), "told of JSON, and the status")
    first = {"time": f"{DAY}00.000Z", "record": 'a "b"\\\x01.log', "line": 4, "session": 3, "name": None, "power": None,
             "side": "bot", "kind": "IM", "length": 4, "text": None, "result": "relay", "place": None}
    second = {**first, "line": 5, "side": "server", "kind": "RM", "length": 0}
    text = "NME ( 'a\"\\' #4b27 #4bfc #4b0a 'b' ) ( '1' )"
    third = {**first, "line": 6, "name": name, "kind": "DM", "length": 26, "text": text}
    fourth = {**third, "line": 7, "length": 4, "text": "OBS GOF", "result": "huh", "place": 1}
    same([list(json.loads(line).items()) for line in lines],
         [list(wanted.items()) for wanted in (first, second, third, fourth)], "objects")
    same(lines[1], json.dumps(second, separators=(",", ":")), "an object to the byte")


def most_records_are_merged(program):
    """256 records, each with an IM of its own second, the last one first."""
    logs = {f"{n}.log": record(f"1 bot {IM}", number=1, began=f"00.{256 - n:03}") for n in range(256)}
    with Folder(program, logs) as folder:
        lines, errors, status = told(folder, list(logs))
        same((lines, errors, status), ([f"{DAY}00.{n:03}Z\t1\t-\t-\tbot\tIM 4" for n in range(1, 257)], [], 0), "256 records")


def aligned(rows):
    """Returns the lines of a table: each cell but the last is as wide as its column, and two spaces follow."""
    widths = [max(len(row[i]) for row in rows) for i in range(9)]
    return ["  ".join(cell.ljust(width) for cell, width in zip(row[:8], widths)) + "  " + row[8] for row in rows]


NAMES = ["session", "name", "power", "relayed", "PRN", "HUH", "faults", "first refusal", "end"]


def several_logs_end_with_a_table(program):
    """Each report is as for its file alone, after the file's name; then come the sessions of all logs."""
    files = {"a.log": FIRST, "b.log": SECOND, "leaves.log": LEAVES, "match.log": MATCH}
    table = aligned([
        NAMES,
        ["7", "NME 'Al'", "ENG", "5", "1", "1", "0", "line 11: bot prn", "FM of server"],
        ["8", "-", "FRA", "4", "0", "0", "1", "-", "fault 09 of bot: wrong length 0003 at byte 2"],
        ["-", "-", "-", "0", "0", "0", "0", "-", "FM of bot"],
        ["1", "-", "-", "3", "0", "0", "0", "-", "EM of server"],
        ["2", "-", "-", "2", "0", "1", "0", "line 8: bot huh 0", "stopped by the operator"],
    ])
    with Folder(program, files) as folder:
        for options in ([], ["--explain"]):
            reports = []
            for name in files:
                reports += [f"# {name}", *lines_of(folder.run(["check", *options, name])[0])]
            printed, errors, status = folder.run(["check", *options, *files])
            same((lines_of(printed), errors, status), ([*reports, *table], b"", 3), f"several logs {options}")


def logs_with_a_fault_are_in_the_table(program):
    """A fault names its file, the sessions before it are in the table, and the other files are judged."""
    files = {"bad.log": SECOND + "1 bot 0\n", "n\x01ö.log": LEAVES, "head.log": "daide-log 1\n"}
    rows = [NAMES, ["8", "-", "FRA", "4", "0", "0", "1", "-", "fault 09 of bot: wrong length 0003 at byte 2"],
            ["-", "-", "-", "0", "0", "0", "0", "-", "FM of bot"]]
    with Folder(program, files) as folder:
        report, _, status = folder.run(["check", "bad.log"])
        same(status, 1, "the status of the log with a fault")
        leaves = lines_of(folder.run(["check", "n\x01ö.log"])[0])
        printed, errors, status = folder.run(["check", "bad.log", "no-such.log", "head.log", "n\x01ö.log"])
        wanted = ["# bad.log", *lines_of(report), "# no-such.log", "# head.log", "# n?ö.log", *leaves, *aligned(rows)]
        same((lines_of(printed), status), (wanted, 1), "logs with a fault")
        faults = ["bad.log: line 13 is not a log line", "bad.log: column 7: the number of digits is odd",
                  "no-such.log: input could not be read", "head.log: line 2 is not a log line",
                  "head.log: column 1: the log ends before this line"]
        same(lines_of(errors), [f"daide-gate: {fault}" for fault in faults], "the faults")
        printed, errors, status = folder.run(["check", "-", "n\x01ö.log"], LEAVES.encode())
        wanted = ["# -", *leaves, "# n?ö.log", *leaves, *aligned([NAMES, rows[2], rows[2]])]
        same((lines_of(printed), errors, status), (wanted, b"", 0), "standard input and a file")


def logs_of_rows():
    """Returns the logs of the rows of `check`, without those that name files."""
    checked = [row.split("|")[1] for row in rows_of("checked") if row.split("|")[0].split()[-1] in ("check", "--explain")]
    logs = [log.strip() for log in (*checked, *(row.split("|")[0] for row in rows_of("explained-logs")))]
    return [log.replace("/", "\n") for log in logs]


def frames_of(report, has_sessions):
    """Yields the columns that a transcript has after the power, for each frame of a report with explanations."""
    lines = iter(report)
    for line in lines:
        words = line.split()[1 + has_sessions:]
        if line[:1].isdigit() and len(words) > 2 and words[1] != "fault":
            side, kind, length, *result = words
            text = next(lines)[4:] if kind == "DM" else f"{kind} {length}"
            yield [side, text] if result == ["relay"] else [side, text, " ".join(result)]


def logs_of_the_rows_are_told_as_reported(program):
    """For each log of the rows of `check`: a transcript has the frames of its report, and the table its counts."""
    for log in logs_of_rows():
        with Folder(program, {"a.log": log}) as folder:
            report, _, status = folder.run(["check", "--explain", "a.log"])
            report = lines_of(report)
            lines, _, transcribed = told(folder, ["a.log"])
            wanted = list(frames_of(report, log.startswith("daide-log 2")))
            same([line.split("\t")[4:] for line in lines], wanted, f"frames of {log!r}")
            same(transcribed, int(status == 1), f"status of a transcript of {log!r}")
            if status != 1:
                printed, _, _ = folder.run(["check", "--explain", "a.log", "a.log"])
                table = printed.decode().partition("\nsession  ")[2].splitlines()[1:]
                counts = [[int(cell) for cell in line.split("  ") if cell.strip().isdigit()][-4:] for line in table]
                last = [int(word) for word in report[-1].split()[1::2]]
                same([sum(column) for column in zip(*counts)], [2 * count for count in last], f"counts of {log!r}")


TESTS = [
    logs_of_the_rows_are_told_as_reported,
    messages_are_in_order_of_time,
    logs_without_times_come_first,
    clock_that_is_set_back_keeps_the_order,
    cut_and_bad_logs_are_told,
    messages_are_objects_of_json,
    most_records_are_merged,
    several_logs_end_with_a_table,
    logs_with_a_fault_are_in_the_table,
]
