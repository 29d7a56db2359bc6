//! Reports with explanations, worked out from the protocol.

use daide_log::{LogFault, check_log, explain_log};
use daide_log_lines::text::LONGEST_LINE;
use daide_test_support::rows::{holds, same};
use std::alloc::Global;
use std::test::Fail;

/// A log | its report with explanations | the number of incomplete frames.
const ROWS: &[(&str, &str, u32)] = &[
    // a frame over two lines with comments between, PRN and HUH
    (
        "daide-log 1\nconfig 60 1024 16\n# began\nbot 00000004\nbot 0001DA10\nserver 01000000\n# a bracket\r\n\nbot 02000004\nbot 48034000\nbot 02000004480F4803\nend bot\n",
        "# began\n5 bot IM 4 relay\n6 server RM 0 relay\n# a bracket\n10 bot DM 4 prn\n    GOF (\n    judged at level 0\n    PRN ( GOF ( )\n    unpaired: ( at 1\n11 bot DM 4 huh 1\n    OBS GOF\n    judged at level 0\n    HUH ( OBS ERR GOF )\n    expected: <end>\n12 bot end\nrelayed 2 prn 1 huh 1 faults 0\n",
        0,
    ),
    // two frames in one line, the second an empty message
    (
        "daide-log 1\nconfig 60 1024 16\nbot 000000040001DA10\nserver 01000000\nbot 02000002480F02000000\n",
        "3 bot IM 4 relay\n4 server RM 0 relay\n5 bot DM 2 relay\n    OBS\n5 bot DM 0 huh 0\n    \n    judged at level 0\n    HUH ( ERR )\n    expected: DRW GOF HLO HST HUH IAM MAP MDF MIS NME NOT NOW OBS ORD PRN REJ SCO SUB TME YES ADM\nrelayed 3 prn 0 huh 1 faults 0\n",
        0,
    ),
    // faults: a header, an initial message, an invalid token in the middle of a piece, the timer
    (
        "daide-log 1\nconfig 60 1024 16\nbot 000000040001DA10\nserver 01000000\nbot 020000\nbot 03\n",
        "3 bot IM 4 relay\n4 server RM 0 relay\n6 bot fault 09\n    wrong length\n    bytes: 02 00 00 03\nrelayed 2 prn 0 huh 0 faults 1\n",
        0,
    ),
    (
        "daide-log 1\nconfig 60 1024 16\nbot 0000000400010000\n",
        "3 bot fault 04\n    wrong magic number\n    bytes: 00 00 00 04 00 01 00 00\nrelayed 0 prn 0 huh 0 faults 1\n",
        0,
    ),
    (
        "daide-log 1\nconfig 60 1024 16\nbot 000000040001DA10\nserver 01000000\nserver 0200\nbot 02000008480358004803480F\n",
        "3 bot IM 4 relay\n4 server RM 0 relay\n6 bot fault 0E\n    invalid token\n    bytes: 58 00 at token 1\n    server: 2 of 4 bytes of a header\nrelayed 2 prn 0 huh 0 faults 1\n",
        1,
    ),
    (
        "daide-log 1\nconfig 60 1024 16\ntimer\n",
        "3 bot fault 01\n    no IM in time\nrelayed 0 prn 0 huh 0 faults 1\n",
        0,
    ),
    // incomplete frames, and a log without its last line feed
    (
        "daide-log 1\nconfig 60 1024 16\nbot 0000000400",
        "    bot: 5 of 8 bytes of a frame\nrelayed 0 prn 0 huh 0 faults 0\n",
        1,
    ),
    (
        "daide-log 2\nconfig 60 1024 16 3 0\n1 bot 0000000400\n2 bot 000000040001DA10\n2 server 010000\n# the end",
        "4 2 bot IM 4 relay\n# the end\n    1 bot: 5 of 8 bytes of a frame\n    2 server: 3 of 4 bytes of a header\nrelayed 1 prn 0 huh 0 faults 0\n",
        2,
    ),
    // a last line that is cut: half a byte, a word, a number; and with an incomplete frame before it
    (
        "daide-log 2\nconfig 60 1024 16 1 0\n1 bot 000000040001DA10\n1 server 01000000\n1 bot 02000002480",
        "3 1 bot IM 4 relay\n4 1 server RM 0 relay\n    line 5 is cut\nrelayed 2 prn 0 huh 0 faults 0\n",
        1,
    ),
    (
        "daide-log 1\nconfig 60 1024 16\n# x\nend bo",
        "# x\n    line 4 is cut\nrelayed 0 prn 0 huh 0 faults 0\n",
        1,
    ),
    (
        "daide-log 2\nconfig 60 1024 16 2 0\n2 bot 000000\n1",
        "    line 4 is cut\n    2 bot: 3 of 4 bytes of a header\nrelayed 0 prn 0 huh 0 faults 0\n",
        2,
    ),
    // an operator's words by their names
    (
        "daide-log 2\nconfig 60 1024 16 1 1\nword XYZ 4A40 press 20 power\n1 bot 000000040001DA10\n1 server 01000000\n1 bot 020000024A40\n",
        "4 1 bot IM 4 relay\n5 1 server RM 0 relay\n6 1 bot DM 2 huh 0\n    XYZ\n    judged at level 0\n    HUH ( ERR XYZ )\n    expected: DRW GOF HLO HST HUH IAM MAP MDF MIS NME NOT NOW OBS ORD PRN REJ SCO SUB TME YES ADM\nrelayed 2 prn 0 huh 1 faults 0\n",
        0,
    ),
];

/// The first lines of a record, and their report.
const BEGUN: &str =
    "daide-log 2\nconfig 60 1024 16 1 0\n1 bot 000000040001DA10\n1 server 01000000\n";

const BEGUN_REPORT: &str = "3 1 bot IM 4 relay\n4 1 server RM 0 relay\n";

/// The last line of a record.
const LAST_LINE: &str = "1 bot 02000002480F";

/// What the report of `BEGUN` and a part of `LAST_LINE` has after that of `BEGUN`, if the line is cut.
const CUT: &str = "    line 5 is cut\nrelayed 2 prn 0 huh 0 faults 0\n";

/// A length of `LAST_LINE` at which it is no cut line | what the report has after that of `BEGUN` | the number of
/// incomplete frames.
const PARTS: &[(usize, &str, u32)] = &[
    (0, "relayed 2 prn 0 huh 0 faults 0\n", 0),
    (
        8,
        "    1 bot: 1 of 4 bytes of a header\nrelayed 2 prn 0 huh 0 faults 0\n",
        1,
    ),
    (
        10,
        "    1 bot: 2 of 4 bytes of a header\nrelayed 2 prn 0 huh 0 faults 0\n",
        1,
    ),
    (
        12,
        "    1 bot: 3 of 4 bytes of a header\nrelayed 2 prn 0 huh 0 faults 0\n",
        1,
    ),
    (
        14,
        "    1 bot: 4 of 6 bytes of a frame\nrelayed 2 prn 0 huh 0 faults 0\n",
        1,
    ),
    (
        16,
        "    1 bot: 5 of 6 bytes of a frame\nrelayed 2 prn 0 huh 0 faults 0\n",
        1,
    ),
    (
        18,
        "5 1 bot DM 2 relay\n    OBS\nrelayed 3 prn 0 huh 0 faults 0\n",
        0,
    ),
];

/// Returns what the report of `BEGUN` and these first bytes of `LAST_LINE` has after that of `BEGUN`, and the number of
/// incomplete frames.
fn rest_of_report(length: usize) -> (&'static str, u32) {
    for (other, rest, unfinished) in PARTS {
        if *other == length {
            return (rest, *unfinished);
        }
    }
    (CUT, 1)
}

/// Returns the number of incomplete frames or the fault, and the report.
fn explained(alloc: Global, log: &str) -> Result<(Option<u32>, Option<LogFault>, String), Fail> {
    let mut bytes = log.as_bytes();
    let mut report = Vec::new(alloc);
    let written = match explain_log(alloc, &mut bytes, &mut report) {
        Ok(answer) => (Some(answer.unfinished), None),
        Err(fault) => (None, Some(fault)),
    };
    Ok((written.0, written.1, String::from_utf8(report)?))
}

#[test]
fn reports_are_explained(rt: HostRuntime) -> Result<(), Fail> {
    for (log, report, unfinished) in ROWS {
        let (answer, _fault, written) = explained(rt.alloc(), log)?;
        same(&written.as_str(), report, log)?;
        same(&answer, &Some(*unfinished), log)?;
    }
    Ok(())
}

#[test]
fn faults_come_after_what_is_explained(rt: HostRuntime) -> Result<(), Fail> {
    let log = "daide-log 1\nconfig 60 1024 16\n# x\nbot 0000\nbot 0\n";
    let (_answer, fault, written) = explained(rt.alloc(), log)?;
    same(&written.as_str(), &"# x\n", &log)?;
    same(&fault, &Some(LogFault::BadLine(5)), &log)
}

/// A log whose last line is cut has a fault without explanations, and so has one that ends within its head.
#[test]
fn cut_lines_are_faults_elsewhere(rt: HostRuntime) -> Result<(), Fail> {
    let alloc = rt.alloc();
    let log = "daide-log 1\nconfig 60 1024 16\nbot 03000000\nbot 0";
    let mut report = Vec::new(alloc);
    let plain = check_log(alloc, &mut log.as_bytes(), &mut report);
    same(&plain.err(), &Some(LogFault::BadLine(4)), &log)?;
    holds(report.as_slice() == b"3 bot FM 0 drop\n".as_slice(), log)?;
    let head = "daide-log 1\nconfig 60 10";
    let (_answer, fault, _written) = explained(alloc, head)?;
    same(&fault, &Some(LogFault::BadLine(2)), &head)
}

#[test]
fn records_are_cut_at_each_byte_of_their_last_line(rt: HostRuntime) -> Result<(), Fail> {
    let alloc = rt.alloc();
    for length in 0..=LAST_LINE.len() {
        let log = format!(in alloc; "{BEGUN}{}", &LAST_LINE[..length])?;
        let (rest, unfinished) = rest_of_report(length);
        let report = format!(in alloc; "{BEGUN_REPORT}{rest}")?;
        let (answer, _fault, written) = explained(alloc, log.as_str())?;
        same(&written, &report, &length)?;
        same(&answer, &Some(unfinished), &length)?;
    }
    Ok(())
}

/// A last line without a form is cut at each length that a line may have.
#[test]
fn last_lines_of_each_length_are_cut(rt: HostRuntime) -> Result<(), Fail> {
    let alloc = rt.alloc();
    let mut log = format!(in alloc; "{BEGUN}")?;
    let report = format!(in alloc; "{BEGUN_REPORT}{CUT}")?;
    for length in 1..=LONGEST_LINE {
        log.push('x')?;
        let (answer, _fault, written) = explained(alloc, log.as_str())?;
        same(&written, &report, &length)?;
        same(&answer, &Some(1), &length)?;
    }
    log.push('x')?;
    let (_answer, fault, written) = explained(alloc, log.as_str())?;
    same(&written.as_str(), &BEGUN_REPORT, &"too long")?;
    same(&fault, &Some(LogFault::LineTooLong(5)), &"too long")
}
