//! Verdicts on messages, read as a session reads them.
//!
//! A session reads the received part of a body, slice by slice, over the table with an operator's words. So each row is
//! judged by that reader: with its body whole, in pieces of 512 bytes, and in single bytes; with words that the row
//! does not use, and without words. Some rows are also judged token by token, over each table and with either stack
//! size.

use crate::messages::{Example, example_of, tokens_of_text};
use daide_grammar::dense::Dense;
use daide_grammar::level::Level;
use daide_grammar::plain::Plain;
use daide_grammar::predict::Predict;
use daide_grammar::side::Side2;
use daide_reader::reader::Reader;
use daide_reader::verdict::Verdict;
use daide_test_support::rows::{holds, same};
use daide_test_support::words::two_words;
use daide_token::token::Token;
use daide_words::extended::Extended;
use daide_words::words::Words;
use std::alloc::{AllocError, Global};
use std::test::Fail;

/// The longest body, in bytes.
pub const LONGEST: usize = 65_534;

/// The sizes of a body's pieces: the whole body, the size of a turn's buffer, and one byte.
const PIECES: &[usize] = &[LONGEST, 512, 1];

/// Returns the body of a message. Fails if it has more than `LONGEST` bytes.
pub fn body_of(alloc: Global, message: &[Token]) -> Result<Vec<u8>, Fail> {
    let mut body = Vec::new(alloc);
    for token in message {
        body.extend_from_slice(&token.to_be())?;
    }
    if body.len() > LONGEST {
        return Err(Fail::new("the body is too long"));
    }
    Ok(body)
}

/// Returns the verdict on a body that is read in pieces of `piece` bytes, and the number of look-ups for it.
pub fn judged<T: Predict, const N: usize>(
    reader: &mut Reader<T, N>,
    sender: (Side2, Level),
    body: &[u8],
    piece: usize,
) -> (Verdict, u64) {
    let (side, level) = sender;
    reader.start(side, level);
    for turn in 1..=LONGEST {
        let end = turn.saturating_mul(piece).min(body.len());
        if reader.tokens() <= end / 2 {
            reader.read(&body[..end]);
        }
        if end == body.len() {
            break;
        }
    }
    let verdict = reader.finish();
    (verdict, reader.steps())
}

/// Checks that a body has this verdict whatever the size of its pieces, with the same number of look-ups.
fn assert_judged<T: Predict, const N: usize>(
    reader: &mut Reader<T, N>,
    sender: (Side2, Level),
    body: &[u8],
    want: Verdict,
    text: &str,
) -> Result<(), Fail> {
    let whole = judged(reader, sender, body, LONGEST);
    same(&whole.0, &want, &text)?;
    for piece in PIECES {
        holds(judged(reader, sender, body, *piece) == whole, text)?;
    }
    Ok(())
}

/// The readers of two sessions: without words, and with words that no row uses.
#[derive(Drop)]
struct Sessions {
    plain: Reader<Extended, 2048>,
    worded: Reader<Extended, 2048>,
}

impl Sessions {
    /// Checks that a row has its verdict in both sessions.
    fn assert_row(&mut self, alloc: Global, row: &str) -> Result<(), Fail> {
        let Some((side, level, text, want)) = example_of(row) else {
            return Err(Fail::new(row));
        };
        let message = tokens_of_text(alloc, text)?;
        let body = body_of(alloc, message.as_slice())?;
        assert_judged(&mut self.plain, (side, level), body.as_slice(), want, text)?;
        assert_judged(&mut self.worded, (side, level), body.as_slice(), want, text)
    }
}

/// Checks that each example has its verdict in a session, whatever the size of its pieces. A row is a side and a level
/// | a message | the verdict on it.
pub fn assert_verdicts(alloc: Global, rows: &str) -> Result<(), Fail> {
    let words = two_words();
    let mut sessions = Sessions {
        plain: Reader::new(Extended::new(Words::new()), 62),
        worded: Reader::new(Extended::new(words), 62),
    };
    for row in rows.lines() {
        sessions.assert_row(alloc, row)?;
    }
    Ok(())
}

// ---- token by token

/// The verdict on a message, and the number of look-ups after each of its tokens and at its end.
#[derive(Drop)]
struct Course {
    verdict: Verdict,
    steps: Vec<u64>,
}

/// Reads a message token by token.
fn course_of<T: Predict, const N: usize>(
    alloc: Global,
    reader: &mut Reader<T, N>,
    (side, level): (Side2, Level),
    message: &[Token],
) -> Result<Course, AllocError> {
    let mut steps = Vec::new(alloc);
    reader.start(side, level);
    for token in message {
        if reader.tokens() == LONGEST / 2 {
            break;
        }
        reader.push(*token);
        steps.push(reader.steps())?;
    }
    let verdict = reader.finish();
    steps.push(reader.steps())?;
    Ok(Course { verdict, steps })
}

/// Checks that a reader has this course for a message.
fn assert_alike<T: Predict, const N: usize>(
    alloc: Global,
    reader: &mut Reader<T, N>,
    (side, level, text, _): &Example<'_>,
    message: &[Token],
    want: &Course,
) -> Result<(), Fail> {
    let course = course_of(alloc, reader, (*side, *level), message)?;
    holds(course.verdict == want.verdict, text)?;
    holds(course.steps.as_slice() == want.steps.as_slice(), text)
}

/// Readers over each table, with both stack sizes.
#[derive(Drop)]
struct Readers {
    plain: Reader<Plain, 512>,
    roomy: Reader<Plain, 2048>,
    dense: Reader<Dense, 512>,
    extended: Reader<Extended, 2048>,
}

impl Readers {
    /// Checks that each reader has the same course as the plain one.
    fn assert_all_alike(
        &mut self,
        alloc: Global,
        row: &Example<'_>,
        message: &[Token],
        want: &Course,
    ) -> Result<(), Fail> {
        assert_alike(alloc, &mut self.roomy, row, message, want)?;
        assert_alike(alloc, &mut self.dense, row, message, want)?;
        assert_alike(alloc, &mut self.extended, row, message, want)
    }

    /// Checks that a row has its verdict, and the same course in each reader.
    fn assert_row(&mut self, alloc: Global, row: &str) -> Result<(), Fail> {
        let Some(example) = example_of(row) else {
            return Err(Fail::new(row));
        };
        let (side, level, text, want) = &example;
        let message = tokens_of_text(alloc, text)?;
        let course = course_of(alloc, &mut self.plain, (*side, *level), message.as_slice())?;
        same(&course.verdict, want, text)?;
        self.assert_all_alike(alloc, &example, message.as_slice(), &course)
    }
}

/// Checks that each example has its verdict token by token, and the same course over each table and with both stack
/// sizes.
pub fn assert_courses(alloc: Global, rows: &str) -> Result<(), Fail> {
    let words = Words::new();
    let mut readers = Readers {
        plain: Reader::new(Plain::new(), 62),
        roomy: Reader::new(Plain::new(), 62),
        dense: Reader::new(Dense::new(), 62),
        extended: Reader::new(Extended::new(words), 62),
    };
    for row in rows.lines() {
        readers.assert_row(alloc, row)?;
    }
    Ok(())
}
