//! Messages written as text, and rows of such messages with their verdicts.

use daide_grammar::level::Level;
use daide_grammar::side::Side2;
use daide_reader::verdict::Verdict;
use daide_test_support::words::counted;
use daide_token::token::Token;
use std::alloc::Global;
use std::test::Fail;

/// A side, a level, a message as text, and the verdict on it.
pub type Example<'a> = (Side2, Level, &'a str, Verdict);

/// Parses a side.
fn side_of(word: &str) -> Option<Side2> {
    match word {
        "client" => Some(Side2::Client),
        "server" => Some(Side2::ServerEnd),
        _ => None,
    }
}

/// Parses the number of a level.
fn level_named(word: &str) -> Option<Level> {
    match word.parse() {
        Ok(number) => Level::of(number),
        Err(_) => None,
    }
}

/// Parses a verdict: its name, and the place after `huh`.
fn verdict_of(text: &str) -> Option<Verdict> {
    match text {
        "relay" => Some(Verdict::Relay),
        "prn" => Some(Verdict::Prn),
        _ => match text.strip_prefix("huh ")?.parse() {
            Ok(place) => Some(Verdict::Huh(place)),
            Err(_) => None,
        },
    }
}

/// Parses a row: a side and a level | a message | the verdict, such as `client 60 | GOF GOF | huh 1`.
pub fn example_of(row: &str) -> Option<Example<'_>> {
    let (sender, rest) = row.split_once(" | ")?;
    let (text, verdict) = rest.split_once(" | ")?;
    let (side, level) = sender.split_once(' ')?;
    Some((
        side_of(side)?,
        level_named(level)?,
        text,
        verdict_of(verdict)?,
    ))
}

/// Parses `#` and four hexadecimal digits as a token.
fn token_of_code(word: &str) -> Option<Token> {
    let digits = word.strip_prefix('#')?;
    match u16::from_str_radix(digits, 16) {
        Ok(code) => Some(Token::from_code(code)),
        Err(_) => None,
    }
}

/// Parses a number as a token.
fn token_of_number(word: &str) -> Option<Token> {
    match word.parse() {
        Ok(number) => Token::of_number(number),
        Err(_) => None,
    }
}

/// Parses a word of the text form as a token: a bracket, a name, `#` and four hexadecimal digits, or a number.
fn token_of(word: &str) -> Option<Token> {
    match word.as_bytes() {
        b"(" => Some(Token::from_code(0x4000)),
        b")" => Some(Token::from_code(0x4001)),
        [b'#', ..] => token_of_code(word),
        [b'-' | b'0'..=b'9', ..] => token_of_number(word),
        _ => Token::by_name(word),
    }
}

/// Appends a token. Fails with the word if there is none.
fn push(tokens: &mut Vec<Token>, token: Option<Token>, word: &str) -> Result<(), Fail> {
    match token {
        Some(token) => Ok(tokens.push(token)?),
        None => Err(Fail::new(word)),
    }
}

/// Appends one token for each letter of a text.
fn push_letters(tokens: &mut Vec<Token>, letters: &[u8]) -> Result<(), Fail> {
    for letter in letters {
        tokens.push(Token::from_be([0x4B, *letter]))?;
    }
    Ok(())
}

/// Appends the tokens of a word, one for each letter of a quoted text.
fn push_word(tokens: &mut Vec<Token>, word: &str) -> Result<(), Fail> {
    match word.as_bytes() {
        [] => Ok(()),
        [b'\'', letters @ .., b'\''] => push_letters(tokens, letters),
        _ => push(tokens, token_of(word), word),
    }
}

/// Appends the tokens of a word, repeated by its count: `62*(` is 62 brackets.
fn read_word(tokens: &mut Vec<Token>, word: &str) -> Result<(), Fail> {
    let (count, word) = counted(word);
    for _time in 0..count {
        push_word(tokens, word)?;
    }
    Ok(())
}

/// Returns the tokens of a message in the text form, with single spaces between its words.
pub fn tokens_of_text(alloc: Global, text: &str) -> Result<Vec<Token>, Fail> {
    let mut tokens = Vec::new(alloc);
    for word in text.split(' ') {
        read_word(&mut tokens, word)?;
    }
    Ok(tokens)
}
