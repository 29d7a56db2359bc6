//! The rules for adding an operator's words, beyond what contracts state; and each public call once.

use daide_grammar::level::Level;
use daide_grammar::predict::Predict;
use daide_grammar::side::Side2;
use daide_test_support::rows::{holds, same};
use daide_token::class::Class;
use daide_token::token::Token;
use daide_words::extended::Extended;
use daide_words::operand::Operand;
use daide_words::slot::Slot;
use daide_words::word::{Word, WordError};
use daide_words::words::Words;
use std::test::Fail;

/// Builds a word from its parts.
fn word(name: [u8; 3], code: u16, slot: Slot, level: Level, operand: Operand) -> Word {
    Word {
        name,
        code: Token::from_code(code),
        slot,
        level,
        operand,
    }
}

/// Returns a press of a power, from level 20 on.
fn xyz() -> Word {
    word(*b"XYZ", 0x4A40, Slot::Press, Level::L20, Operand::Power)
}

/// Returns an arrangement of an arrangement, from level 30 on.
fn qqq() -> Word {
    word(
        *b"QQQ",
        0x4A41,
        Slot::Arrangement,
        Level::L30,
        Operand::Arrangement,
    )
}

/// A name | the slot of that name, if there is one.
const SLOTS: &[(&str, Option<Slot>)] = &[
    ("press", Some(Slot::Press)),
    ("arrangement", Some(Slot::Arrangement)),
    ("pres", None),
    ("Press", None),
    ("", None),
];

/// A name | the operand of that name, if there is one.
const OPERANDS: &[(&str, Option<Operand>)] = &[
    ("power", Some(Operand::Power)),
    ("powers", Some(Operand::Powers)),
    ("provinces", Some(Operand::Provinces)),
    ("order", Some(Operand::Order)),
    ("arrangement", Some(Operand::Arrangement)),
    ("press", Some(Operand::Press)),
    ("province", None),
    ("PRESS", None),
];

#[test]
fn slots_and_operands_have_their_names(_rt: HostRuntime) -> Result<(), Fail> {
    for (name, slot) in SLOTS {
        same(&Slot::by_name(name.as_bytes()), slot, name)?;
    }
    for (name, operand) in OPERANDS {
        same(&Operand::by_name(name.as_bytes()), operand, name)?;
    }
    Ok(())
}

/// Name, code, level and operand of a word for an arrangement | why it is refused after XYZ.
const REFUSED: &[([u8; 3], u16, Level, Operand, WordError)] = &[
    (*b"GOF", 0x4AFF, Level::L30, Operand::Power, WordError::Name),
    (*b"xyz", 0x4AFF, Level::L30, Operand::Power, WordError::Name),
    (*b"XYZ", 0x4AFF, Level::L30, Operand::Power, WordError::Name),
    (*b"A1B", 0x4AFF, Level::L30, Operand::Power, WordError::Name),
    (*b"NEW", 0x4A10, Level::L30, Operand::Power, WordError::Code),
    (*b"NEW", 0x4A0D, Level::L30, Operand::Power, WordError::Code),
    (*b"NEW", 0x4A12, Level::L30, Operand::Power, WordError::Code),
    (*b"NEW", 0x4A1B, Level::L30, Operand::Power, WordError::Code),
    (*b"NEW", 0x4A40, Level::L30, Operand::Power, WordError::Code),
    (*b"NEW", 0x4B00, Level::L30, Operand::Power, WordError::Code),
    (*b"NEW", 0x49FF, Level::L30, Operand::Power, WordError::Code),
    (*b"NEW", 0x4AFF, Level::L0, Operand::Power, WordError::Level),
    (
        *b"NEW",
        0x4AFF,
        Level::L30,
        Operand::Press,
        WordError::Operand,
    ),
    (*b"GOF", 0x4A10, Level::L30, Operand::Power, WordError::Name),
    (*b"NEW", 0x4A10, Level::L0, Operand::Power, WordError::Code),
    (*b"NEW", 0x4AFF, Level::L0, Operand::Press, WordError::Level),
];

/// Checks that a word is refused with this fault, and that the number of words stays 1.
fn check_refused(
    words: &mut Words,
    row: &([u8; 3], u16, Level, Operand, WordError),
) -> Result<(), Fail> {
    let (name, code, level, operand, fault) = row;
    let refused = word(*name, *code, Slot::Arrangement, *level, *operand);
    let answer = words.add(refused);
    same(&(answer, words.names().len()), &(Err(*fault), 1), code)
}

/// Checks that the words are XYZ and QQQ, with their names.
fn check_both(words: &Words) -> Result<(), Fail> {
    let names = [(xyz().code, *b"XYZ"), (qqq().code, *b"QQQ")];
    let is_named = words.names() == names.as_slice();
    let are_both = words.get(1) == Some(qqq()) && words.get(2).is_none();
    holds(is_named && are_both, "the names, and the words")
}

/// Adds XYZ, checks that each row is refused after it, and adds QQQ.
fn check_words(words: &mut Words) -> Result<(), Fail> {
    holds(words.add(xyz()) == Ok(()), "XYZ")?;
    for row in REFUSED {
        check_refused(words, row)?;
    }
    holds(words.add(qqq()) == Ok(()), "QQQ")
}

#[test]
fn words_are_refused_by_their_first_fault(_rt: HostRuntime) -> Result<(), Fail> {
    let mut words = Words::new();
    holds(words.names().is_empty(), "none yet")?;
    check_words(&mut words)?;
    check_both(&words)
}

#[test]
fn seventeenth_word_is_refused(_rt: HostRuntime) -> Result<(), Fail> {
    let mut words = Words::new();
    for number in 0..16u8 {
        let name = [b'Q', b'Q', b'A' + number];
        let code = 0x4A50 + u16::from(number);
        let added = word(name, code, Slot::Press, Level::L20, Operand::Power);
        same(&words.add(added), &Ok(()), &number)?;
    }
    let last = word(*b"gof", 0x4A10, Slot::Press, Level::L20, Operand::Power);
    let full = words.add(last);
    let count = words.names().len();
    let class = Extended::new(words).class_of(Token::from_code(0x4A5F));
    let told = (full, count, class.class());
    let want = (Err(WordError::Full), 16, Class::Word(15));
    same(&told, &want, &"the last, the names, the sixteenth")
}

/// Returns the classes of XYZ and QQQ, in a table with XYZ alone.
fn classes_of(table: &mut Extended) -> (Class, Class) {
    let xyz = table.class_of(xyz().code).class();
    (xyz, table.class_of(qqq().code).class())
}

/// Returns whether the start symbol has an error entry for XYZ, whether it is nullable, and the number of look-ups so
/// far.
fn asked_at_start(table: &mut Extended) -> (bool, bool, u64) {
    let start = table.start(Side2::Client, Level::L0);
    let word = table.class_of(xyz().code);
    let is_stop = table.predict(start, word).is_stop();
    let may_end = table.may_end(start);
    (is_stop, may_end, table.asked())
}

#[test]
fn answers_are_counted(_rt: HostRuntime) -> Result<(), Fail> {
    let mut words = Words::new();
    holds(words.add(xyz()) == Ok(()), "XYZ")?;
    let mut table = Extended::new(words);
    let want = (Class::Word(0), Class::Other);
    same(&classes_of(&mut table), &want, &"XYZ, and QQQ")?;
    same(&asked_at_start(&mut table), &(true, false, 2), &"asked")
}
