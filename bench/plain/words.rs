//! Levels of press, the words that an operator adds, and the limits of a log.

use crate::token::{is_free_code, is_protocol_name};

/// The most words that an operator may add.
pub const MAX_WORDS: u16 = 16;

/// A level of press, by its number.
#[derive(Clone, Copy, PartialEq, Eq, PartialOrd, Ord)]
pub enum Level {
    L0 = 0,
    L10 = 10,
    L20 = 20,
    L30 = 30,
    L40 = 40,
    L50 = 50,
    L60 = 60,
}

impl Level {
    const ALL: [Level; 7] = [Level::L0, Level::L10, Level::L20, Level::L30, Level::L40, Level::L50, Level::L60];

    /// Returns the level with this number.
    pub fn of(number: u16) -> Option<Level> {
        Level::ALL.into_iter().find(|level| *level as u16 == number)
    }

    /// Returns the greatest level that is neither above this number nor above `top`.
    pub fn highest(number: u16, top: Level) -> Level {
        let allowed = Level::ALL.into_iter().rev().find(|level| *level as u16 <= number);
        allowed.unwrap_or(Level::L0).min(top)
    }
}

/// What a word forms with its operand.
#[derive(Clone, Copy, PartialEq, Eq)]
pub enum Slot {
    Press,
    Arrangement,
}

impl Slot {
    pub fn by_name(name: &[u8]) -> Option<Slot> {
        match name {
            b"press" => Some(Slot::Press),
            b"arrangement" => Some(Slot::Arrangement),
            _ => None,
        }
    }
}

/// The operand in brackets after a word.
#[derive(Clone, Copy, PartialEq, Eq)]
pub enum Operand {
    Power,
    Powers,
    Provinces,
    Order,
    Arrangement,
    Press,
}

impl Operand {
    pub fn by_name(name: &[u8]) -> Option<Operand> {
        match name {
            b"power" => Some(Operand::Power),
            b"powers" => Some(Operand::Powers),
            b"provinces" => Some(Operand::Provinces),
            b"order" => Some(Operand::Order),
            b"arrangement" => Some(Operand::Arrangement),
            b"press" => Some(Operand::Press),
            _ => None,
        }
    }
}

/// A word of press that the operator adds to the grammar.
pub struct Word {
    pub name: [u8; 3],
    pub code: u16,
    pub slot: Slot,
    pub level: Level,
    pub operand: Operand,
}

impl Word {
    /// Returns whether the word is accepted after the given ones.
    pub fn is_accepted(&self, taken: &[Word]) -> bool {
        self.name.iter().all(u8::is_ascii_uppercase)
            && !is_protocol_name(&self.name)
            && is_free_code(self.code)
            && taken.iter().all(|word| word.name != self.name && word.code != self.code)
            && self.level != Level::L0
            && (self.slot, self.operand) != (Slot::Arrangement, Operand::Press)
    }
}

/// The limits of a log's sessions, and the operator's words.
pub struct Limits {
    pub top_level: Level,
    pub max_body: u16,
    pub max_depth: u16,
    pub words: Vec<Word>,
}

impl Limits {
    /// Returns the limits without words, or `None` if one is out of its range.
    pub fn checked(level: u16, max_body: u16, max_depth: u16) -> Option<Limits> {
        let is_right =
            max_body.is_multiple_of(2) && (512..=65_526).contains(&max_body) && (4..=254).contains(&max_depth);
        let top_level = Level::of(level)?;
        is_right.then_some(Limits { top_level, max_body, max_depth, words: Vec::new() })
    }
}
